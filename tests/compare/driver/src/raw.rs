//! Calls whose lent lists rust/kundatrezo keeps to itself, by its declarations of the C interface, so that any list can be lent.

use checker::calls::{Answer, Draws, Rows, Share};
use kundatrezo::sys::{self, Shared};

fn shared<'a>(draws: Draws<'a>, share: Share<'a>) -> Shared<'a> {
    let Share { shares, marks, caller } = share;
    Shared { main: draws.main, second: draws.second, base: draws.base, shares, marks, caller }
}

pub fn run_shared(job: &[u8], draws: Draws<'_>, noiseless: &[u64], rows: Rows<'_>, share: Share<'_>) -> Answer {
    let totals = rows.totals.expect("a run by a caller with a share keeps totals");
    let lent = kundatrezo::Rows::new(rows.frames_x, rows.frames_z, rows.deltas).with_totals(totals);
    let said = sys::run_shared(job, lent, noiseless, &mut shared(draws, share));
    Answer { number: said.number, line: said.line, figure: 0 }
}

pub fn settle_shared(job: &[u8], draws: Draws<'_>, noiseless: &[u64], share: Share<'_>, out: &mut [u8]) -> Answer {
    let said = sys::settle_shared(job, noiseless, &mut shared(draws, share), out);
    Answer { number: said.answer.number, line: said.answer.line, figure: said.figure }
}

/// Where a line begins, and its bytes without LF.
pub fn line(job: &[u8], number: u64) -> (usize, usize) {
    let part = sys::line(job, number);
    (part.start, part.len)
}
