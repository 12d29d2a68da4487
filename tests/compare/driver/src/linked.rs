//! The engine's calls, through the crate that Rust programs use (rust/kundatrezo), so that the comparison tests that crate too; those with shares by `raw`.

use crate::raw;
use checker::calls::{Answer, Asked, Calls, Draws, Rows, Share};
use std::io::Write;
use std::process::{Command, Stdio};

/// A call's answer with the count or byte figure that it gives.
fn figured(outcome: Result<u64, kundatrezo::Refusal>) -> Answer {
    match outcome {
        Ok(figure) => Answer::success(figure),
        Err(refusal) => Answer { number: refusal.number.get(), line: refusal.line, figure: refusal.bytes_needed },
    }
}

/// The answer of a call that gives nothing but success.
fn plain(outcome: Result<(), kundatrezo::Refusal>) -> Answer {
    figured(outcome.map(|()| 0))
}

/// The answer of a call that writes a text.
fn written(outcome: Result<usize, kundatrezo::Refusal>) -> Answer {
    figured(outcome.map(|bytes| bytes as u64))
}

fn words<'a>(draws: Draws<'a>) -> kundatrezo::Draws<'a> {
    kundatrezo::Draws::new(draws.main).with_second(draws.second, draws.base)
}

/// What an examination says: qubits, outcomes, shots, outcomes recorded and lines, or the refusal's number and line.
pub fn examined(job: &[u8]) -> Result<[u64; 5], (u64, u64)> {
    let found = kundatrezo::examine(job).map_err(|refusal| (refusal.number.get(), refusal.line))?;
    let kundatrezo::Examination { qubits, outcomes, shots, recorded, lines, .. } = found;
    Ok([qubits, outcomes, shots, recorded, lines].map(|count| count as u64))
}

/// The engine.
pub struct Linked;

impl Calls for Linked {
    fn check(&self, job: &[u8]) -> Answer {
        plain(kundatrezo::check(job))
    }

    fn run(&self, job: &[u8], draws: Draws<'_>, noiseless: &[u64], rows: Rows<'_>) -> Answer {
        let lent = kundatrezo::Rows::new(rows.frames_x, rows.frames_z, rows.deltas);
        let lent = match rows.totals {
            Some(totals) => lent.with_totals(totals),
            None => lent,
        };
        plain(kundatrezo::run(job, lent, noiseless, words(draws)))
    }

    fn settle(&self, job: &[u8], draws: Draws<'_>, noiseless: &[u64], out: &mut [u8]) -> Answer {
        written(kundatrezo::settle(job, noiseless, words(draws), out))
    }

    fn run_shared(&self, job: &[u8], draws: Draws<'_>, noiseless: &[u64], rows: Rows<'_>, share: Share<'_>) -> Answer {
        raw::run_shared(job, draws, noiseless, rows, share)
    }

    fn settle_shared(
        &self,
        job: &[u8],
        draws: Draws<'_>,
        noiseless: &[u64],
        share: Share<'_>,
        out: &mut [u8],
    ) -> Answer {
        raw::settle_shared(job, draws, noiseless, share, out)
    }

    fn walk(&self, job: &[u8], shot: u64, set: &[u64]) -> Answer {
        figured(kundatrezo::walk(job, shot, set))
    }

    fn annotate(&self, job: &[u8], p: u64, out: &mut [u8]) -> Answer {
        written(kundatrezo::annotate(job, f64::from_bits(p), out))
    }

    fn locations(&self, job: &[u8]) -> Answer {
        figured(kundatrezo::locations(job))
    }

    fn correlation(&self, job: &[u8]) -> Answer {
        plain(kundatrezo::correlation(job))
    }

    fn fault_table(&self, job: &[u8], groups: &[u64], out: &mut [u8]) -> Answer {
        written(kundatrezo::write_fault_table(job, groups, out))
    }

    fn by_shot(&self, outcomes: u64, shots: u64, deltas: &[u64], rows: &mut [u64]) -> Answer {
        plain(kundatrezo::by_shot(outcomes, shots, deltas, rows))
    }

    fn by_outcome(&self, outcomes: u64, shots: u64, rows: &[u64], deltas: &mut [u64]) -> Answer {
        plain(kundatrezo::by_outcome(outcomes, shots, rows, deltas))
    }

    fn fill(&self, seed: u64, words: &mut [u64]) -> Answer {
        plain(kundatrezo::fill(seed, words))
    }

    fn make(&self, asked: Asked, out: &mut [u8]) -> Answer {
        let Asked { qubits, outcomes, shots, lines, seed } = asked;
        written(kundatrezo::make(kundatrezo::JobParameters { qubits, outcomes, shots, lines, seed }, out))
    }

    /// The printing program is a program: its path is in `KUNDATREZO_PRINT`.
    fn print(&self, input: &[u8]) -> Option<Vec<u8>> {
        let program = std::env::var_os("KUNDATREZO_PRINT")?;
        let mut child = Command::new(program)
            .stdin(Stdio::piped())
            .stdout(Stdio::piped())
            .spawn()
            .expect("KUNDATREZO_PRINT is a program");
        let mut stdin = child.stdin.take().expect("it is piped");
        // A program may stop reading an input that is too long; what it prints counts all the same.
        _ = stdin.write_all(input);
        drop(stdin);
        Some(child.wait_with_output().expect("the program ends").stdout)
    }
}
