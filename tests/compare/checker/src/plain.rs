//! The calls in the plainest form: the sentences of document 01, one shot at a time.

pub mod around;
pub mod by_shot;
mod draws;
pub mod fault_table;
mod frame;
mod making;
mod settling;
pub mod shares;
mod walk;

use crate::calls::{Answer, Asked, Calls, Draws, Rows, Share};
use crate::job::{Header, Job, MAX_BYTES, MAX_PRINTED_BYTES, Refusal, usize_of};
use crate::read::{self, is_probability, read};
use by_shot::{Shape, transpose};
use frame::Frame;
use settling::Settled;
use shares::{Available, need_marks};

pub use settling::{settled, settled_and_read};
pub use walk::{need_walkable, walk};

/// The calls by document 01 alone.
pub struct Plain;

impl Calls for Plain {
    fn check(&self, job: &[u8]) -> Answer {
        Answer::of(read::check(job))
    }

    fn run(&self, job: &[u8], draws: Draws<'_>, noiseless: &[u64], rows: Rows<'_>) -> Answer {
        Answer::of(run(job, draws, noiseless, rows))
    }

    fn settle(&self, job: &[u8], draws: Draws<'_>, noiseless: &[u64], out: &mut [u8]) -> Answer {
        let text = read(job).and_then(|job| {
            need_words(&[(noiseless, job.header.outcome_words())])?;
            settled(&job, draws, noiseless).map(|settled| settled.text(&job))
        });
        text.map_or_else(Answer::from, |text| deliver_settled(&text, out))
    }

    fn run_shared(&self, job: &[u8], draws: Draws<'_>, noiseless: &[u64], rows: Rows<'_>, share: Share<'_>) -> Answer {
        Answer::of(run_shared(job, draws, noiseless, rows, share))
    }

    fn settle_shared(
        &self,
        job: &[u8],
        draws: Draws<'_>,
        noiseless: &[u64],
        share: Share<'_>,
        out: &mut [u8],
    ) -> Answer {
        settle_shared(job, draws, noiseless, share, out).unwrap_or_else(Answer::from)
    }

    fn walk(&self, job: &[u8], shot: u64, set: &[u64]) -> Answer {
        let count = read(job).and_then(|job| walk(&job, shot, set));
        count.map_or_else(Answer::from, Answer::success)
    }

    fn annotate(&self, job: &[u8], p: u64, out: &mut [u8]) -> Answer {
        let text = read(job).and_then(|job| {
            need_probability(p)?;
            around::annotated(&job, p)
        });
        text.map_or_else(Answer::from, |text| deliver(&text, out))
    }

    fn locations(&self, job: &[u8]) -> Answer {
        read(job).map_or_else(Answer::from, |job| Answer::success(around::locations(&job)))
    }

    fn correlation(&self, job: &[u8]) -> Answer {
        Answer::of(read(job).and_then(|job| around::correlation(&job)))
    }

    fn fault_table(&self, job: &[u8], groups: &[u64], out: &mut [u8]) -> Answer {
        let text = read(job).and_then(|job| fault_table::fault_table(&job, groups));
        text.map_or_else(Answer::from, |text| deliver(&text, out))
    }

    fn by_shot(&self, outcomes: u64, shots: u64, deltas: &[u64], rows: &mut [u64]) -> Answer {
        Answer::of(Shape::of_counts(outcomes, shots).and_then(|shape| transpose(shape, deltas, rows)))
    }

    fn by_outcome(&self, outcomes: u64, shots: u64, rows: &[u64], deltas: &mut [u64]) -> Answer {
        Answer::of(Shape::of_counts(outcomes, shots).and_then(|shape| transpose(shape.turned(), rows, deltas)))
    }

    fn fill(&self, seed: u64, words: &mut [u64]) -> Answer {
        Answer::of(making::fill(seed, words))
    }

    fn make(&self, asked: Asked, out: &mut [u8]) -> Answer {
        making::made(asked).map_or_else(Answer::from, |text| deliver(&text, out))
    }

    fn print(&self, input: &[u8]) -> Option<Vec<u8>> {
        Some(print_with(self, input))
    }
}

// ---- what every implementation shares: refusals, and the text that a call leaves

/// 13: whether each lent list has the words it needs.
///
/// # Errors
///
/// The refusal, where one is too short.
pub fn need_words(lists: &[(&[u64], usize)]) -> Result<(), Refusal> {
    let short = lists.iter().any(|(list, need)| list.len() < *need);
    if short { Err(Refusal::of_call(13)) } else { Ok(()) }
}

/// 11 of annotation's own p.
///
/// # Errors
///
/// The refusal, where p doesn't pass.
pub fn need_probability(p: u64) -> Result<(), Refusal> {
    if is_probability(p) { Ok(()) } else { Err(Refusal::of_call(11)) }
}

/// The end of a call that writes a text: the text at the front of `out`, or 15.
pub fn deliver(text: &[u8], out: &mut [u8]) -> Answer {
    if text.len() > out.len().min(MAX_BYTES) {
        return Refusal::of_call(15).into();
    }
    out[..text.len()].copy_from_slice(text);
    Answer::success(text.len() as u64)
}

/// Settling's end: as annotation's, but 15 has a figure too, exactly the need (note 10).
pub fn deliver_settled(text: &[u8], out: &mut [u8]) -> Answer {
    Answer { figure: text.len() as u64, ..deliver(text, out) }
}

/// The printing program around a run.
///
/// # Panics
///
/// Panics if the run refuses a job that passes the checks by anything but 14.
pub fn print_with(calls: &impl Calls, input: &[u8]) -> Vec<u8> {
    let refused = |refusal: Refusal| format!("ok=0 refusal={} line={}\n", refusal.number, refusal.line).into_bytes();
    if input.len() > MAX_PRINTED_BYTES {
        return refused(Refusal::of_call(13));
    }
    let job = match read(input) {
        Ok(job) => job,
        Err(refusal) => return refused(refusal),
    };
    let header = job.header;
    if header.qubits > 64 || header.outcomes > 256 || header.shots > 64 {
        return refused(Refusal::of_call(13));
    }
    let (mut frames_x, mut frames_z) = (vec![0; header.frame_words()], vec![0; header.frame_words()]);
    let (mut deltas, noiseless) = (vec![0; header.outcome_words()], vec![0; header.outcome_words()]);
    let draws = Draws { base: 0, main: &[], second: &[] };
    let rows = Rows { frames_x: &mut frames_x, frames_z: &mut frames_z, deltas: &mut deltas, totals: None };
    let answer = calls.run(input, draws, &noiseless, rows);
    if answer.number != 0 {
        assert_eq!(answer.number, 14, "a checked job with enough words");
        return refused(Refusal::at(answer.number, answer.line));
    }
    printed(&job, &deltas)
}

fn printed(job: &Job<'_>, deltas: &[u64]) -> Vec<u8> {
    let header = job.header;
    let mut text = format!("ok=1 qubits={} outcomes={} shots={}\n", header.qubits, header.outcomes, header.shots);
    for id in 0..job.recorded {
        let bits: String =
            (0..header.shots).map(|shot| if bit(deltas, &job.header, id, shot) { '1' } else { '0' }).collect();
        text += &format!("id={id} delta={bits}\n");
    }
    text.into_bytes()
}

/// The bit of a row in a shot.
#[must_use]
pub fn bit(words: &[u64], header: &Header, row: u64, shot: u64) -> bool {
    let word = words[usize_of(row) * header.row_words() + usize_of(shot) / 64];
    word >> (shot % 64) & 1 == 1
}

// ---- running

fn run(bytes: &[u8], draws: Draws<'_>, noiseless: &[u64], rows: Rows<'_>) -> Result<(), Refusal> {
    let job = read(bytes)?;
    need_rows(&job.header, noiseless, &rows)?;
    let mut rows = cleared(&job.header, rows);
    run_settled(&job, &settled(&job, draws, noiseless)?, &mut rows);
    Ok(())
}

/// 13 of a run.
///
/// # Errors
///
/// The refusal.
pub fn need_rows(header: &Header, noiseless: &[u64], rows: &Rows<'_>) -> Result<(), Refusal> {
    let (frame_words, outcome_words) = (header.frame_words(), header.outcome_words());
    need_words(&[
        (rows.frames_x, frame_words),
        (rows.frames_z, frame_words),
        (rows.deltas, outcome_words),
        (noiseless, outcome_words),
    ])?;
    rows.totals.as_ref().map_or(Ok(()), |totals| need_words(&[(totals, usize_of(header.outcomes))]))
}

/// The words that a run needs, which are zero at its start.
pub fn cleared<'a>(header: &Header, rows: Rows<'a>) -> Rows<'a> {
    let mut rows = Rows {
        frames_x: &mut rows.frames_x[..header.frame_words()],
        frames_z: &mut rows.frames_z[..header.frame_words()],
        deltas: &mut rows.deltas[..header.outcome_words()],
        totals: rows.totals.map(|totals| &mut totals[..usize_of(header.outcomes)]),
    };
    rows.frames_x.fill(0);
    rows.frames_z.fill(0);
    rows.deltas.fill(0);
    rows.totals.iter_mut().for_each(|totals| totals.fill(0));
    rows
}

fn run_settled(job: &Job<'_>, settled: &Settled, rows: &mut Rows<'_>) {
    for shot in 0..job.header.shots {
        run_shot(job, settled, shot, rows);
    }
}

/// Run the settled list in one shot, and leave its frame and deltas in the rows.
fn run_shot(job: &Job<'_>, settled: &Settled, shot: u64, rows: &mut Rows<'_>) {
    let mut frame = Frame::default();
    let mut deltas = vec![false; usize_of(job.header.outcomes)];
    for (line, faults) in job.lines.iter().zip(&settled.faults) {
        frame.forward(&line.instruction, shot, &mut deltas);
        if let Ok(at) = faults.binary_search_by_key(&shot, |(shot, _)| *shot) {
            frame.add(&faults[at].1);
        }
    }
    let words = job.header.row_words();
    let place = |row: usize| row * words + usize_of(shot) / 64;
    let put = |list: &mut [u64], row: usize, value: bool| list[place(row)] |= u64::from(value) << (shot % 64);
    for qubit in 0..usize_of(job.header.qubits) {
        put(rows.frames_x, qubit, frame.x[qubit]);
        put(rows.frames_z, qubit, frame.z[qubit]);
    }
    for (id, delta) in deltas.into_iter().enumerate() {
        put(rows.deltas, id, delta);
        rows.totals.iter_mut().for_each(|totals| totals[id] += u64::from(delta));
    }
}

// ---- by a caller with a share

/// A run on the words that are available. With 14 too, the words that were read stay taken.
fn run_shared(
    bytes: &[u8],
    draws: Draws<'_>,
    noiseless: &[u64],
    rows: Rows<'_>,
    mut share: Share<'_>,
) -> Result<(), Refusal> {
    let job = read(bytes)?;
    need_rows(&job.header, noiseless, &rows)?;
    need_marks(&share)?;
    let available = Available::of(draws.main, &share)?;
    let mut rows = cleared(&job.header, rows);
    let (settled, read) = settled_and_read(&job, Draws { main: &available.words, ..draws }, noiseless);
    available.take(&mut share, usize_of(read));
    run_settled(&job, &settled?, &mut rows);
    Ok(())
}

/// Settling on these words. Where the text finds no space they stay.
fn settle_shared(
    bytes: &[u8],
    draws: Draws<'_>,
    noiseless: &[u64],
    mut share: Share<'_>,
    out: &mut [u8],
) -> Result<Answer, Refusal> {
    let job = read(bytes)?;
    need_words(&[(noiseless, job.header.outcome_words())])?;
    need_marks(&share)?;
    let available = Available::of(draws.main, &share)?;
    let (settled, read) = settled_and_read(&job, Draws { main: &available.words, ..draws }, noiseless);
    let answer = settled.map_or_else(Answer::from, |settled| deliver_settled(&settled.text(&job), out));
    if answer.number != 15 {
        available.take(&mut share, usize_of(read));
    }
    Ok(answer)
}
