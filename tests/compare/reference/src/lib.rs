//! Reference answers for every call.
//!
//! Frames, deltas, draws, annotation, locations and the correlation check come from the published Rust, compiled unchanged, and the walk's count from
//! runs of it. What it hasn't, the text of jobs and their checks, comes from `checker`.

pub mod landed;
pub mod pairs;
pub mod stored;
pub mod vectors;

use checker::calls::{Answer, Asked, Calls, Draws, Rows, Share};
use checker::job::{Header, Instruction, Job, Refusal, usize_of};
use checker::plain::around::noise_list;
use checker::plain::by_shot::Shape;
use checker::plain::fault_table::{need_groups, row};
use checker::plain::shares::{Available, need_marks};
use checker::plain::{
    Plain, bit, cleared, deliver, deliver_settled, need_probability, need_rows, need_walkable, need_words, print_with,
};
use checker::read::{check, read};
use checker::write;
use pauliverse::bridge::{Executed, Program, lend, transposed};

/// The calls on the published Rust.
pub struct Reference;

impl Calls for Reference {
    fn check(&self, job: &[u8]) -> Answer {
        Answer::of(check(job))
    }

    fn run(&self, job: &[u8], draws: Draws<'_>, noiseless: &[u64], rows: Rows<'_>) -> Answer {
        Answer::of(run(job, draws, noiseless, rows))
    }

    fn settle(&self, job: &[u8], draws: Draws<'_>, noiseless: &[u64], out: &mut [u8]) -> Answer {
        settled(job, draws, noiseless).map_or_else(Answer::from, |text| deliver_settled(&text, out))
    }

    fn run_shared(&self, job: &[u8], draws: Draws<'_>, noiseless: &[u64], rows: Rows<'_>, share: Share<'_>) -> Answer {
        Answer::of(run_shared(job, draws, noiseless, rows, share))
    }

    fn settle_shared(
        &self,
        job: &[u8],
        draws: Draws<'_>,
        noiseless: &[u64],
        share: Share<'_>,
        out: &mut [u8],
    ) -> Answer {
        settle_shared(job, draws, noiseless, share, out).unwrap_or_else(Answer::from)
    }

    fn walk(&self, job: &[u8], shot: u64, set: &[u64]) -> Answer {
        let count = read(job).and_then(|job| walk(&job, shot, set));
        count.map_or_else(Answer::from, Answer::success)
    }

    fn annotate(&self, job: &[u8], p: u64, out: &mut [u8]) -> Answer {
        annotated(job, p).map_or_else(Answer::from, |text| deliver(&text, out))
    }

    fn locations(&self, job: &[u8]) -> Answer {
        let count = read(job).map(|job| Program::new(&job).circuit().fault_count() as u64);
        count.map_or_else(Answer::from, Answer::success)
    }

    fn correlation(&self, job: &[u8]) -> Answer {
        Answer::of(read(job).and_then(|job| Program::new(&job).validate_correlated_faults()))
    }

    fn fault_table(&self, job: &[u8], groups: &[u64], out: &mut [u8]) -> Answer {
        let text = read(job).and_then(|job| fault_table(&job, groups));
        text.map_or_else(Answer::from, |text| deliver(&text, out))
    }

    fn by_shot(&self, outcomes: u64, shots: u64, deltas: &[u64], rows: &mut [u64]) -> Answer {
        Answer::of(Shape::of_counts(outcomes, shots).and_then(|shape| transpose(shape, deltas, rows)))
    }

    fn by_outcome(&self, outcomes: u64, shots: u64, rows: &[u64], deltas: &mut [u64]) -> Answer {
        Answer::of(Shape::of_counts(outcomes, shots).and_then(|shape| transpose(shape.turned(), rows, deltas)))
    }

    // The published Rust has no reproducible load: docs/MAKING.md by hand.
    fn fill(&self, seed: u64, words: &mut [u64]) -> Answer {
        Plain.fill(seed, words)
    }

    fn make(&self, asked: Asked, out: &mut [u8]) -> Answer {
        Plain.make(asked, out)
    }

    fn print(&self, input: &[u8]) -> Option<Vec<u8>> {
        Some(print_with(self, input))
    }
}

/// The exchange as `sample_with_rng` makes it, by `transposed`.
fn transpose(shape: Shape, source: &[u64], target: &mut [u64]) -> Result<(), Refusal> {
    shape.need(source, target)?;
    let turned = transposed(source, shape.rows, shape.columns);
    target[..turned.len()].copy_from_slice(&turned);
    Ok(())
}

/// Execute a checked job on the published code.
///
/// # Errors
///
/// 14 at the noise line whose draws are spent.
pub fn execute(job: &Job<'_>, draws: Draws<'_>, noiseless: &[u64]) -> Result<Executed, Refusal> {
    let noiseless = lend(job, &draws, noiseless);
    Program::new(job).execute(draws.base, draws.main, &noiseless)
}

fn run(bytes: &[u8], draws: Draws<'_>, noiseless: &[u64], rows: Rows<'_>) -> Result<(), Refusal> {
    let job = read(bytes)?;
    need_rows(&job.header, noiseless, &rows)?;
    run_accepted(&job, draws, noiseless, rows)
}

/// The run of a job to which enough is lent.
fn run_accepted(job: &Job<'_>, draws: Draws<'_>, noiseless: &[u64], rows: Rows<'_>) -> Result<(), Refusal> {
    let rows = cleared(&job.header, rows);
    let executed = execute(job, draws, noiseless)?;
    rows.deltas.copy_from_slice(&all_deltas(&executed, &job.header));
    let (x_rows, z_rows) = executed.frames();
    rows.frames_x.copy_from_slice(&x_rows);
    rows.frames_z.copy_from_slice(&z_rows);
    // the published Rust keeps no totals (note 5)
    let deltas = rows.deltas.chunks_exact(job.header.row_words());
    for (total, row) in rows.totals.into_iter().flatten().zip(deltas) {
        *total = row.iter().map(|word| u64::from(word.count_ones())).sum();
    }
    Ok(())
}

/// A run on the words that are available to a caller, as many of which are taken as the published sampling reads.
fn run_shared(
    bytes: &[u8],
    draws: Draws<'_>,
    noiseless: &[u64],
    rows: Rows<'_>,
    mut share: Share<'_>,
) -> Result<(), Refusal> {
    let job = read(bytes)?;
    need_rows(&job.header, noiseless, &rows)?;
    need_marks(&share)?;
    let available = Available::of(draws.main, &share)?;
    let draws = Draws { main: &available.words, ..draws };
    available.take(&mut share, words_read(&job, draws, noiseless));
    run_accepted(&job, draws, noiseless, rows)
}

/// Settling on these words.
fn settle_shared(
    bytes: &[u8],
    draws: Draws<'_>,
    noiseless: &[u64],
    mut share: Share<'_>,
    out: &mut [u8],
) -> Result<Answer, Refusal> {
    let job = read(bytes)?;
    need_words(&[(noiseless, job.header.outcome_words())])?;
    need_marks(&share)?;
    let available = Available::of(draws.main, &share)?;
    let draws = Draws { main: &available.words, ..draws };
    let text = settled_accepted(&job, draws, noiseless);
    let answer = text.map_or_else(Answer::from, |text| deliver_settled(&text, out));
    if answer.number != 15 {
        available.take(&mut share, words_read(&job, draws, noiseless));
    }
    Ok(answer)
}

/// How many words of the main list the published sampling reads, also where draws are spent.
fn words_read(job: &Job<'_>, draws: Draws<'_>, noiseless: &[u64]) -> usize {
    let noiseless = lend(job, &draws, noiseless);
    Program::new(job).words_read(draws.base, draws.main, &noiseless)
}

/// The deltas of every outcome, row after row.
fn all_deltas(executed: &Executed, header: &Header) -> Vec<u64> {
    (0..usize_of(header.outcomes)).flat_map(|id| executed.deltas(id)).collect()
}

fn settled(bytes: &[u8], draws: Draws<'_>, noiseless: &[u64]) -> Result<Vec<u8>, Refusal> {
    let job = read(bytes)?;
    need_words(&[(noiseless, job.header.outcome_words())])?;
    settled_accepted(&job, draws, noiseless)
}

/// The settled text of a job to which enough is lent.
fn settled_accepted(job: &Job<'_>, draws: Draws<'_>, noiseless: &[u64]) -> Result<Vec<u8>, Refusal> {
    let outcomes = lend(job, &draws, noiseless);
    let faults = Program::new(job).faults(draws.base, draws.main, &outcomes)?;
    let mut text = job.header_text.to_vec();
    for (line, faults) in job.lines.iter().zip(faults) {
        if !matches!(line.instruction, Instruction::Noise(_)) {
            text.extend_from_slice(line.text);
        }
        for (shot, pauli) in faults {
            text.extend_from_slice(write::inject(shot, &pauli).as_bytes());
        }
    }
    Ok(text)
}

/// The walk's count, without walking: each injection and flip of the shot gets a shot of its own, and the published code runs them all at once.
/// Those in whose shot the set's deltas sum to 1 are counted.
fn walk(job: &Job<'_>, shot: u64, set: &[u64]) -> Result<u64, Refusal> {
    need_walkable(job, shot, set)?;
    let mut faults = 0;
    let mut apart = job.clone();
    apart.lines.retain_mut(|line| match &mut line.instruction {
        Instruction::Inject { shot: own, .. } | Instruction::Flip { shot: own, .. } => {
            let kept = *own == shot;
            *own = faults;
            faults += u64::from(kept);
            kept
        }
        _ => true,
    });
    apart.header.shots = faults;
    let sums = Sums::of(&apart, &Program::new(&apart))?;
    Ok((0..faults).map(|fault| u64::from(sums.sum(set, fault))).sum())
}

/// The table of single faults, by runs: each element of a noise line is an injection in a shot of its own, and the published code runs them all at once.
fn fault_table(job: &Job<'_>, list: &[u64]) -> Result<Vec<u8>, Refusal> {
    let groups = need_groups(job, list)?;
    let (program, sizes) = Program::new(job).single_faults();
    let sums = Sums::of(job, &program)?;
    let (mut text, mut fault) = (String::new(), 0);
    for (line, size) in sizes {
        for element in 0..size {
            row(&mut text, line, element, groups.iter().map(|group| sums.sum(group, fault)));
            fault += 1;
        }
    }
    Ok(text.into_bytes())
}

/// The deltas of a program without noise that has a fault in each of its shots.
struct Sums {
    deltas: Vec<u64>,
    header: Header,
}

impl Sums {
    /// Run the program; without shots it has no deltas.
    fn of(job: &Job<'_>, program: &Program) -> Result<Self, Refusal> {
        let header = program.header();
        let no_draws = Draws { base: 0, main: &[], second: &[] };
        let deltas = match header.shots {
            0 => Vec::new(),
            _ => all_deltas(&program.execute(0, &[], &lend(job, &no_draws, &[]))?, &header),
        };
        Ok(Self { deltas, header })
    }

    /// What the deltas of some outcomes sum to in a shot.
    fn sum(&self, ids: &[u64], shot: u64) -> bool {
        ids.iter().fold(false, |sum, &id| sum ^ bit(&self.deltas, &self.header, id, shot))
    }
}

fn annotated(bytes: &[u8], p: u64) -> Result<Vec<u8>, Refusal> {
    let job = read(bytes)?;
    need_probability(p)?;
    let program = Program::new(&job);
    let mut text = job.header_text.to_vec();
    for (line, annotation) in job.lines.iter().zip(program.annotations(f64::from_bits(p))) {
        let Some(annotation) = annotation else {
            text.extend_from_slice(line.text);
            continue;
        };
        // Where control and target share a qubit the published list repeats it, and note 1 does not.
        let qubits = noise_list(&annotation.qubits, line.number)?;
        let noise = write::annotation(p, &qubits).into_bytes();
        let parts = if annotation.before { [&noise, line.text] } else { [line.text, &noise] };
        text.extend_from_slice(&parts.concat());
    }
    Ok(text)
}
