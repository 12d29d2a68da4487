//! Times: the published Rust, document 01 by hand, and the engine, on the same jobs in one run.
//!
//! `published` is the published function on instructions that were read before; `with reading` goes from the job's text to the answer, with
//! `checker` as the reader. Noiseless bits are ready for each in its own form. A time is the shortest of some rounds, in which the three take
//! turns; the published Rust gets its frames anew in each, the engine clears those that it is lent.
//!
//! For outcomes by shot, `published` is a block transposition in plain Rust, and `with reading` one bit at a time.

mod long;

use crate::block;
use checker::calls::{Asked, Calls, Draws, Rows, Share};
use checker::job::{Instruction, Job, MAX_BYTES, MAX_GROUPS, usize_of};
use checker::plain::by_shot::Shape;
use checker::plain::{Plain, settled};
use checker::read::read;
use generator::jobs::Made;
use generator::loads;
use generator::random::Random;
use pauliverse::bridge::{Program, lend};
use reference::Reference;
use reference::vectors::Call;
use std::hint::black_box;
use std::time::{Duration, Instant};

/// The engine, where a library is linked that has the call.
fn engine(call: Call) -> Option<&'static dyn Calls> {
    crate::UNDER_TEST.1.contains(&call).then_some(crate::UNDER_TEST.0)
}

/// Rounds go on for this long, and there are at least so many.
const LEAST_TIME: Duration = Duration::from_secs(1);
const LEAST_ROUNDS: usize = 7;

/// The bytes of a measurement at most.
const MEASUREMENT: usize = 22;

/// Measure the loads of a part, of all, or the run of a job in a file; whether there is such a part or file.
pub fn run(part: &str) -> bool {
    let parts: [(&str, fn()); 9] = [
        ("checks", checks),
        ("runs", runs),
        ("tables", tables),
        ("around", around),
        ("faults", faults),
        ("shares", shares),
        ("seeds", seeds),
        ("turns", turns),
        ("long", long::long),
    ];
    let chosen: Vec<_> = parts.iter().filter(|(name, _)| part == "all" || part == *name).collect();
    let columns = ["published", "with reading", "engine", "/published", "/reading", "ns a byte"]
        .map(|name| format!("{name:>12}"));
    println!("{:52} {}", "milliseconds", columns.join(" "));
    for (_, measure) in &chosen {
        measure();
    }
    !chosen.is_empty() || run_of_file(part)
}

/// Measure the run of a job in a file, if there is one.
fn run_of_file(path: &str) -> bool {
    let Ok(bytes) = std::fs::read(path) else { return false };
    let job = read(&bytes).expect("a job that the checks accept");
    let instructions = job.lines.iter().map(|line| line.instruction.clone()).collect();
    measure_run(path, &Made { header: job.header, instructions });
    true
}

/// What is timed; a part that isn't there has no time.
struct Timed<'a> {
    published: Option<Box<dyn FnMut() + 'a>>,
    with_reading: Box<dyn FnMut() + 'a>,
    engine: Option<Box<dyn FnMut() + 'a>>,
}

impl Timed<'_> {
    /// Time the parts in turns, and print the shortest times, and the engine's for a byte of the job.
    fn report(mut self, name: &str, bytes: usize) {
        let longest = Duration::MAX;
        let (mut published, mut reading, mut engine) = (longest, longest, longest);
        let (start, mut rounds) = (Instant::now(), 0);
        while rounds < LEAST_ROUNDS || start.elapsed() < LEAST_TIME {
            rounds += 1;
            published = published.min(self.published.as_mut().map_or(longest, time));
            reading = reading.min(time(&mut self.with_reading));
            engine = engine.min(self.engine.as_mut().map_or(longest, time));
        }
        let show = |part: Duration| {
            if part == longest { "-".into() } else { format!("{:.3}", part.as_secs_f64() * 1e3) }
        };
        let ratio = |part: Duration| match (part, engine) {
            (Duration::MAX, _) | (_, Duration::MAX) => "-".into(),
            (part, engine) => format!("{:.2}", engine.as_secs_f64() / part.as_secs_f64()),
        };
        let each =
            if engine == longest { "-".into() } else { format!("{:.2}", engine.as_secs_f64() * 1e9 / bytes as f64) };
        println!(
            "{name:52} {:>12} {:>12} {:>12} {:>12} {:>12} {each:>12}",
            show(published),
            show(reading),
            show(engine),
            ratio(published),
            ratio(reading)
        );
    }
}

fn time(part: &mut impl FnMut()) -> Duration {
    let start = Instant::now();
    part();
    start.elapsed()
}

// ---- checks

fn checks() {
    let header = loads::header(256, 4096);
    for (size, bytes) in [("250,000", 250_000), ("500,000", 500_000), ("1,000,000", 1_000_000)] {
        check(&format!("check, {size} bytes of gate lines"), &loads::cut(loads::gates(header, 80_000), bytes).bytes());
    }
    for (size, bytes) in [("250,000", 250_000), ("500,000", 500_000), ("1,000,000", 1_000_000)] {
        check(
            &format!("check, {size} bytes of noise lines"),
            &loads::cut(loads::noise(header, 20_000, 0.001), bytes).bytes(),
        );
    }
    let mixed = loads::mixed(header, 12_000, 0.001);
    check("check, a mixed job of 1,000,000 bytes at most", &loads::cut(mixed, 1_000_000).bytes());
}

fn check(name: &str, job: &[u8]) {
    Timed {
        published: None,
        with_reading: Box::new(|| _ = black_box(Plain.check(black_box(job)))),
        engine: engine(Call::Check).map(|engine| Box::new(move || _ = black_box(engine.check(black_box(job)))) as _),
    }
    .report(name, job.len());
}

// ---- runs, settling and the walk

fn runs() {
    for (qubits, shots) in [(256, 4096), (64, 1024), (10, 64)] {
        let size = format!("{qubits} qubits, {shots} shots");
        let header = loads::header(qubits, shots);
        let made = loads::gates(header, 10_000);
        measure_run(&format!("run, 10,000 gates, {size}"), &made);
        let noisy = loads::noisy_gates(header, 500, 0.001);
        measure_run(&format!("run, 500 gates with noise, {size}"), &noisy);
        measure_run(&format!("run, 500 lines of noise, {size}"), &loads::noise(header, 500, 0.001));
        measure_run(&format!("run, 2,000 mixed lines, {size}"), &loads::mixed(header, 2_000, 0.001));
        measure_settle(&format!("settle, 500 gates with noise, {size}"), &noisy);
        measure_walk(&format!("walk, 10,000 gates, {size}"), &loads::measured(made));
    }
    // The walk beside the check of the same job, which is its first pass.
    let header = loads::header(256, 4096);
    let long = loads::measured(loads::cut(loads::gates(header, 80_000), 1_000_000 - 256 * MEASUREMENT));
    check("check, 1,000,000 bytes of gate lines", &long.bytes());
    measure_walk("walk, 1,000,000 bytes of gate lines", &long);
}

// ---- Clifford tables

/// The check, a run and a walk of lines of tables, on four qubits and on more.
fn tables() {
    let lines = 200;
    for qubits in [4, 5, 6, 7, 8] {
        let size = format!("{lines} tables on {qubits} qubits");
        check(&format!("check, {size}"), &loads::cliffords(loads::header(256, 64), lines, qubits).bytes());
        for shots in [64, 4096] {
            let made = loads::cliffords(loads::header(256, shots), lines, qubits);
            measure_run(&format!("run, {size}, {shots} shots"), &made);
        }
        let made = loads::cliffords(loads::header(256, 64), lines, qubits);
        measure_walk(&format!("walk, {size}"), &loads::measured(made));
    }
}

/// A job with draws that suffice, and noiseless bits.
struct Load {
    bytes: Vec<u8>,
    main: Vec<u64>,
    second: Vec<u64>,
    noiseless: Vec<u64>,
}

impl Load {
    fn new(made: &Made) -> Self {
        let bytes = made.bytes();
        let random = &mut Random::new(5);
        let mut words = |count: usize| (0..count).map(|_| random.word()).collect::<Vec<u64>>();
        let shots = usize::try_from(made.header.shots).expect("a checked number");
        let noiseless = words(made.header.outcome_words());
        let second = words(2 * shots + 64);
        let noisy = made.instructions.iter().filter(|i| matches!(i, Instruction::Noise(_))).count();
        let mut load = Load { bytes, main: Vec::new(), second, noiseless };
        // a shot without a fault reads one word; where many have one, more words are made until they suffice
        let read = (0..16).find_map(|_| {
            load.main.extend(words(noisy * (shots + 64) + 1));
            Some(settled(&load.job(), load.draws(), &load.noiseless).ok()?.words_read)
        });
        let read = read.expect("enough words");
        load.main.truncate(usize::try_from(read).expect("below the list's length"));
        load
    }

    fn job(&self) -> Job<'_> {
        read(&self.bytes).expect("a job that the checks accept")
    }

    fn draws(&self) -> Draws<'_> {
        Draws { base: 0, main: &self.main, second: &self.second }
    }
}

fn measure_run(name: &str, made: &Made) {
    measure_run_of(name, made, Call::Run);
}

/// A run, or one by a caller whose stretch is the first half of the words that it reads.
fn measure_run_of(name: &str, made: &Made, call: Call) {
    let load = &Load::new(made);
    let job = load.job();
    let program = Program::new(&job);
    let noiseless = lend(&job, &load.draws(), &load.noiseless);
    let header = made.header;
    let mut rows = (vec![0; header.frame_words()], vec![0; header.frame_words()], vec![0; header.outcome_words()]);
    let mut totals = vec![0; usize_of(header.outcomes)];
    Timed {
        published: Some(Box::new(|| _ = black_box(program.execute(0, &load.main, &noiseless).is_ok()))),
        with_reading: Box::new(|| {
            let program = Program::new(&load.job());
            _ = black_box(program.execute(0, &load.main, &noiseless).is_ok());
        }),
        engine: engine(call).map(|engine| {
            Box::new(move || {
                let rows = Rows {
                    frames_x: &mut rows.0,
                    frames_z: &mut rows.1,
                    deltas: &mut rows.2,
                    totals: Some(&mut totals),
                };
                let job = black_box(&load.bytes);
                let answer = if call == Call::Run {
                    engine.run(job, load.draws(), &load.noiseless, rows)
                } else {
                    let share = Share { shares: &[load.main.len() as u64 / 2], marks: &mut [0; 2], caller: 0 };
                    engine.run_shared(job, load.draws(), &load.noiseless, rows, share)
                };
                assert_eq!(answer.number, 0);
            }) as _
        }),
    }
    .report(name, load.bytes.len());
}

fn measure_settle(name: &str, made: &Made) {
    let load = &Load::new(made);
    let settle = |calls: &dyn Calls, out: &mut [u8]| {
        let answer = calls.settle(black_box(&load.bytes), load.draws(), &load.noiseless, out);
        assert_eq!(answer.number, 0);
    };
    let (mut out, mut engine_out) = (vec![0; MAX_BYTES], vec![0; MAX_BYTES]);
    Timed {
        published: None,
        with_reading: Box::new(move || settle(&Reference, &mut out)),
        engine: engine(Call::Settle).map(|engine| Box::new(move || settle(engine, &mut engine_out)) as _),
    }
    .report(name, load.bytes.len());
}

/// The walk of all outcomes of a job that measures every qubit at its end: the observable is Z on every qubit behind the last gate, and no gate takes
/// it to the identity.
fn measure_walk(name: &str, made: &Made) {
    let job = &made.bytes();
    let set = &(0..made.header.qubits).collect::<Vec<_>>();
    let walk = |calls: &dyn Calls| assert_eq!(calls.walk(black_box(job), 0, set).number, 0);
    Timed {
        published: None,
        with_reading: Box::new(|| walk(&Plain)),
        engine: engine(Call::Walk).map(|engine| Box::new(move || walk(engine)) as _),
    }
    .report(name, job.len());
}

// ---- annotation, locations, correlation

fn around() {
    let header = loads::header(256, 4096);
    let gates = loads::gates(header, 10_000).bytes();
    let job = read(&gates).expect("a job that the checks accept");
    let circuit = Program::new(&job).circuit();
    let p = 0.001_f64;
    let annotate =
        |calls: &dyn Calls, out: &mut [u8]| assert_eq!(calls.annotate(black_box(&gates), p.to_bits(), out).number, 0);
    let (mut out, mut engine_out) = (vec![0; MAX_BYTES], vec![0; MAX_BYTES]);
    Timed {
        published: Some(Box::new(|| _ = black_box(circuit.with_depolarizing_noise(p)))),
        with_reading: Box::new(move || annotate(&Plain, &mut out)),
        engine: engine(Call::Annotate).map(|engine| Box::new(move || annotate(engine, &mut engine_out)) as _),
    }
    .report("annotate, 10,000 gates", gates.len());
    Timed {
        published: Some(Box::new(|| _ = black_box(black_box(&circuit).fault_count()))),
        with_reading: Box::new(|| _ = black_box(Plain.locations(&gates))),
        engine: engine(Call::Locations).map(|engine| Box::new(|| _ = black_box(engine.locations(&gates))) as _),
    }
    .report("locations, 10,000 gates", gates.len());

    measure_correlation("correlation, 10,000 mixed lines", &loads::mixed(header, 10_000, 0.001));
}

fn measure_correlation(name: &str, made: &Made) {
    let bytes = made.bytes();
    let job = read(&bytes).expect("a job that the checks accept");
    let circuit = Program::new(&job).circuit();
    Timed {
        published: Some(Box::new(|| _ = black_box(black_box(&circuit).validate_correlated_faults().is_ok()))),
        with_reading: Box::new(|| _ = black_box(Plain.correlation(&bytes))),
        engine: engine(Call::Correlation).map(|engine| Box::new(|| _ = black_box(engine.correlation(&bytes))) as _),
    }
    .report(name, bytes.len());
}

// ---- single faults

/// The table of a long job beside its check, which is its first pass. The published Rust runs a shot for each element.
fn faults() {
    let made = seldom_noisy(1_000_000);
    check("check, 1,000,000 bytes of gates and seldom noise", &made.bytes());
    measure_faults("fault table, the same with 16 groups", &made);
}

/// A job of so many bytes at most with gates and seldom noise, which measures every qubit at its end.
fn seldom_noisy(bytes: usize) -> Made {
    let header = loads::header(256, 4096);
    loads::measured(loads::cut(loads::seldom_noisy(header, 80_000, 50, 0.001), bytes - 256 * MEASUREMENT))
}

fn measure_faults(name: &str, made: &Made) {
    let bytes = &made.bytes();
    let group = |first: u64| std::iter::once(16).chain((0..16).map(move |place| first + 16 * place));
    let groups = &(0..MAX_GROUPS as u64).flat_map(group).collect::<Vec<u64>>();
    let job = read(bytes).expect("a job that the checks accept");
    let (program, _) = Program::new(&job).single_faults();
    let noiseless = lend(&job, &Draws { base: 0, main: &[], second: &[] }, &[]);
    let table = |calls: &dyn Calls, out: &mut [u8]| {
        assert_eq!(calls.fault_table(black_box(bytes), groups, out).number, 0);
    };
    let (mut out, mut engine_out) = (vec![0; MAX_BYTES], vec![0; MAX_BYTES]);
    Timed {
        published: Some(Box::new(|| _ = black_box(program.execute(0, &[], &noiseless).is_ok()))),
        with_reading: Box::new(move || table(&Reference, &mut out)),
        engine: engine(Call::FaultTable).map(|engine| Box::new(move || table(engine, &mut engine_out)) as _),
    }
    .report(name, bytes.len());
}

// ---- shares

/// Runs by a caller with a share beside plain ones.
fn shares() {
    for (qubits, shots) in [(256, 4096), (64, 1024), (10, 64)] {
        let made = loads::noisy_gates(loads::header(qubits, shots), 500, 0.001);
        let name = format!("run, 500 gates with noise, {qubits} qubits, {shots} shots");
        measure_run(&name, &made);
        measure_run_of("the same by a caller with a share", &made, Call::RunShared);
    }
}

// ---- seeds

/// Words and jobs from a seed: `with reading` is the rule by hand; of words `published` is the loop in plain Rust.
fn seeds() {
    let count = 1_000_000;
    let (mut words, mut by_hand, mut out) = (vec![0; count], vec![0; count], vec![0; count]);
    Timed {
        published: Some(Box::new(|| xorshift(black_box(1), &mut words))),
        with_reading: Box::new(|| assert_eq!(Plain.fill(black_box(1), &mut by_hand).number, 0)),
        engine: engine(Call::Fill)
            .map(|engine| Box::new(|| assert_eq!(engine.fill(black_box(1), &mut out).number, 0)) as _),
    }
    .report("fill, 1,000,000 words", 8 * count);
    let asked = Asked { qubits: 256, outcomes: 1_024, shots: 4_096, lines: 1_000, seed: 1 };
    let (mut by_hand, mut out) = (vec![0; MAX_BYTES], vec![0; MAX_BYTES]);
    let bytes = usize_of(Plain.make(asked, &mut by_hand).figure);
    Timed {
        published: None,
        with_reading: Box::new(|| assert_eq!(Plain.make(black_box(asked), &mut by_hand).number, 0)),
        engine: engine(Call::Make)
            .map(|engine| Box::new(|| assert_eq!(engine.make(black_box(asked), &mut out).number, 0)) as _),
    }
    .report("make, 1,000 lines", bytes);
}

/// The words of a state, in plain Rust.
fn xorshift(mut state: u64, words: &mut [u64]) {
    for word in words {
        state ^= state << 13;
        state ^= state >> 7;
        state ^= state << 17;
        *word = state;
    }
}

// ---- outcomes by shot

fn turns() {
    let (outcomes, shots) = (1_024, 4_096);
    let by_outcome = Shape::of_counts(outcomes, shots).expect("counts of a header");
    let random = &mut Random::new(5);
    let words: Vec<u64> = (0..by_outcome.words()).map(|_| random.word()).collect();
    let (mut plain, mut bits, mut out) = (words.clone(), words.clone(), words.clone());
    Timed {
        published: Some(Box::new(|| block::transpose(by_outcome, black_box(&words), &mut plain))),
        with_reading: Box::new(|| assert_eq!(Plain.by_shot(outcomes, shots, black_box(&words), &mut bits).number, 0)),
        engine: engine(Call::ByShot).map(|engine| {
            Box::new(|| assert_eq!(engine.by_shot(outcomes, shots, black_box(&words), &mut out).number, 0)) as _
        }),
    }
    .report("by shot, 1,024 outcomes, 4,096 shots", 8 * words.len());
    let (mut plain, mut bits, mut out) = (words.clone(), words.clone(), words.clone());
    Timed {
        published: Some(Box::new(|| block::transpose(by_outcome.turned(), black_box(&words), &mut plain))),
        with_reading: Box::new(|| {
            assert_eq!(Plain.by_outcome(outcomes, shots, black_box(&words), &mut bits).number, 0)
        }),
        engine: engine(Call::ByOutcome).map(|engine| {
            Box::new(|| assert_eq!(engine.by_outcome(outcomes, shots, black_box(&words), &mut out).number, 0)) as _
        }),
    }
    .report("by outcome, 1,024 outcomes, 4,096 shots", 8 * words.len());
}
