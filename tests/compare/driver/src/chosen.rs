//! Which inputs the stored cases of a call have: random ones, each of which shows something that few before it show.

use checker::calls::{Answer, Draws, Share};
use checker::job::{
    Distribution, Header, Instruction, Job, MAX_BYTES, MAX_CALLERS, MAX_CLIFFORD_QUBITS, MAX_GROUPS, MAX_SPREAD, Noise,
    TESTS, usize_of,
};
use checker::plain::settled;
use checker::plain::shares::Available;
use checker::read::read;
use generator::damage::damaged;
use generator::inputs::{lent, usual};
use generator::jobs::{DENSE, Shape, edition, job_of};
use generator::random::Random;
use reference::Reference;
use reference::vectors::{Call, Input, Output};
use std::cmp::Ordering;
use std::collections::BTreeMap;

/// How many cases show each thing.
const EACH: usize = 2;

/// After how many seeds a thing that isn't shown often enough is an error.
const MOST_SEEDS: u64 = 100_000;

/// How long a case may be in the stored list: one that is refused, one at the most shots, and any other.
const MOST_REFUSED: usize = 1_000;
const MOST_AT_MOST_SHOTS: usize = 16_000;
const MOST: usize = 3_600;
const MOST_OF_TABLE: usize = 9_000;

/// Shots at which rows of words begin and end, and the most there may be.
const SHOTS: [u64; 7] = [1, 63, 64, 65, 127, 128, 4096];

/// At the most shots each draw comes so often, one behind the other, so that a list of them is stored in few bytes.
const HELD: usize = 61;

/// What lent words hold before a run.
const FRESH: u64 = 0x4141_4141_4141_4141;

/// The stored cases of a call, as `case` writes an input and what the reference answers to it and leaves: those at the limits, then random ones.
///
/// # Panics
///
/// Panics if something that they must show comes too seldom.
pub fn chosen(call: Call, case: impl Fn(&Input, &Output) -> Vec<u8>) -> Vec<Vec<u8>> {
    let answered = |input: &Input| input.make(call, &Reference).expect("the reference makes every call");
    let mut all: Vec<Vec<u8>> = limits(call).iter().map(|input| case(input, &answered(input))).collect();
    let mut wanted: BTreeMap<String, usize> = wanted(call).into_iter().map(|thing| (thing, EACH)).collect();
    for seed in 1..=MOST_SEEDS {
        let random = &mut Random::new(seed);
        let mut input = match seed % 3 {
            _ if !call.is_on_job() => usual(random, call),
            0 => usual(random, call),
            1 => at_shots(random, call, 20, if call == Call::Walk { 0 } else { 6 }),
            _ => short_damaged(random, call),
        };
        if call == Call::RunShared {
            lengthen(&mut input);
        }
        let Input { frames_x, frames_z, deltas, totals, words, .. } = &mut input;
        for list in [frames_x, frames_z, deltas, totals, words] {
            list.fill(FRESH);
        }
        input.with_totals = true;
        let output = answered(&input);
        let shown = shown(call, &input, &output);
        let case = case(&input, &output);
        let most = match output.answer.number {
            0 if shown.contains(&format!("{} shots", SHOTS[6])) => MOST_AT_MOST_SHOTS,
            0 if call == Call::FaultTable => MOST_OF_TABLE,
            0 => MOST,
            14 if call.is_shared() => MOST,
            _ => MOST_REFUSED,
        };
        if case.len() <= most && shown.iter().any(|thing| wanted.contains_key(thing)) {
            all.push(case);
            for thing in shown {
                wanted.entry(thing).and_modify(|left| *left -= 1);
            }
            wanted.retain(|_, left| *left > 0);
        }
        if wanted.is_empty() {
            return all;
        }
    }
    panic!("{}: too few cases show {wanted:?}", call.name());
}

// ---- inputs

/// Jobs as long as they may be and a byte longer; for settling and annotation, also jobs whose text is so long.
fn limits(call: Call) -> Vec<Input> {
    if !call.is_on_job() {
        return Vec::new();
    }
    const HEADER: &str = "op=job qubits=11 outcomes=0 shots=8\n";
    const GATE: &str = "op=u g=4 q=0\n";
    const NOISE: &str = "op=n p=3ff0000000000000 corr=- cond=- parity=0 d=1 x=0 z=- size=1\n";
    let p = 0.25_f64.to_bits();
    let (line, text) = match call {
        Call::Annotate => (GATE, format!("{GATE}op=n p={p:016x} corr=- cond=- parity=0 d=2 q=0 size=3\n")),
        Call::Settle | Call::SettleShared => {
            (NOISE, (0..8).map(|shot| format!("op=i shot={shot} x=0 z=-\n")).collect())
        }
        _ => ("", String::new()),
    };
    let lengths = [MAX_BYTES, MAX_BYTES + 1];
    let mut jobs: Vec<Vec<u8>> = lengths.map(|length| filled(HEADER, length)).into();
    if !line.is_empty() {
        jobs.extend(lengths.map(|length| filled(&[HEADER, line].concat(), length + line.len() - text.len())));
    }
    let lent = |job| {
        let (main, rows, groups) = (vec![0; 8], vec![FRESH; 11], vec![0]);
        Input {
            job,
            p,
            main,
            frames_x: rows.clone(),
            frames_z: rows,
            groups,
            shares: vec![3],
            marks: vec![0; 2],
            out_len: MAX_BYTES + 2,
            ..Input::default()
        }
    };
    jobs.into_iter().map(lent).collect()
}

/// Lines up to a length: resets of two lengths without a common divisor.
fn filled(start: &str, length: usize) -> Vec<u8> {
    const LINES: [&str; 2] = ["op=z q=0\n", "op=z q=10\n"];
    let left = length - start.len();
    let longer = left % LINES[0].len();
    let shorter = left / LINES[0].len() - longer;
    [start, &LINES[1].repeat(longer), &LINES[0].repeat(shorter)].concat().into_bytes()
}

/// A job of so many lines at most and with so much noise at one of the shots, and what its call is lent.
fn at_shots(random: &mut Random, call: Call, most_lines: u64, noise: u64) -> Input {
    let shots = random.pick(&SHOTS);
    let header = Header {
        edition: edition(random),
        qubits: random.pick(&[1, 2, 3, 4, 33]),
        outcomes: random.between(0, 3),
        shots,
    };
    let lines = random.between(1, most_lines);
    let spread = (call == Call::FaultTable).then_some(MAX_SPREAD + 1);
    let made = job_of(random, header, lines, &Shape { noise, spread, ..DENSE });
    let mut input = lent(random, call, &made.bytes());
    if shots == SHOTS[6] && matches!(call, Call::Run | Call::Settle) {
        hold(random, &mut input);
    }
    input
}

/// Rows and totals that are longer than the run needs: the program replay_more lends no others.
fn lengthen(input: &mut Input) {
    let header = read(&input.job).map(|job| job.header).unwrap_or_default();
    for rows in [&mut input.frames_x, &mut input.frames_z] {
        rows.resize(header.frame_words() + 1, 0);
    }
    input.deltas.resize(header.outcome_words() + 1, 0);
    input.totals.resize(usize_of(header.outcomes) + 1, 0);
}

/// A job of a few lines, damaged, and what the call of the undamaged one is lent.
fn short_damaged(random: &mut Random, call: Call) -> Input {
    let mut input = at_shots(random, call, 5, 6);
    input.job = damaged(random, &input.job);
    input
}

/// Draws of which each comes often; all that the job reads, or now and then one less.
fn hold(random: &mut Random, input: &mut Input) {
    let mut held = |length: usize| -> Vec<u64> {
        let words: Vec<u64> = (0..=length / HELD).map(|_| random.word()).collect();
        (0..length).map(|place| words[place / HELD]).collect()
    };
    let job = read(&input.job).expect("a job that the checks accept");
    let noise = job.lines.iter().filter(|line| matches!(line.instruction, Instruction::Noise(_))).count();
    input.main = held(noise * 3 * usize_of(job.header.shots));
    input.second = held(input.second.len());
    input.noiseless = held(input.noiseless.len());
    if input.noiseless.len() >= job.header.outcome_words()
        && let Ok(settled) = settled(&job, input.draws(), &input.noiseless)
    {
        let read = usize_of(settled.words_read);
        input.main.truncate(if random.one_in(4) { read.saturating_sub(1) } else { read });
    }
}

// ---- what they show

/// What the cases of a call must show.
fn wanted(call: Call) -> Vec<String> {
    let own_numbers: &[u64] = match call {
        Call::Run => &[13, 14],
        Call::Settle => &[13, 14, 15],
        Call::Walk => &[16, 17],
        Call::Annotate => &[15, 18],
        Call::FaultTable => &[15, 17, 24],
        Call::Correlation => &[19],
        Call::RunShared => &[13, 14, 25, 26],
        Call::SettleShared => &[13, 14, 15, 25, 26],
        Call::Fill => &[22],
        Call::Make => &[3, 15, 22],
        Call::Check | Call::Locations | Call::ByShot | Call::ByOutcome | Call::Print => &[],
    };
    let tests: &[u64] = if call.is_on_job() { &TESTS } else { &[] };
    let mut all: Vec<String> =
        [0].iter().chain(tests).chain(own_numbers).map(|number| format!("number {number}")).collect();
    if call == Call::Fill {
        all.extend(["no words", "one word", "more words"].map(String::from));
        return all;
    }
    if call == Call::Make {
        all.extend(["no lines", "one line", "1 qubits", "256 qubits"].map(String::from));
        all.extend(["exact text", "longer text"].map(String::from));
        all.extend(KINDS.map(String::from));
        all.extend(DISTRIBUTIONS.map(String::from));
        return all;
    }
    if !call.is_shared() {
        all.extend((0..=15).map(|gate| format!("gate {gate}")));
        all.extend(KINDS.map(String::from));
        all.extend((1..=MAX_CLIFFORD_QUBITS).map(|qubits| format!("clifford on {qubits}")));
    }
    if call != Call::Walk {
        all.extend(DISTRIBUTIONS.map(|kind| format!("{kind}")));
        all.extend(["correlated", "even condition", "odd condition"].map(String::from));
    }
    match call {
        Call::FaultTable => {
            all.extend(
                ["24 of the groups", "24 of a line", "empty group", "cut short", "both characters"].map(String::from),
            );
            all.extend([0, 1, MAX_GROUPS, MAX_GROUPS + 1].map(|count| format!("{count} groups")));
            all.extend((1..=MAX_SPREAD).map(|qubits| format!("depolarizing on {qubits}")));
        }
        Call::Run | Call::Settle => {
            let at_shots = |shots| DISTRIBUTIONS.map(|kind| format!("{kind} at {shots} shots"));
            all.extend(SHOTS.into_iter().flat_map(at_shots));
            all.extend(OF_DRAWS.map(String::from));
        }
        Call::RunShared | Call::SettleShared => all.extend(OF_DRAWS.into_iter().chain(OF_SHARES).map(String::from)),
        Call::Walk => all.extend(SHOTS.map(|shots| format!("{shots} shots"))),
        _ => {}
    }
    let lists: &[&str] = match call {
        Call::Run => &["x", "z", "deltas", "totals", "noiseless"],
        Call::Settle => &["noiseless"],
        Call::RunShared | Call::SettleShared => &["noiseless", "marks"],
        _ => &[],
    };
    all.extend(lists.iter().flat_map(|list| ["short", "exact", "longer"].map(|length| format!("{length} {list}"))));
    if call.writes_text() {
        all.extend(["exact text", "longer text"].map(String::from));
    }
    all
}

const OF_DRAWS: [&str; 4] = ["rejected word", "main list spent", "second list spent", "wrapped place"];

const OF_SHARES: [&str; 14] = [
    "one caller",
    "eight callers",
    "words of both parts",
    "words of the stretch alone",
    "common words alone",
    "no word taken",
    "second list spent, words taken",
    "no callers",
    "more callers",
    "total above the list",
    "total past 2^64",
    "mark above its stretch",
    "mark above the common part",
    "25 before 26",
];

const KINDS: [&str; 12] = [
    "pauli",
    "exponential",
    "controlled",
    "permute",
    "measure",
    "allocate",
    "conditional",
    "reset",
    "reset list",
    "barrier",
    "inject",
    "flip",
];

const DISTRIBUTIONS: [&str; 4] = ["single", "depolarizing", "uniform", "weighted"];

/// What a case shows: the kinds of lines and noise of a job only if it gets to its end.
fn shown(call: Call, input: &Input, output: &Output) -> Vec<String> {
    let number = output.answer.number;
    let mut all = vec![format!("number {number}")];
    if call == Call::Fill {
        let words = match input.words.len() {
            0 => "no words",
            1 => "one word",
            _ => "more words",
        };
        all.push(words.into());
        return all;
    }
    let text = if call == Call::Make { &output.bytes[..usize_of(output.answer.figure)] } else { &input.job };
    let Ok(job) = read(text) else { return all };
    if call == Call::Make {
        all.push(format!("{} qubits", job.header.qubits));
        match job.lines.len() {
            0 => all.push("no lines".into()),
            1 => all.push("one line".into()),
            _ => {}
        }
    }
    if call.is_shared() {
        all.push(length("marks", input.marks.len(), input.shares.len() + 1));
        all.extend(shown_by_share(input, output).into_iter().map(String::from));
    }
    match call.unshared() {
        Call::Run => {
            all.push(length("x", input.frames_x.len(), job.header.frame_words()));
            all.push(length("z", input.frames_z.len(), job.header.frame_words()));
            all.push(length("deltas", input.deltas.len(), job.header.outcome_words()));
            all.push(length("totals", input.totals.len(), usize_of(job.header.outcomes)));
            all.push(length("noiseless", input.noiseless.len(), job.header.outcome_words()));
        }
        Call::Settle => all.push(length("noiseless", input.noiseless.len(), job.header.outcome_words())),
        Call::FaultTable => all.extend(shown_by_groups(&input.groups, output)),
        _ => {}
    }
    if call.writes_text() && number == 0 {
        all.push(length("text", input.out_len, usize_of(output.answer.figure)));
    }
    if number == 14 {
        let spent = job.lines.iter().find(|line| line.number == output.answer.line);
        let is_correlated =
            spent.and_then(|line| noise(&line.instruction)).is_some_and(|noise| noise.correlation.is_some());
        all.push(if is_correlated { "second list spent" } else { "main list spent" }.into());
        if is_correlated && output.marks != input.marks {
            all.push("second list spent, words taken".into());
        }
    }
    if number == 0 {
        all.push(format!("{} shots", job.header.shots));
        all.extend(job.lines.iter().map(|line| kind(&line.instruction)));
        for noise in job.lines.iter().filter_map(|line| noise(&line.instruction)) {
            if let Distribution::Depolarizing(qubits) = &noise.distribution {
                all.push(format!("depolarizing on {}", qubits.len()));
            }
            all.extend(shown_by_noise(noise, job.header.shots, input.base));
        }
        if call != Call::Make && has_rejected(&job, input, &words_of(call, input)) {
            all.push("rejected word".into());
        }
    }
    all.sort();
    all.dedup();
    all
}

/// Why a share is refused, or what is taken of it.
pub fn shown_by_share(input: &Input, output: &Output) -> Vec<&'static str> {
    let (callers, length) = (input.shares.len(), input.main.len() as u128);
    let total: u128 = input.shares.iter().map(|&share| u128::from(share)).sum();
    let moved = |place: usize| input.marks.get(place) != output.marks.get(place);
    let caller = usize::try_from(input.caller).unwrap_or(usize::MAX);
    match output.answer.number {
        25 if input.caller >= callers as u64 && callers > 0 => vec!["25 before 26"],
        25 if callers == 0 => vec!["no callers"],
        25 if callers > MAX_CALLERS => vec!["more callers"],
        25 if total >= 1 << 64 => vec!["total past 2^64"],
        25 if total > length => vec!["total above the list"],
        25 if u128::from(input.marks[callers]) > length - total => vec!["mark above the common part"],
        25 => vec!["mark above its stretch"],
        0 => vec![
            match (moved(caller), moved(callers)) {
                (true, true) => "words of both parts",
                (true, false) => "words of the stretch alone",
                (false, true) => "common words alone",
                (false, false) => "no word taken",
            },
            match callers {
                1 => "one caller",
                8 => "eight callers",
                _ => "some callers",
            },
        ],
        _ => Vec::new(),
    }
}

/// How many groups there are, and what the table says of them.
fn shown_by_groups(mut list: &[u64], output: &Output) -> Vec<String> {
    let (mut count, mut all) = (0, Vec::new());
    while let [length, rest @ ..] = list {
        let Some(behind) = usize::try_from(*length).ok().and_then(|length| rest.get(length..)) else {
            return vec!["cut short".into()];
        };
        if *length == 0 {
            all.push("empty group".into());
        }
        count += 1;
        list = behind;
    }
    all.push(format!("{count} groups"));
    match output.answer {
        Answer { number: 24, line: 0, .. } => all.push("24 of the groups".into()),
        Answer { number: 24, .. } => all.push("24 of a line".into()),
        Answer { number: 0, .. } if has_both_characters(output) => all.push("both characters".into()),
        _ => {}
    }
    all
}

/// Whether a table of single faults has groups that are flipped, and groups that are not.
pub fn has_both_characters(output: &Output) -> bool {
    let text = String::from_utf8_lossy(&output.bytes[..usize_of(output.answer.figure)]);
    let has = |character| text.lines().any(|row| row.rsplit('=').next().is_some_and(|sums| sums.contains(character)));
    has('0') && has('1')
}

fn length(list: &str, length: usize, need: usize) -> String {
    let length = match length.cmp(&need) {
        Ordering::Less => "short",
        Ordering::Equal => "exact",
        Ordering::Greater => "longer",
    };
    format!("{length} {list}")
}

fn noise(instruction: &Instruction) -> Option<&Noise> {
    if let Instruction::Noise(noise) = instruction { Some(noise) } else { None }
}

fn kind(instruction: &Instruction) -> String {
    let kind = match instruction {
        Instruction::Unitary { gate, .. } => return format!("gate {gate}"),
        Instruction::Clifford { qubits, .. } => return format!("clifford on {}", qubits.len()),
        Instruction::Pauli(_) => "pauli",
        Instruction::Exponential(_) => "exponential",
        Instruction::Controlled { .. } => "controlled",
        Instruction::Permute { .. } => "permute",
        Instruction::Measure { .. } => "measure",
        Instruction::Allocate { .. } => "allocate",
        Instruction::Conditional { .. } => "conditional",
        Instruction::Reset { qubits } if qubits.len() > 1 => "reset list",
        Instruction::Reset { .. } => "reset",
        Instruction::Barrier { .. } => "barrier",
        Instruction::Inject { .. } => "inject",
        Instruction::Flip { .. } => "flip",
        Instruction::Noise(noise) => distribution(noise),
    };
    kind.into()
}

fn distribution(noise: &Noise) -> &'static str {
    match noise.distribution {
        Distribution::Single(_) => "single",
        Distribution::Depolarizing(_) => "depolarizing",
        Distribution::Uniform(_) => "uniform",
        Distribution::Weighted(_) => "weighted",
    }
}

fn shown_by_noise(noise: &Noise, shots: u64, base: u64) -> Vec<String> {
    let mut all = vec![format!("{} at {shots} shots", distribution(noise))];
    if !noise.condition.is_empty() {
        all.push(if noise.parity { "odd condition" } else { "even condition" }.into());
    }
    if let Some(correlation) = noise.correlation {
        all.push("correlated".into());
        if base.checked_add(correlation).is_none() {
            all.push("wrapped place".into());
        }
    }
    all
}

/// The words of the main list that a call which succeeds may read.
fn words_of(call: Call, input: &Input) -> Vec<u64> {
    if !call.is_shared() {
        return input.main.clone();
    }
    let share = Share { shares: &input.shares, marks: &mut input.marks.clone(), caller: input.caller };
    Available::of(&input.main, &share).expect("a share that fits").words
}

/// Whether the main list was read further than its lines' faults need without a rejected word.
fn has_rejected(job: &Job<'_>, input: &Input, main: &[u64]) -> bool {
    if input.noiseless.len() < job.header.outcome_words() {
        return false;
    }
    let Ok(settled) = settled(job, Draws { main, ..input.draws() }, &input.noiseless) else { return false };
    let words = |(line, faults): (&checker::job::Line<'_>, &Vec<_>)| match noise(&line.instruction) {
        Some(noise) if noise.correlation.is_none() && noise.probability() > 0.0 => {
            let chosen = if matches!(noise.distribution, Distribution::Single(_)) { 0 } else { faults.len() as u64 };
            job.header.shots + chosen
        }
        _ => 0,
    };
    settled.words_read > job.lines.iter().zip(&settled.faults).map(words).sum()
}
