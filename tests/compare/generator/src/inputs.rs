//! What calls are handed: a job, and lists and buffers of lengths that suit it, or nearly.

use crate::damage::damaged;
use crate::full::full;
use crate::jobs::{ANY, DENSE, Made, Shape, edition, job};
use crate::random::Random;
use checker::calls::{Calls, Draws};
use checker::gaps::fault_shot;
use checker::job::{
    Distribution, Header, Instruction, Job, MAX_BYTES, MAX_CALLERS, MAX_GROUPS, MAX_LIST, MAX_OUTCOMES,
    MAX_PRINTED_BYTES, MAX_QUBITS, MAX_SHOTS, MAX_SPREAD, Noise, Pauli, usize_of,
};
use checker::plain::{Plain, settled};
use checker::read::read;
use checker::write;
use reference::vectors::{Call, Input};

/// A random input of a call: of three jobs one has everything in it or is made from a seed.
pub fn input(random: &mut Random, call: Call) -> Input {
    if call.is_on_job() && random.one_in(3) { full(random, call) } else { usual(random, call) }
}

/// A random input on a job of the call's own shape. The stored lists of the programs that replay calls are chosen from these.
pub fn usual(random: &mut Random, call: Call) -> Input {
    match call {
        Call::ByShot | Call::ByOutcome => return counted(random),
        Call::Fill => return seeded_list(random),
        Call::Make => return seeded_job(random),
        _ => {}
    }
    let shape = shape(random, call);
    let made = if random.one_in(300) { large(random, call) } else { job(random, &shape) };
    let bytes = made.bytes();
    let mut input = lent(random, call, &bytes);
    let damage = if call == Call::Check { !random.one_in(3) } else { random.one_in(5) };
    if random.one_in(300) {
        input.job = at_limit(random, call);
    } else if damage {
        input.job = damaged(random, &bytes);
    }
    input
}

/// Jobs that a call is mostly handed: a walk without noise, a printing program within its limits.
fn shape(random: &mut Random, call: Call) -> Shape {
    let printed = Header { edition: None, qubits: 64, outcomes: 256, shots: 64 };
    let size = if random.one_in(2) { DENSE } else { ANY };
    match call {
        Call::Run | Call::Settle | Call::RunShared | Call::SettleShared => size,
        Call::Walk => Shape { noise: if random.one_in(6) { ANY.noise } else { 0 }, ..size },
        Call::Print => {
            Shape { limits: if random.one_in(6) { ANY.limits } else { printed }, draws: random.one_in(4), ..ANY }
        }
        Call::Check => Shape { noise: random.pick(&[2, 2, 30]), ..ANY },
        Call::Correlation => Shape { noise: 60, ..ANY },
        Call::FaultTable => {
            let spread = Some(if random.one_in(8) { MAX_SPREAD + 1 } else { MAX_SPREAD });
            Shape { noise: random.pick(&[2, 6, 20]), spread, ..size }
        }
        Call::Annotate | Call::Locations | Call::ByShot | Call::ByOutcome | Call::Fill | Call::Make => ANY,
    }
}

/// A long job; settling and annotation may pass the longest text that they may write.
fn large(random: &mut Random, call: Call) -> Made {
    let header = Header { edition: edition(random), qubits: 256, outcomes: 4, shots: 4096 };
    let pauli = Pauli {
        x: random.subset(256, MAX_LIST).into_iter().collect(),
        z: random.subset(256, MAX_LIST).into_iter().collect(),
    };
    let (instruction, most) = match call {
        Call::Settle | Call::SettleShared => (always(pauli), 8),
        Call::Annotate => (Instruction::Pauli(pauli), 10_000),
        Call::FaultTable => (Instruction::Noise(Box::new(spread(random, MAX_SPREAD))), 300),
        Call::Run | Call::RunShared | Call::Print => (Instruction::Exponential(pauli), 60),
        _ => (Instruction::Exponential(pauli), 10_000),
    };
    let room = (MAX_BYTES - write::header(&header).len()) / write::instruction(&instruction).len();
    let count = 1 + random.index(room.min(most));
    Made { header, instructions: vec![instruction; count] }
}

/// A Pauli in every shot.
fn always(pauli: Pauli) -> Instruction {
    let noise = Noise::unconditional(1.0_f64.to_bits(), Distribution::Single(pauli));
    Instruction::Noise(Box::new(Noise { correlation: Some(0), ..noise }))
}

/// Depolarizing noise over so many qubits.
fn spread(random: &mut Random, qubits: usize) -> Noise {
    let qubits = random.distinct(256, qubits).into_iter().collect();
    Noise::unconditional(0.0_f64.to_bits(), Distribution::Depolarizing(qubits))
}

/// A job as long as the call takes, or a byte less or more: lines of two lengths without a common divisor.
fn at_limit(random: &mut Random, call: Call) -> Vec<u8> {
    const LINES: [&str; 2] = ["op=z q=0\n", "op=u g=4 q=0\n"];
    const HEADER: &str = "op=job qubits=1 outcomes=0 shots=1\n";
    let limit = if call == Call::Print { MAX_PRINTED_BYTES } else { MAX_BYTES };
    let left = limit - 1 + random.index(3) - HEADER.len();
    let longer = (0..).find(|count| (left - count * LINES[1].len()).is_multiple_of(LINES[0].len()));
    let longer = longer.expect("the lengths have no common divisor");
    let shorter = (left - longer * LINES[1].len()) / LINES[0].len();
    [HEADER, &LINES[1].repeat(longer), &LINES[0].repeat(shorter)].concat().into_bytes()
}

/// What the call of an accepted job is lent.
///
/// # Panics
///
/// Panics if the checks refuse the job.
pub fn lent(random: &mut Random, call: Call, bytes: &[u8]) -> Input {
    let job = read(bytes).expect("a job that the checks accept");
    let mut input = Input { job: bytes.to_vec(), ..Input::default() };
    match call {
        Call::Run => {
            lend_draws(random, &job, &mut input);
            input.frames_x = words_near(random, job.header.frame_words());
            input.frames_z = words_near(random, job.header.frame_words());
            input.deltas = words_near(random, job.header.outcome_words());
            input.totals = words_near(random, usize_of(job.header.outcomes));
            input.with_totals = !random.one_in(4);
        }
        Call::Settle => {
            lend_draws(random, &job, &mut input);
            let need = Plain.settle(bytes, input.draws(), &input.noiseless, &mut []).figure;
            input.out_len = length_near(random, usize_of(need));
        }
        Call::RunShared | Call::SettleShared => {
            input = lent(random, call.unshared(), bytes);
            share(random, &mut input);
        }
        Call::Annotate => {
            input.p = own_probability(random);
            let need = Plain.annotate(bytes, input.p, &mut vec![0; MAX_BYTES]).figure;
            input.out_len = length_near(random, usize_of(need));
        }
        Call::Walk => {
            input.shot = walk_shot(random, &job);
            input.set = walk_set(random, job.recorded);
        }
        Call::FaultTable => {
            input.groups = groups(random, job.recorded);
            let need = Plain.fault_table(bytes, &input.groups, &mut vec![0; MAX_BYTES]).figure;
            input.out_len = length_near(random, usize_of(need));
        }
        _ => {}
    }
    input
}

/// Counts of outcomes and shots, often around multiples of 64 or a header's limits, and words for both sides.
fn counted(random: &mut Random) -> Input {
    let outcomes = count(random, 0, MAX_OUTCOMES);
    let shots = count(random, 1, MAX_SHOTS);
    let need = |rows: u64, columns: u64| usize_of(rows.min(MAX_SHOTS)) * usize_of(columns.min(MAX_SHOTS)).div_ceil(64);
    let deltas = words_near(random, need(outcomes, shots));
    let rows = words_near(random, need(shots, outcomes));
    Input { outcomes, shots, deltas, rows, ..Input::default() }
}

/// A list for the words of a seed.
fn seeded_list(random: &mut Random) -> Input {
    let most = random.pick(&[0, 1, 2, 5, 70]);
    let length = random.index(most + 1);
    Input { seed: seed(random), words: (0..length).map(|_| random.word()).collect(), ..Input::default() }
}

/// What a made job is asked to have, and bytes for it.
fn seeded_job(random: &mut Random) -> Input {
    let few = random.between(1, 9);
    let qubits = if random.one_in(2) { few } else { count(random, 1, MAX_QUBITS) };
    let outcomes = if random.one_in(4) { random.below(4) } else { count(random, 0, MAX_OUTCOMES) };
    let shots = count(random, 1, MAX_SHOTS);
    let lines = match random.below(40) {
        0 => past(random, 20_000),
        1 => random.between(1_001, 20_000),
        2..5 => random.between(40, 1_000),
        5..12 => random.below(3),
        _ => random.between(0, 40),
    };
    let mut input = Input { qubits, outcomes, shots, lines, seed: seed(random), ..Input::default() };
    let need = Plain.make(input.asked(), &mut vec![0; MAX_BYTES]).figure;
    input.out_len = length_near(random, usize_of(need));
    input
}

/// A seed, often a small one, now and then zero.
fn seed(random: &mut Random) -> u64 {
    match random.below(20) {
        0 => 0,
        1 => 1 << random.below(64),
        2 => u64::MAX,
        3..12 => random.between(1, 300),
        _ => random.word(),
    }
}

/// A count that a header may hold, `first` to `last`; now and then one that it may not.
fn count(random: &mut Random, first: u64, last: u64) -> u64 {
    let around =
        |random: &mut Random, most: u64| (64 * random.between(0, most / 64) + random.below(3)).saturating_sub(1);
    match random.below(24) {
        0 => past(random, last + 1),
        1 => 0,
        2 => last,
        3 => around(random, last).clamp(first, last),
        4..14 => around(random, 192).clamp(first, last),
        _ => random.between(first, 200),
    }
}

/// A number that isn't below `end`.
fn past(random: &mut Random, end: u64) -> u64 {
    let large = random.word().max(end);
    random.pick(&[end, end + 1, u64::MAX, large])
}

/// Annotation's own p, often one that passes.
fn own_probability(random: &mut Random) -> u64 {
    let passing = [1.0, 0.5, 0.001, 0.0, -0.0, -1.0, f64::NEG_INFINITY];
    let failing = [1.0 + f64::EPSILON, 2.0, f64::INFINITY, f64::NAN, -f64::NAN];
    let p = match random.below(12) {
        0 => random.pick(&failing),
        1..6 => random.pick(&passing),
        _ => random.unit(),
    };
    p.to_bits()
}

/// A walk's shot, mostly one in which something is injected or flipped.
fn walk_shot(random: &mut Random, job: &Job<'_>) -> u64 {
    let shots: Vec<u64> = job.lines.iter().filter_map(|line| fault_shot(&line.instruction)).collect();
    match random.below(12) {
        0 => past(random, job.header.shots),
        1..10 if !shots.is_empty() => random.pick(&shots),
        _ => random.below(job.header.shots),
    }
}

/// A set of recorded outcomes, now and then with an unrecorded one, a repeat or out of order.
fn walk_set(random: &mut Random, recorded: u64) -> Vec<u64> {
    let mut set = recorded_set(random, recorded);
    match random.below(30) {
        kind @ 0..3 => damage_set(random, kind, recorded, &mut set),
        3 => set = (0..recorded).collect(),
        _ => {}
    }
    set
}

/// A set of recorded outcomes.
fn recorded_set(random: &mut Random, recorded: u64) -> Vec<u64> {
    let most = if random.one_in(2) { recorded } else { recorded.min(3) };
    let count = usize_of(random.between(0, most));
    random.subset(recorded, count)
}

/// An unrecorded outcome, a repeat, or the other order.
fn damage_set(random: &mut Random, kind: u64, recorded: u64, set: &mut Vec<u64>) {
    match kind {
        0 => set.push(past(random, recorded)),
        1 => set.extend(set.last().copied()),
        _ => set.reverse(),
    }
}

/// Groups of outcomes in one list, each group's length before its ids: mostly a few; now and then none, as many as may be, or one more. Some have a group
/// that is no set of recorded outcomes, or are damaged as a list.
fn groups(random: &mut Random, recorded: u64) -> Vec<u64> {
    let count = match random.below(20) {
        0 => 0,
        1 => MAX_GROUPS + 1,
        2..5 => MAX_GROUPS,
        _ => 1 + random.index(5),
    };
    let mut groups: Vec<Vec<u64>> = (0..count).map(|_| recorded_set(random, recorded)).collect();
    if count > 0 && random.one_in(12) {
        let place = if random.one_in(2) { count - 1 } else { random.index(count) };
        let kind = random.below(3);
        damage_set(random, kind, recorded, &mut groups[place]);
    }
    let with_length = |group: Vec<u64>| [vec![group.len() as u64], group].concat();
    let mut list: Vec<u64> = groups.into_iter().flat_map(with_length).collect();
    if random.one_in(10) {
        damage_groups(random, &mut list);
    }
    list
}

/// A list of groups cut short, with a length that is too large, or with another number.
fn damage_groups(random: &mut Random, list: &mut Vec<u64>) {
    let place = random.index(list.len() + 1);
    match random.below(5) {
        0 => _ = list.pop(),
        1 => list.truncate(place),
        2 => list.push(past(random, 1)),
        3 if place < list.len() => list[place] = past(random, 0),
        _ if place < list.len() => list[place] = list[place].wrapping_add(random.pick(&[1, u64::MAX])),
        _ => list.push(1),
    }
}

/// Mostly what is needed; now and then a little more, or less.
fn length_near(random: &mut Random, need: usize) -> usize {
    match random.below(40) {
        0..3 => need.saturating_sub(1),
        3..6 => random.index(need + 1),
        6 => 0,
        7 => MAX_BYTES,
        8 => need.max(MAX_BYTES) + random.index(10),
        9..20 => need + random.index(100),
        _ => need,
    }
}

/// Random words, mostly as many as are needed or some more.
fn words_near(random: &mut Random, need: usize) -> Vec<u64> {
    let length = match random.below(60) {
        0 => need.saturating_sub(1),
        1 => random.index(need + 1),
        2..12 => need + random.index(5),
        _ => need,
    };
    (0..length).map(|_| random.word()).collect()
}

// ---- shares

/// A share of a longer main list whose words are those of the main list here: its first are the rest of the caller's stretch, the others that of the common
/// part. Around them are the stretches of others, and words that were taken before. Some shares are damaged.
fn share(random: &mut Random, input: &mut Input) {
    let callers = 1 + random.index(MAX_CALLERS);
    let caller = random.index(callers);
    let words = std::mem::take(&mut input.main);
    let own = match random.below(4) {
        0 => 0,
        1 => words.len(),
        _ => random.index(words.len() + 1),
    };
    let few = |random: &mut Random| if random.one_in(3) { 0 } else { random.index(9) };
    let (mut main, mut shares, mut marks) = (Vec::new(), Vec::new(), Vec::new());
    for number in 0..callers {
        let taken = few(random);
        let left = if number == caller { own } else { few(random) };
        main.extend(draw_words(random, taken, &[]));
        match number == caller {
            true => main.extend(&words[..own]),
            false => main.extend(draw_words(random, left, &[])),
        }
        shares.push((taken + left) as u64);
        marks.push(taken as u64);
    }
    let taken = few(random);
    main.extend(draw_words(random, taken, &[]));
    main.extend(&words[own..]);
    marks.push(taken as u64);
    if random.one_in(6) {
        marks.push(random.word());
    }
    (input.main, input.shares, input.marks, input.caller) = (main, shares, marks, caller as u64);
    if random.one_in(5) {
        damage_share(random, input);
    }
}

/// Shares that total more than the list, with too few or too many callers, marks that are too high or too few, a caller that there isn't.
pub fn damage_share(random: &mut Random, input: &mut Input) {
    let (callers, length) = (input.shares.len(), input.main.len() as u64);
    let times = if random.one_in(3) { 2 } else { 1 };
    for _ in 0..times {
        let place = random.index(callers.max(1));
        match random.below(10) {
            0 => input.caller = past(random, callers as u64),
            1 => input.shares.clear(),
            2 => {
                // callers without a stretch, so that their number alone is wrong
                let more = (MAX_CALLERS + 1).saturating_sub(input.shares.len());
                input.shares.extend(vec![0; more]);
                let common = callers.min(input.marks.len());
                input.marks.splice(common..common, vec![0; more]);
            }
            3 => input.marks.truncate(random.index(callers + 1)),
            4 if place < input.shares.len() => {
                // just more than the list, or a total that passes 2^64
                let total: u64 = input.shares.iter().fold(0, |total, length| total.wrapping_add(*length));
                let more = past(random, length.wrapping_sub(total).wrapping_add(1).max(1));
                input.shares[place] = input.shares[place].wrapping_add(more);
            }
            5 => input.shares.extend([1 << 63, 1 << 63]),
            6 => _ = input.main.pop(),
            7 if place < input.marks.len() && place < input.shares.len() => {
                input.marks[place] = past(random, input.shares[place].saturating_add(1));
            }
            8 if callers < input.marks.len() => {
                let total: u64 = input.shares.iter().fold(0, |total, length| total.wrapping_add(*length));
                input.marks[callers] = past(random, length.wrapping_sub(total).wrapping_add(1).max(1));
            }
            _ => input.marks.iter_mut().for_each(|mark| *mark = mark.wrapping_add(1)),
        }
    }
}

/// A main list for several jobs.
pub fn main_list(random: &mut Random, length: usize) -> Vec<u64> {
    draw_words(random, length, &[])
}

// ---- draws

/// Lists of draws, noiseless bits and a base. The main list often ends where the job's draws end, or before.
fn lend_draws(random: &mut Random, job: &Job<'_>, input: &mut Input) {
    let noises: Vec<&Noise> = job.lines.iter().filter_map(|line| as_noise(&line.instruction)).collect();
    let thresholds: Vec<u64> = noises.iter().flat_map(|noise| thresholds(noise)).collect();
    let per_line = 3 * usize_of(job.header.shots) + 8;
    let uncorrelated = noises.iter().filter(|noise| noise.correlation.is_none()).count();
    let correlations: Vec<u64> = noises.iter().filter_map(|noise| noise.correlation).collect();

    let place = random.below(9);
    let correlation = if correlations.is_empty() { random.word() } else { random.pick(&correlations) };
    input.base = if random.one_in(10) { random.word() } else { place.wrapping_sub(correlation) };
    let second_length = if correlations.is_empty() { random.index(4) } else { per_line + usize_of(place) };
    let second_length = if random.one_in(8) { random.index(second_length + 1) } else { second_length };

    input.noiseless = words_near(random, job.header.outcome_words());
    input.main = draw_words(random, uncorrelated * per_line, &thresholds);
    input.second = draw_words(random, second_length, &thresholds);
    if input.noiseless.len() >= job.header.outcome_words() {
        let draws = Draws { base: input.base, main: &input.main, second: &input.second };
        if let Ok(settled) = settled(job, draws, &input.noiseless) {
            let length = main_length(random, usize_of(settled.words_read), input.main.len());
            input.main.truncate(length);
        }
    }
}

fn as_noise(instruction: &Instruction) -> Option<&Noise> {
    match instruction {
        Instruction::Noise(noise) => Some(noise),
        _ => None,
    }
}

/// Exactly what is read, a little less, much less, or all.
fn main_length(random: &mut Random, read: usize, all: usize) -> usize {
    match random.below(8) {
        0 => read.saturating_sub(1),
        1 => random.index(read + 1),
        2..6 => read,
        _ => all,
    }
}

/// The words at which a noise line's answer changes: that of its probability, and those of a weighted choice's running sums.
fn thresholds(noise: &Noise) -> Vec<u64> {
    let mut limits = vec![noise.probability()];
    if let Distribution::Weighted(elements) = &noise.distribution {
        let weights = || elements.iter().map(|(weight, _)| f64::from_bits(*weight));
        let total: f64 = weights().sum();
        limits.extend(weights().scan(0.0, |sum, weight| {
            *sum += weight / total;
            Some(*sum)
        }));
    }
    limits.into_iter().map(threshold).collect()
}

/// The first word whose u isn't below p, for a p that some word's u is.
#[allow(clippy::cast_possible_truncation, clippy::cast_sign_loss)]
fn threshold(p: f64) -> u64 {
    let scaled = (p * 9_007_199_254_740_992.0).ceil() as u64;
    scaled.saturating_mul(2048)
}

/// Words of which many lie where something changes: next to a probability or a running sum, at either end, at the bound of a rejection.
fn draw_words(random: &mut Random, count: usize, thresholds: &[u64]) -> Vec<u64> {
    const EDGES: [u64; 8] = [0, 2047, 2048, 1 << 62, 1 << 63, u64::MAX - 2048, u64::MAX - 2047, u64::MAX];
    // Of 16 words so many are at a threshold, or otherwise out of the ordinary.
    let (at_threshold, special) = random.pick(&[(0, 0), (2, 6), (8, 11)]);
    let mut word = || match random.below(16) {
        kind if kind < at_threshold && !thresholds.is_empty() => {
            let below = random.below(2);
            random.pick(thresholds).wrapping_sub(below)
        }
        kind if kind < special => match random.below(4) {
            0 => random.pick(&EDGES),
            1 => u64::MAX - random.below(70),
            2 => random.below(70),
            _ => {
                let zeros = random.below(64);
                random.word() >> zeros
            }
        },
        _ => random.word(),
    };
    (0..count).map(|_| word()).collect()
}
