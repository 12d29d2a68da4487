//! Changes of inputs, for fuzzing: over a job's bytes, lines and values, and over what is lent.

use crate::damage::damaged;
use crate::random::Random;
use checker::job::{Instruction, Job, MAX_CALLERS, MAX_OUTCOMES, MAX_SHOTS, usize_of};
use checker::read::{check, read};
use reference::vectors::Input;
use std::ops::Range;

/// The longest job that changes lead to, but for those of longer jobs, so that most inputs are quick.
const MOST_BYTES: usize = 6_000;
/// The longest list of draws, for the same reason.
const MOST_WORDS: usize = 6_000;

/// Numbers at borders: of the word, of the limits of headers and lists, and of 2^64.
const NUMBERS: [&str; 36] = [
    "0",
    "1",
    "2",
    "3",
    "4",
    "5",
    "7",
    "8",
    "9",
    "14",
    "15",
    "16",
    "30",
    "31",
    "32",
    "63",
    "64",
    "65",
    "127",
    "128",
    "255",
    "256",
    "257",
    "1023",
    "1024",
    "1025",
    "4095",
    "4096",
    "4097",
    "65535",
    "65536",
    "4294967296",
    "9223372036854775808",
    "18446744073709551615",
    "18446744073709551616",
    "99999999999999999999",
];

/// Words at borders; as binary64 zeros, subnormals, one and its neighbours, infinities and NaNs.
const WORDS: [u64; 34] = [
    0,
    1,
    2,
    63,
    64,
    255,
    256,
    2047,
    2048,
    4095,
    4096,
    65_535,
    1 << 32,
    (1 << 32) - 1,
    (1 << 53) - 1,
    1 << 53,
    1 << 62,
    (1 << 63) - 1,
    1 << 63,
    (1 << 63) + 1,
    u64::MAX - 2048,
    u64::MAX - 2047,
    u64::MAX - 1,
    u64::MAX,
    0x000f_ffff_ffff_ffff,
    0x0010_0000_0000_0000,
    0x3fe0_0000_0000_0000,
    0x3fef_ffff_ffff_ffff,
    0x3ff0_0000_0000_0000,
    0x3ff0_0000_0000_0001,
    0x7fef_ffff_ffff_ffff,
    0x7ff0_0000_0000_0000,
    0x7ff8_0000_0000_0000,
    0xfff0_0000_0000_0000,
];

/// What lines are written with.
const TOKENS: [&str; 49] = [
    "op=",
    "op=job ",
    "op=u g=",
    "op=c q=",
    "op=p x=",
    "op=e x=",
    "op=k x=",
    "op=m s=",
    "op=o x=",
    "op=r id=",
    "op=f id=",
    "op=z q=",
    "op=b q=",
    "op=i shot=",
    "op=t shot=",
    "op=n p=",
    " edition=1",
    " edition=2",
    " qubits=",
    " outcomes=",
    " shots=",
    " q=",
    " g=",
    " t=",
    " x=-",
    " z=-",
    " u=-",
    " v=-",
    " s=",
    " id=",
    " shot=",
    " angle=0",
    " angle=1",
    " corr=-",
    " corr=0",
    " cond=-",
    " cond=0",
    " parity=0",
    " parity=1",
    " d=",
    " n=",
    " size=",
    "w=",
    "x=- z=-",
    "=",
    ",",
    "-",
    " ",
    "\n",
];

/// Whole lines, a few of each kind.
const LINES: [&str; 36] = [
    "op=u g=0 q=0",
    "op=u g=4 q=0",
    "op=u g=5 q=1",
    "op=u g=7 q=0",
    "op=u g=10 q=1",
    "op=u g=11 q=0,1",
    "op=u g=12 q=1,0",
    "op=u g=13 q=0,1",
    "op=u g=14 q=0,1",
    "op=u g=15 q=0,1",
    "op=c q=0 t=0000000000000006",
    "op=c q=0,1 t=0000000000008421",
    "op=c q=0,1,2,3 t=8040201008040201",
    "op=p x=0 z=-",
    "op=e x=0,1 z=1",
    "op=e x=- z=0",
    "op=k x=0 z=- u=- v=1",
    "op=k x=0,1 z=- u=- v=0,1",
    "op=m s=1,0 q=0,1",
    "op=o x=- z=0 id=0",
    "op=o x=0,1 z=- id=0",
    "op=r id=0 angle=1",
    "op=f x=0 z=- id=0 parity=1",
    "op=f x=- z=0 id=0,1 parity=0",
    "op=z q=0",
    "op=z q=0,1",
    "op=b q=0,1",
    "op=b q=-",
    "op=i shot=0 x=0 z=-",
    "op=i shot=0 x=- z=0,1",
    "op=t shot=0 id=0",
    "op=n p=3ff0000000000000 corr=- cond=- parity=0 d=2 q=0 size=3",
    "op=n p=3fe0000000000000 corr=- cond=- parity=0 d=1 x=0 z=1 size=1",
    "op=n p=3fe0000000000000 corr=0 cond=0 parity=1 d=2 q=0,1 size=15",
    "op=n p=3fe0000000000000 corr=- cond=- parity=0 d=3 n=2 size=2\nx=0 z=-\nx=- z=1",
    "op=n p=3fe0000000000000 corr=1 cond=- parity=0 d=4 n=2 size=2\nw=3ff0000000000000 x=0 z=-\nw=0000000000000000 x=- z=1",
];

/// A changed copy of an input of the calls on jobs, with parts of another; what is lent mostly fits the job. Of changes that the tests of a job refuse many
/// are dropped for another, since calls get no further on such jobs.
pub fn mutated(random: &mut Random, input: &Input, other: &Input) -> Input {
    let mut changed = changed(random, input, other);
    for _ in 0..3 {
        if !random.one_in(3) && check(&changed.job).is_err() {
            changed = self::changed(random, input, other);
        }
    }
    fitted(random, &mut changed);
    changed
}

fn changed(random: &mut Random, input: &Input, other: &Input) -> Input {
    let longest = input.job.len().max(MOST_BYTES);
    let mut input = input.clone();
    let most = random.pick(&[1, 1, 1, 3, 8]);
    for _ in 0..random.between(1, most) {
        match random.below(8) {
            0..6 => input.job = job_mutated(random, input.job, &other.job),
            _ => lent_mutated(random, &mut input, other),
        }
    }
    if random.one_in(2) {
        input.job = renumbered(&input.job);
    }
    if input.job.len() > longest {
        let end = input.job[..longest].iter().rposition(|&byte| byte == b'\n');
        input.job.truncate(end.map_or(longest, |place| place + 1));
    }
    input
}

/// A changed copy of an input of the calls on no job: turning rows, words and jobs from a seed.
pub fn mutated_numbers(random: &mut Random, input: &Input, other: &Input) -> Input {
    let mut input = input.clone();
    for _ in 0..random.between(1, 3) {
        let word = match random.below(4) {
            0 => random.below(300),
            1 => random.word(),
            2 => random.pick(&[other.qubits, other.outcomes, other.shots, other.lines, other.seed]),
            _ => border(random),
        };
        match random.below(9) {
            0 => input.qubits = word,
            1 => input.outcomes = word,
            2 => input.shots = word,
            3 => input.lines = word % 2_000,
            4 => input.seed = word,
            5 => input.out_len = usize_of(word % 9_000),
            6 => list_mutated(random, &mut input.words, &other.words),
            7 => list_mutated(random, &mut input.rows, &other.rows),
            _ => list_mutated(random, &mut input.deltas, &other.deltas),
        }
    }
    let (outcomes, shots) = (usize_of(input.outcomes.min(MAX_OUTCOMES)), usize_of(input.shots.min(MAX_SHOTS)));
    fit(random, &mut input.deltas, outcomes * shots.div_ceil(64));
    fit(random, &mut input.rows, shots * outcomes.div_ceil(64));
    input.words.truncate(200);
    input
}

// ---- jobs

fn job_mutated(random: &mut Random, job: Vec<u8>, other: &[u8]) -> Vec<u8> {
    match random.below(22) {
        0..3 => bytes_mutated(random, job),
        3..8 => lines_mutated(random, &job, other),
        8..12 => number_mutated(random, job),
        12..14 => word_mutated(random, job),
        14..16 => entry_mutated(random, job),
        16..18 => field_mutated(random, job, other),
        18 => token_mutated(random, job),
        _ => damaged(random, &job),
    }
}

/// A bit or a byte changed, put in or dropped.
fn bytes_mutated(random: &mut Random, mut job: Vec<u8>) -> Vec<u8> {
    const BYTES: &[u8] = b"0123456789abcdef=,- \n";
    let place = random.index(job.len() + 1);
    let byte = if random.one_in(3) { random.word() as u8 } else { random.pick(BYTES) };
    match random.below(4) {
        0 if place < job.len() => job[place] ^= 1 << random.below(8),
        1 if place < job.len() => job[place] = byte,
        2 if place < job.len() => _ = job.remove(place),
        _ => job.insert(place, byte),
    }
    job
}

/// Lines dropped, repeated, exchanged, put in from another job or from the list; the end of another job.
fn lines_mutated(random: &mut Random, job: &[u8], other: &[u8]) -> Vec<u8> {
    let mut lines: Vec<&[u8]> = job.split_inclusive(|&byte| byte == b'\n').collect();
    let others: Vec<&[u8]> = other.split_inclusive(|&byte| byte == b'\n').collect();
    if lines.is_empty() || others.is_empty() {
        return other.to_vec();
    }
    let line = format!("{}\n", random.pick(&LINES));
    let (place, second) = (random.index(lines.len()), random.index(lines.len()));
    let from = random.index(others.len());
    match random.below(9) {
        0 => _ = lines.remove(place),
        1 => _ = lines.drain(place..(place + 1 + random.index(6)).min(lines.len())),
        2 => lines.insert(place, lines[second]),
        3 => lines.swap(place, second),
        4 => lines.insert(place + 1, others[from]),
        5 => {
            let run = &others[from..(from + 1 + random.index(6)).min(others.len())];
            lines.splice(place + 1..place + 1, run.iter().copied());
        }
        6 => {
            lines.truncate(place + 1);
            lines.extend(&others[from..]);
        }
        _ => lines.insert(place + 1, line.as_bytes()),
    }
    lines.concat()
}

/// Where the values and entries of lists lie: runs of hexadecimal digits behind `=` or a comma.
fn values(job: &[u8]) -> Vec<Range<usize>> {
    let is_digit = |byte: &u8| byte.is_ascii_digit() || (b'a'..=b'f').contains(byte);
    let starts = (1..job.len()).filter(|&place| matches!(job[place - 1], b'=' | b',') && is_digit(&job[place]));
    starts.map(|start| start..start + job[start..].iter().take_while(|&byte| is_digit(byte)).count()).collect()
}

fn some_value(random: &mut Random, job: &[u8], is_word: bool) -> Option<(Range<usize>, u64)> {
    let read = |place: &Range<usize>| {
        let text = str::from_utf8(&job[place.clone()]).expect("digits");
        if is_word { u64::from_str_radix(text, 16).ok() } else { text.parse().ok() }
    };
    let found: Vec<(Range<usize>, u64)> = values(job)
        .into_iter()
        .filter(|place| (place.len() == 16) == is_word)
        .filter_map(|place| read(&place).map(|word| (place, word)))
        .collect();
    if found.is_empty() { None } else { Some(found[random.index(found.len())].clone()) }
}

/// A number changed: to one at a border, by one, or to that of another value.
fn number_mutated(random: &mut Random, mut job: Vec<u8>) -> Vec<u8> {
    let (Some((place, old)), Some((_, second))) = (some_value(random, &job, false), some_value(random, &job, false))
    else {
        return job;
    };
    let new = match random.below(6) {
        0 | 1 => random.pick(&NUMBERS).to_owned(),
        2 => old.wrapping_add(1).to_string(),
        3 => old.wrapping_sub(1).to_string(),
        4 => random.below(old.clamp(8, 300)).to_string(),
        _ => second.to_string(),
    };
    job.splice(place, new.into_bytes());
    job
}

/// A word of 16 digits changed: to one at a border, by a bit or by one.
fn word_mutated(random: &mut Random, mut job: Vec<u8>) -> Vec<u8> {
    let Some((place, old)) = some_value(random, &job, true) else {
        return job;
    };
    let new = match random.below(5) {
        0 | 1 => border(random),
        2 => old ^ 1 << random.below(64),
        3 => old.wrapping_add(random.pick(&[1, u64::MAX])),
        _ => random.word() >> random.below(64),
    };
    job.splice(place, format!("{new:016x}").into_bytes());
    job
}

/// An entry of a list put in, dropped or repeated.
fn entry_mutated(random: &mut Random, mut job: Vec<u8>) -> Vec<u8> {
    let Some((place, old)) = some_value(random, &job, false) else {
        return job;
    };
    match random.below(4) {
        0 if job.get(place.end) == Some(&b',') => _ = job.drain(place.start..=place.end),
        1 => _ = job.splice(place.start..place.start, format!("{},", old.saturating_sub(1)).into_bytes()),
        2 => _ = job.splice(place.end..place.end, format!(",{}", old.wrapping_add(1)).into_bytes()),
        _ => {
            let more = random.pick(&[2, 3, 7, 29, 30, 31, 32]);
            let list: String = (1..more).map(|k| format!(",{}", old.wrapping_add(k))).collect();
            job.splice(place.end..place.end, list.into_bytes());
        }
    }
    job
}

/// A value taken over from a field of the same key.
fn field_mutated(random: &mut Random, job: Vec<u8>, other: &[u8]) -> Vec<u8> {
    let fields = |text: &[u8]| {
        let separated = text.split(|byte| matches!(byte, b' ' | b'\n'));
        separated.filter(|field| field.contains(&b'=')).map(<[u8]>::to_vec).collect::<Vec<_>>()
    };
    let own = fields(&job);
    if own.is_empty() {
        return job;
    }
    let field = &own[random.index(own.len())];
    let key = |field: &[u8]| field.split(|&byte| byte == b'=').next().map(<[u8]>::to_vec);
    let from = if random.one_in(2) { fields(other) } else { own.clone() };
    let same: Vec<&Vec<u8>> = from.iter().filter(|other| key(other) == key(field)).collect();
    if same.is_empty() {
        return job;
    }
    let places: Vec<usize> = (0..job.len()).filter(|&place| job[place..].starts_with(field)).collect();
    let place = random.pick(&places);
    let mut job = job;
    job.splice(place..place + field.len(), same[random.index(same.len())].iter().copied());
    job
}

/// A token of the language put in, or written over what is there.
fn token_mutated(random: &mut Random, mut job: Vec<u8>) -> Vec<u8> {
    let token = random.pick(&TOKENS).as_bytes();
    let place = random.index(job.len() + 1);
    let end = if random.one_in(2) { place } else { (place + token.len()).min(job.len()) };
    job.splice(place..end, token.iter().copied());
    job
}

/// The job with the ids of its measurements and allocations in order, and a header with as many outcomes, so that spliced lines pass.
fn renumbered(job: &[u8]) -> Vec<u8> {
    let mut next = 0_u64;
    let mut lines: Vec<Vec<u8>> = job.split_inclusive(|&byte| byte == b'\n').map(<[u8]>::to_vec).collect();
    for line in &mut lines {
        if line.starts_with(b"op=o ") || line.starts_with(b"op=r ") {
            set_number(line, b"id=", next);
            next += 1;
        }
    }
    if let Some(header) = lines.first_mut()
        && number_behind(header, b"outcomes=").is_some_and(|(_, outcomes)| outcomes < next)
    {
        set_number(header, b"outcomes=", next);
    }
    lines.concat()
}

fn number_behind(line: &[u8], key: &[u8]) -> Option<(Range<usize>, u64)> {
    let start = line.windows(key.len()).position(|bytes| bytes == key)? + key.len();
    let end = start + line[start..].iter().take_while(|byte| byte.is_ascii_digit()).count();
    Some((start..end, str::from_utf8(&line[start..end]).ok()?.parse().ok()?))
}

fn set_number(line: &mut Vec<u8>, key: &[u8], number: u64) {
    if let Some((place, _)) = number_behind(line, key) {
        line.splice(place, number.to_string().into_bytes());
    }
}

// ---- what is lent

fn border(random: &mut Random) -> u64 {
    random.pick(&WORDS)
}

/// A word, often at a border.
fn word(random: &mut Random) -> u64 {
    if random.one_in(3) { border(random) } else { random.word() }
}

fn lent_mutated(random: &mut Random, input: &mut Input, other: &Input) {
    match random.below(20) {
        0..5 => list_mutated(random, &mut input.main, &other.main),
        5..7 => list_mutated(random, &mut input.second, &other.second),
        7 => list_mutated(random, &mut input.noiseless, &other.noiseless),
        8 => list_mutated(random, &mut input.frames_x, &other.frames_x),
        9 => list_mutated(random, &mut input.frames_z, &other.frames_z),
        10 => list_mutated(random, &mut input.totals, &other.totals),
        11 => list_mutated(random, &mut input.set, &other.set),
        12 => list_mutated(random, &mut input.groups, &other.groups),
        13 => list_mutated(random, &mut input.shares, &other.shares),
        14 => list_mutated(random, &mut input.marks, &other.marks),
        15 => input.base = if random.one_in(2) { random.below(9) } else { word(random) },
        16 => input.p = if random.one_in(4) { other.p } else { border(random) },
        17 => input.shot = if random.one_in(4) { word(random) } else { random.below(70) },
        18 => input.caller = if random.one_in(4) { word(random) } else { random.below(9) },
        _ => {
            // below 8 it stands for a length near the text's own
            input.out_len = if random.one_in(3) { random.index(5_000) } else { random.index(8) };
            input.with_totals = !random.one_in(3);
        }
    }
}

fn list_mutated(random: &mut Random, list: &mut Vec<u64>, other: &[u64]) {
    let place = random.index(list.len() + 1);
    let new = word(random);
    match random.below(9) {
        0 if place < list.len() => list[place] = new,
        1 if place < list.len() => list[place] ^= 1 << random.below(64),
        2 if place < list.len() => list[place] = list[place].wrapping_add(random.pick(&[1, u64::MAX])),
        3 if place < list.len() => _ = list.remove(place),
        4 => list.truncate(place),
        5 => list.insert(place, new),
        6 => list.splice(place.., other.iter().copied().take(MOST_WORDS)).for_each(drop),
        7 => list[place..].fill(new),
        _ => list.insert(place, random.below(20)),
    }
}

/// Let what is lent suit the job, mostly.
pub fn fitted(random: &mut Random, input: &mut Input) {
    input.main.truncate(MOST_WORDS);
    input.second.truncate(MOST_WORDS);
    let bytes = std::mem::take(&mut input.job);
    if let Ok(job) = read(&bytes) {
        let header = job.header;
        fit(random, &mut input.noiseless, header.outcome_words());
        fit(random, &mut input.frames_x, header.frame_words());
        fit(random, &mut input.frames_z, header.frame_words());
        fit(random, &mut input.deltas, header.outcome_words());
        fit(random, &mut input.totals, usize_of(header.outcomes));
        if !random.one_in(4) {
            fit_draws(random, &job, input);
        }
        if !random.one_in(4) {
            fit_sets(random, job.recorded, input);
        }
        if !random.one_in(3) {
            fit_share(random, input);
        }
        if !random.one_in(6) {
            input.shot %= header.shots;
        }
    }
    input.job = bytes;
}

/// As many words as are needed, now and then a few more or less.
fn fit(random: &mut Random, list: &mut Vec<u64>, need: usize) {
    let length = match random.below(40) {
        0 => need.saturating_sub(1),
        1 => random.index(need + 1),
        2..8 => need + random.index(4),
        _ => need,
    };
    list.truncate(length);
    let missing = length - list.len();
    list.extend((0..missing).map(|_| random.word()));
}

/// Enough draws, as far as the lists may be that long.
fn fit_draws(random: &mut Random, job: &Job<'_>, input: &mut Input) {
    let noises = job.lines.iter().filter_map(|line| match &line.instruction {
        Instruction::Noise(noise) => Some(noise.correlation.is_some()),
        _ => None,
    });
    let (second, main): (Vec<bool>, Vec<bool>) = noises.partition(|is_correlated| *is_correlated);
    let each = 3 * usize_of(job.header.shots) + 8;
    for (list, lines) in [(&mut input.main, main.len()), (&mut input.second, 2 * second.len().min(1))] {
        let need = (lines * each).min(MOST_WORDS);
        let missing = need.saturating_sub(list.len());
        list.extend((0..missing).map(|_| word(random)));
    }
}

/// Sets of recorded outcomes.
fn fit_sets(random: &mut Random, recorded: u64, input: &mut Input) {
    if recorded == 0 {
        input.set.clear();
    }
    input.set.iter_mut().for_each(|id| *id %= recorded.max(1));
    input.set.sort_unstable();
    input.set.dedup();
    let mut groups = Vec::new();
    for _ in 0..random.between(1, 5) {
        let count = usize_of(random.between(0, recorded.min(6)));
        groups.push(count as u64);
        groups.extend(random.subset(recorded, count));
    }
    if !random.one_in(8) {
        input.groups = groups;
    }
}

/// Shares that the main list holds, with marks within them.
fn fit_share(random: &mut Random, input: &mut Input) {
    let callers = input.shares.len().clamp(1, MAX_CALLERS);
    input.shares.resize(callers, 3);
    let mut left = input.main.len() as u64;
    for share in &mut input.shares {
        *share %= left.min(400) + 1;
        left -= *share;
    }
    input.marks.resize((callers + 1).max(input.marks.len().min(12)), 0);
    let ends: Vec<u64> = input.shares.iter().copied().chain([left]).collect();
    for (mark, end) in input.marks.iter_mut().zip(ends) {
        *mark %= end.min(40) + 1;
    }
    if !random.one_in(8) {
        input.caller %= callers as u64;
    }
}

#[cfg(test)]
mod tests {
    use super::{fitted, mutated};
    use crate::inputs::input;
    use crate::random::Random;
    use checker::read::check;
    use reference::vectors::Call;

    #[test]
    fn changed_inputs_differ_and_many_of_each_kind_come() {
        let random = &mut Random::new(1);
        let (mut same, mut accepted, mut refused) = (0, 0, 0);
        for seed in 0..500 {
            let [mut one, other] = [seed, seed + 500].map(|seed| input(&mut Random::new(seed), Call::RunShared));
            fitted(random, &mut one);
            let changed = mutated(random, &one, &other);
            same += u32::from(changed == one);
            *if check(&changed.job).is_ok() { &mut accepted } else { &mut refused } += 1;
        }
        assert!(same < 50 && accepted > 100 && refused > 100, "{same} {accepted} {refused}");
    }
}
