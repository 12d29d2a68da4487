//! Damaged copies of jobs: a byte, a line or a value changed.

use crate::random::Random;
use checker::job::Header;
use checker::read::read;

/// A copy of a job with some damage, which the checks often refuse.
pub fn damaged(random: &mut Random, job: &[u8]) -> Vec<u8> {
    let header = read(job).map(|job| job.header).unwrap_or_default();
    let mut copy = job.to_vec();
    let times = if random.one_in(4) { 2 } else { 1 };
    for _ in 0..times {
        copy = match random.below(29) {
            0 | 1 => byte_damaged(random, copy),
            2 | 3 => line_damaged(random, &copy),
            4 => whole_damaged(random, copy),
            5 | 6 => controls_damaged(random, &copy, &header),
            7 => field_damaged(random, &copy),
            8..11 => edition_damaged(random, &copy),
            _ => value_damaged(random, &copy, &header),
        };
    }
    copy
}

/// A byte changed, dropped or inserted.
fn byte_damaged(random: &mut Random, mut job: Vec<u8>) -> Vec<u8> {
    const BYTES: &[u8] = b"0123456789abcdefABCDEF=,- \n\r\topqxzuvkmsirtndcw\0\xff";
    if job.is_empty() {
        return job;
    }
    let place = random.index(job.len());
    match random.below(3) {
        0 => job[place] = random.pick(BYTES),
        1 => _ = job.remove(place),
        _ => job.insert(place, random.pick(BYTES)),
    }
    job
}

/// A line dropped, repeated or moved; blank or header lines put in.
fn line_damaged(random: &mut Random, job: &[u8]) -> Vec<u8> {
    let mut lines: Vec<&[u8]> = job.split_inclusive(|&byte| byte == b'\n').collect();
    if lines.is_empty() {
        return job.to_vec();
    }
    let (place, other) = (random.index(lines.len()), random.index(lines.len()));
    match random.below(6) {
        0 => _ = lines.remove(place),
        1 => lines.insert(place, lines[other]),
        2 => lines.swap(place, other),
        3 => lines.truncate(place + 1),
        4 => lines.insert(place, b"\n"),
        _ => lines.insert(place, lines[0]),
    }
    lines.concat()
}

/// The last field of a line dropped, put behind another line, or written twice.
fn field_damaged(random: &mut Random, job: &[u8]) -> Vec<u8> {
    let mut lines: Vec<Vec<u8>> = job.split(|&byte| byte == b'\n').map(<[u8]>::to_vec).collect();
    let (place, other) = (random.index(lines.len()), random.index(lines.len()));
    let Some(space) = lines[place].iter().rposition(|&byte| byte == b' ') else {
        return job.to_vec();
    };
    let field = lines[place][space..].to_vec();
    match random.below(4) {
        0 | 1 => lines[place].truncate(space),
        2 => lines[other].extend(field),
        _ => lines[place].extend(field),
    }
    lines.join(&b'\n')
}

/// A controlled Pauli put in whose control and target anticommute, at one qubit or at three.
fn controls_damaged(random: &mut Random, job: &[u8], header: &Header) -> Vec<u8> {
    let mut lines: Vec<&[u8]> = job.split_inclusive(|&byte| byte == b'\n').collect();
    if lines.is_empty() || header.qubits == 0 {
        return job.to_vec();
    }
    let count = if header.qubits >= 3 && random.one_in(2) { 3 } else { 1 };
    let mut qubits: Vec<u64> = random.distinct(header.qubits, count).into_iter().collect();
    qubits.sort_unstable();
    let list = qubits.iter().map(u64::to_string).collect::<Vec<_>>().join(",");
    let line = match random.below(2) {
        0 => format!("op=k x={list} z=- u=- v={list}\n"),
        _ => format!("op=k x=- z={list} u={list} v=-\n"),
    };
    lines.insert(1 + random.index(lines.len()), line.as_bytes());
    lines.concat()
}

/// Another edition, or none: lines of the second edition may then stand in a job of the first. Or a line of the second edition put in.
fn edition_damaged(random: &mut Random, job: &[u8]) -> Vec<u8> {
    const EDITIONS: [&str; 9] = [
        "",
        "edition=1 ",
        "edition=2 ",
        "edition=0 ",
        "edition=3 ",
        "edition=02 ",
        "edition= ",
        "edition=-",
        "edition=18446744073709551615 ",
    ];
    const LINES: [&str; 6] =
        ["op=b q=0\n", "op=b q=0,0\n", "op=z q=0,1\n", "op=z q=1,1\n", "op=u g=15 q=0,1\n", "op=u g=15 q=0\n"];
    let mut lines: Vec<&[u8]> = job.split_inclusive(|&byte| byte == b'\n').collect();
    if random.one_in(3) {
        lines.insert(random.index(lines.len() + 1), random.pick(&LINES).as_bytes());
        return lines.concat();
    }
    let Some(numbers) = lines.first().and_then(|line| line.strip_prefix(b"op=job ")) else {
        return job.to_vec();
    };
    let start = numbers.windows(7).position(|bytes| bytes == b"qubits=").unwrap_or(0);
    let header = [b"op=job ", random.pick(&EDITIONS).as_bytes(), &numbers[start..]].concat();
    lines[0] = &header;
    lines.concat()
}

/// The final LF dropped, or everything from some byte on.
fn whole_damaged(random: &mut Random, mut job: Vec<u8>) -> Vec<u8> {
    let kept = match random.below(6) {
        0 => 0,
        1 | 2 => random.index(job.len() + 1),
        _ => job.len().saturating_sub(1),
    };
    job.truncate(kept);
    job
}

// ---- values

/// A value of some line changed. The key is chosen first, among those that the job has, so that rare lines are damaged as often as others.
fn value_damaged(random: &mut Random, job: &[u8], header: &Header) -> Vec<u8> {
    let Ok(text) = std::str::from_utf8(job) else {
        return job.to_vec();
    };
    let fields: Vec<Field<'_>> = fields(text).collect();
    let mut keys: Vec<&str> = fields.iter().map(|field| field.key).collect();
    keys.sort_unstable();
    keys.dedup();
    let keys: Vec<&str> = keys.into_iter().flat_map(|key| vec![key; weight(key)]).collect();
    if keys.is_empty() {
        return job.to_vec();
    }
    let key = random.pick(&keys);
    let with_key: Vec<Field<'_>> = fields.iter().filter(|field| field.key == key).copied().collect();
    let mut chosen = vec![random.pick(&with_key)];
    let beside = |field: &&Field<'_>| field.number == chosen[0].number && field.key != key;
    let beside: Vec<Field<'_>> = fields.iter().filter(beside).copied().collect();
    // Two faults on one line: its lowest number counts.
    if random.one_in(3) && !beside.is_empty() {
        chosen.push(random.pick(&beside));
    }
    chosen.sort_by_key(|field| std::cmp::Reverse(field.place));
    let mut damaged = text.to_owned();
    for field in chosen {
        let value = changed(random, &field, header);
        damaged.replace_range(field.place..field.place + field.value.len(), &value);
    }
    damaged.into_bytes()
}

/// How often a key is damaged: less where little but 2 can come of it, more where a number hangs on it alone.
fn weight(key: &str) -> usize {
    match key {
        "op" | "angle" | "parity" | "d" | "corr" => 1,
        "s" | "n" | "w" | "size" => 6,
        "p" | "t" | "id" | "shot" => 4,
        _ => 2,
    }
}

/// A field of a job.
#[derive(Clone, Copy)]
struct Field<'a> {
    /// The line, counted from 0.
    number: usize,
    /// What the line begins with: `op=u`, or an element line's first field.
    line: &'a str,
    key: &'a str,
    value: &'a str,
    /// Where the value begins in the job.
    place: usize,
}

fn fields(text: &str) -> impl Iterator<Item = Field<'_>> {
    let start = text.as_ptr() as usize;
    text.lines().enumerate().flat_map(move |(number, all)| {
        let line = all.split(' ').next().unwrap_or_default();
        let pairs = all.split(' ').filter_map(|field| field.split_once('='));
        pairs.map(move |(key, value)| Field { number, line, key, value, place: value.as_ptr() as usize - start })
    })
}

fn changed(random: &mut Random, field: &Field<'_>, header: &Header) -> String {
    const NO_VALUES: [&str; 12] = ["", "-", "00", "01", "+1", "-0", "0x1", "0,0", "1,", ",1", "-,1", "a"];
    const LETTERS: [&str; 16] = ["job", "u", "c", "p", "e", "k", "m", "o", "r", "f", "z", "i", "t", "n", "b", "op"];
    let value = field.value;
    let old = value.parse().unwrap_or(0);
    if random.one_in(20) {
        return random.pick(&NO_VALUES).to_owned();
    }
    match (field.key, field.line) {
        ("op", _) => random.pick(&LETTERS).to_owned(),
        ("edition", _) => near(random, &[0, 1, 2, 3]),
        ("qubits", _) => near(random, &[0, 1, 256, header.qubits]),
        ("outcomes", _) => near(random, &[0, 1, 1024, header.outcomes]),
        ("shots", _) => near(random, &[0, 1, 4096, header.shots]),
        ("g", _) => near(random, &[10, 11, 14, 15, 16]),
        ("shot", _) => near(random, &[header.shots, 64]),
        ("n", _) => near(random, &[0, 1, 64, old]),
        ("size", _) => near(random, &[1, 3, 15, old, old]),
        ("corr", _) => near(random, &[0, 1]),
        ("d", _) => near(random, &[0, 1, 2, 3, 4]),
        ("angle" | "parity", _) => random.pick(&["0", "1", "2", "-", "00"]).to_owned(),
        ("t", _) => table_changed(random, value),
        ("q", "op=c") if random.one_in(4) => consecutive(0, random.pick(&[4, 5, 6, 7, 8, 9, 10])),
        ("p" | "w", _) => float_changed(random, value),
        ("id", "op=o" | "op=r" | "op=t") => near(random, &[old, header.outcomes]),
        ("id" | "cond", _) => list_changed(random, value, header.outcomes),
        ("s", _) => list_changed(random, value, value.split(',').count() as u64),
        ("q", "op=z") if header.edition() == 1 => near(random, &[header.qubits]),
        _ => list_changed(random, value, header.qubits),
    }
}

/// A number of some, or one above or below it, or the last below 2^64 or the first that isn't.
fn near(random: &mut Random, numbers: &[u64]) -> String {
    let number = random.pick(numbers);
    match random.below(12) {
        0 => u64::MAX.to_string(),
        1 => random.pick(&["18446744073709551616", "99999999999999999999"]).to_owned(),
        2..4 => number.saturating_sub(1).to_string(),
        4..8 => number.to_string(),
        _ => number.wrapping_add(1).to_string(),
    }
}

/// A bit or two of a table changed, the form of a word, or how many words there are and in which order.
fn table_changed(random: &mut Random, value: &str) -> String {
    let words: Option<Vec<u64>> = value.split(',').map(|word| u64::from_str_radix(word, 16).ok()).collect();
    let Some(mut words) = words else {
        return value.to_owned();
    };
    match random.below(12) {
        0 => words.push(random.pick(&[0, 1])),
        1 if words.len() > 1 => _ = words.pop(),
        2 => words.resize(random.pick(&[3, 4, 5, 31, 32, 40]), 0),
        3 if words.len() > 1 => words.reverse(),
        _ => {
            for _ in 0..random.between(1, 2) {
                let place = random.index(words.len());
                let width = random.pick(&[4, 16, 64]);
                words[place] ^= 1 << random.below(width);
            }
        }
    }
    let reformed = random.index(words.len());
    let written = |(place, word): (usize, u64)| {
        if place == reformed { form_changed(random, word) } else { format!("{word:016x}") }
    };
    words.into_iter().enumerate().map(written).collect::<Vec<_>>().join(",")
}

/// A binary64 near the limits of probabilities and weights, or its form changed.
fn float_changed(random: &mut Random, value: &str) -> String {
    let old = u64::from_str_radix(value, 16).unwrap_or(0);
    let limits = [
        1.0_f64.to_bits(),
        1.0_f64.to_bits() + 1,
        1.0_f64.to_bits() - 1,
        2.0_f64.to_bits(),
        f64::INFINITY.to_bits(),
        f64::NEG_INFINITY.to_bits(),
        f64::NAN.to_bits(),
        f64::NAN.to_bits() | 1 << 63,
        f64::INFINITY.to_bits() + 1,
        f64::MAX.to_bits(),
        f64::MIN.to_bits(),
        0,
        1,
        1 << 63,
        1 << 63 | 1,
        old ^ 1 << 63,
        old ^ 1 << 62,
    ];
    let bits = random.pick(&limits);
    form_changed(random, bits)
}

fn form_changed(random: &mut Random, word: u64) -> String {
    match random.below(24) {
        0 => format!("{word:016X}"),
        1 => format!("{word:017x}"),
        2 => format!("{:015x}", word >> 4),
        3 => format!("{word:#018x}"),
        _ => format!("{word:016x}"),
    }
}

/// So many numbers from a first one on.
fn consecutive(first: u64, count: u64) -> String {
    (first..first + count).map(|entry| entry.to_string()).collect::<Vec<_>>().join(",")
}

/// An entry changed, dropped, repeated or put in, mostly so that the list still rises; the list as long as may be, or longer.
fn list_changed(random: &mut Random, value: &str, end: u64) -> String {
    let mut entries: Vec<String> = value.split(',').filter(|entry| *entry != "-").map(str::to_owned).collect();
    let place = random.index(entries.len() + 1);
    let fresh = (0..end).map(|entry| entry.to_string()).find(|entry| !entries.contains(entry));
    match random.below(13) {
        0..3 => entries.push(near(random, &[end])),
        3 => entries.insert(place, random.below(end.max(1)).to_string()),
        12 => entries.extend(fresh),
        4..6 if !entries.is_empty() => {
            entries.pop();
            entries.push(near(random, &[end]));
        }
        6 if place < entries.len() => entries[place] = random.below(end.max(1)).to_string(),
        7 if place < entries.len() => entries.insert(place, entries[place].clone()),
        8 if place < entries.len() => _ = entries.remove(place),
        9 if entries.len() > 1 => entries.swap(0, 1),
        _ => {
            let length = random.pick(&[30, 31, 32, 33, 40]);
            let first = random.pick(&[0, 0, 1]);
            return consecutive(first, length);
        }
    }
    if entries.is_empty() { "-".to_owned() } else { entries.join(",") }
}
