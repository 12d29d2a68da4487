//! The stored vectors: files of cases, and which of them hold for the notes that have landed.
//!
//! A file of the folder holds for document 01 alone, a file of its `notes/` for the notes that each case names. `notes/overruled.txt` says by which
//! notes a case of the folder no longer holds, and `notes/long/` has long cases: copies of bytes or words stand for a long job or list, and a hash for
//! a long answer.

use crate::landed::has_landed;
use crate::vectors::{Call, Input, Output, fresh_bytes, joined};
use checker::calls::Answer;
use std::collections::HashMap;
use std::path::{Path, PathBuf};

/// The folder of the vectors: `KUNDATREZO_VECTORS`; without it, `shared/vectors` beside the repository.
#[must_use]
pub fn folder() -> PathBuf {
    let beside_repository = || Path::new(env!("CARGO_MANIFEST_DIR")).join("../../../../shared/vectors");
    std::env::var_os("KUNDATREZO_VECTORS").map_or_else(beside_repository, PathBuf::from)
}

/// A stored case.
#[derive(Debug, Clone, PartialEq, Eq)]
pub struct Case {
    /// Its number in the file.
    pub number: u64,
    /// What is handed over.
    pub input: Input,
    /// What comes back.
    pub output: Output,
    /// What comes back and is too long to be stored: the key of an answer, and its hash.
    pub hashes: Vec<(String, String)>,
    /// What is said of this case and others of its file.
    pub tie: Option<Tie>,
}

/// What is said of a case and others of its file, which it names by their numbers.
#[derive(Debug, Clone, PartialEq, Eq)]
pub enum Tie {
    /// The job differs from that of the other case only in injections and flips of other shots than these.
    Apart(u64, Vec<u64>),
    /// The job holds just the injections and flips of two.
    Sum([u64; 2]),
    /// It nearly does, and its deltas are not the exclusive or of theirs.
    NoSum([u64; 2]),
    /// The job is the settled text of the other with its draws.
    SettledFrom(u64),
}

/// The bytes that a text may have which is built to be compared; a longer one is only measured.
const LONGEST_TEXT: u64 = 1 << 32;

impl Case {
    /// Whether an output is the one of this case.
    #[must_use]
    pub fn allows(&self, output: &Output) -> bool {
        let mut expected = self.output.clone();
        for (key, hash) in &self.hashes {
            if *hash != hash_of(key, output) {
                return false;
            }
            take_over(key, &mut expected, output);
        }
        expected == *output
    }

    /// Whether the answer can be had by building all of its text.
    #[must_use]
    pub fn can_be_built(&self) -> bool {
        self.output.answer.figure < LONGEST_TEXT
    }
}

/// The list of a key of an answer.
fn list_of<'a>(key: &str, output: &'a mut Output) -> &'a mut Vec<u64> {
    match key {
        "after_frames_x" => &mut output.frames_x,
        "after_frames_z" => &mut output.frames_z,
        "after_deltas" => &mut output.deltas,
        "after_totals" => &mut output.totals,
        "after_rows" => &mut output.rows,
        _ => panic!("{key} has no hash"),
    }
}

fn hash_of(key: &str, output: &Output) -> String {
    if key == "text" {
        let written = usize::try_from(output.answer.figure).expect("a text in memory");
        return fnv1a(&output.bytes[..written.min(output.bytes.len())]);
    }
    let radix = if key == "after_totals" { 10 } else { 16 };
    fnv1a(joined(list_of(key, &mut output.clone()), radix).as_bytes())
}

/// Let what has a hash be what came back.
fn take_over(key: &str, expected: &mut Output, output: &Output) {
    if key == "text" {
        let written = usize::try_from(output.answer.figure).expect("a text in memory");
        expected.bytes[..written].copy_from_slice(&output.bytes[..written]);
    } else {
        *list_of(key, expected) = list_of(key, &mut output.clone()).clone();
    }
}

/// 64-bit FNV-1a, in hexadecimal.
fn fnv1a(bytes: &[u8]) -> String {
    let step = |hash: u64, &byte: &u8| (hash ^ u64::from(byte)).wrapping_mul(1_099_511_628_211);
    format!("{:016x}", bytes.iter().fold(14_695_981_039_346_656_037, step))
}

// ---- files

/// The stored cases of a call that hold for the notes that have landed.
#[must_use]
pub fn held(call: Call) -> Vec<Case> {
    PARTS.into_iter().flat_map(|part| held_in(part, call)).collect()
}

/// The folder's parts: document 01 alone, the notes, and long cases of these.
const PARTS: [&str; 3] = ["", NOTES, "notes/long"];

/// The part of the cases for the notes.
pub const NOTES: &str = "notes";

/// Those of one part of the folder.
#[must_use]
pub fn held_in(part: &str, call: Call) -> Vec<Case> {
    let overruled = overruled();
    let file = folder().join(part).join(format!("{}.txt", call.name()));
    let holds = |fields: &Fields, case: &Case| match part {
        "" => !overruled.contains(&(call.name().into(), case.number)),
        _ => holds(fields),
    };
    let all = fields_of(&std::fs::read(file).unwrap_or_default());
    all.iter()
        .filter(|fields| can_be_lent(fields))
        .map(|fields| (fields, case(call, fields)))
        .filter(|(fields, case)| holds(fields, case))
        .map(|(_, case)| case)
        .collect()
}

/// The cases for document 01 alone that a landed note overrules: `CALL N: NOTES`.
fn overruled() -> Vec<(String, u64)> {
    let text = std::fs::read_to_string(folder().join("notes/overruled.txt")).unwrap_or_default();
    let entry = |line: &str| {
        let (case, notes) = line.split_once(": ")?;
        let (call, number) = case.split_once(' ')?;
        let number = number.parse().ok()?;
        split(notes, 10).into_iter().any(has_landed).then(|| (call.to_owned(), number))
    };
    text.lines().filter_map(entry).collect()
}

/// Whether a case holds: all notes that it needs have landed, and none that it must come before.
fn holds(fields: &Fields) -> bool {
    let notes = |key: &str| split(&String::from_utf8_lossy(fields.get(key).map_or(&[], Vec::as_slice)), 10);
    notes("needs").into_iter().all(has_landed) && !notes("not").into_iter().any(has_landed)
}

/// Whether every share is a word: one case has a share of 2^64.
fn can_be_lent(fields: &Fields) -> bool {
    let shares = String::from_utf8_lossy(fields.get("shares").map_or(&[], Vec::as_slice));
    entries(&shares).all(|share| share.parse::<u64>().is_ok())
}

type Fields = HashMap<String, Vec<u8>>;

/// The cases of a file's bytes.
///
/// # Panics
///
/// Panics if the file isn't in the form of the vectors.
#[must_use]
pub fn cases(call: Call, bytes: &[u8]) -> Vec<Case> {
    fields_of(bytes).iter().map(|fields| case(call, fields)).collect()
}

fn fields_of(mut bytes: &[u8]) -> Vec<Fields> {
    let mut all = Vec::new();
    let mut fields = HashMap::new();
    while !bytes.is_empty() {
        let (key, value) = take_field(&mut bytes);
        if key == "end" {
            all.push(std::mem::take(&mut fields));
        } else if let Some(list) = key.strip_suffix("_more") {
            extend(fields.get_mut(list).expect("copies stand behind their list"), &value, list == "job");
        } else {
            fields.insert(key, value);
        }
    }
    all
}

fn take_line<'a>(bytes: &mut &'a [u8]) -> &'a str {
    let end = bytes.iter().position(|&byte| byte == b'\n').expect("a line ends");
    let line = std::str::from_utf8(&bytes[..end]).expect("keys and values are text");
    *bytes = &bytes[end + 1..];
    line
}

/// A key and its value; of copies, their number, a space and what is copied.
fn take_field(bytes: &mut &[u8]) -> (String, Vec<u8>) {
    let line = take_line(bytes);
    let (key, value) = line.split_once(' ').unwrap_or((line, ""));
    let value = match key {
        "job" | "text" | "stdout" => take_bytes(bytes, value),
        "job_more" => {
            let (copies, length) = value.split_once(' ').expect("a number of copies and a length");
            [copies.as_bytes(), b" ", &take_bytes(bytes, length)].concat()
        }
        _ => value.as_bytes().to_vec(),
    };
    (key.to_owned(), value)
}

fn take_bytes(bytes: &mut &[u8], length: &str) -> Vec<u8> {
    let (text, rest) = bytes.split_at(length.parse().expect("a length"));
    *bytes = rest.strip_prefix(b"\n").expect("LF after the bytes");
    text.to_vec()
}

/// Put copies behind bytes, or behind the words of a list.
fn extend(value: &mut Vec<u8>, more: &[u8], bytes: bool) {
    let space = more.iter().position(|&byte| byte == b' ').expect("a number of copies");
    let copies = String::from_utf8_lossy(&more[..space]).parse().expect("a number of copies");
    let copied = &more[space + 1..];
    if bytes {
        value.extend(copied.repeat(copies));
    } else {
        value.extend([b",", copied].concat().repeat(copies));
    }
}

fn case(call: Call, fields: &Fields) -> Case {
    let bytes = |key: &str| fields.get(key).cloned().unwrap_or_default();
    let text = |key: &str| String::from_utf8(bytes(key)).expect("a value is text");
    let number = |key: &str| text(key).parse::<u64>().unwrap_or(0);
    let words = |key: &str| split(&text(key), 16);
    let input = Input {
        job: bytes("job"),
        base: number("base"),
        main: words("main"),
        second: words("second"),
        noiseless: words("noiseless"),
        frames_x: words("frames_x"),
        frames_z: words("frames_z"),
        deltas: words("deltas"),
        with_totals: fields.contains_key("totals"),
        totals: split(&text("totals"), 10),
        out_len: usize::try_from(number("out_len")).expect("a length"),
        p: u64::from_str_radix(&text("p"), 16).unwrap_or(0),
        shot: number("shot"),
        set: split(&text("set"), 10),
        groups: split(&text("groups"), 10),
        shares: split(&text("shares"), 10),
        marks: split(&text("marks"), 10),
        caller: number("caller"),
        qubits: number("qubits"),
        outcomes: number("outcomes"),
        shots: number("shots"),
        lines: number("lines"),
        seed: number("seed"),
        rows: words("rows"),
        words: words("words"),
    };
    // Some cases call settling's figure with 15 `at_least`; it is the exact one (note 10).
    let figure = number("count") + number("figure") + number("at_least");
    let output = Output {
        answer: Answer { number: number("refusal"), line: number("line"), figure },
        frames_x: words("after_frames_x"),
        frames_z: words("after_frames_z"),
        deltas: words("after_deltas"),
        totals: split(&text("after_totals"), 10),
        rows: words("after_rows"),
        marks: split(&text("after_marks"), 10),
        words: words("after_words"),
        bytes: match call {
            Call::Print => bytes("stdout"),
            _ if call.writes_text() => written_over(&bytes("text"), input.out_len),
            _ => Vec::new(),
        },
    };
    let pair = |key: &str| <[u64; 2]>::try_from(split(&text(key), 10)).ok();
    let apart = fields.contains_key("apart").then(|| Tie::Apart(number("apart"), split(&text("kept"), 10)));
    let settled = fields.contains_key("settled_from").then(|| Tie::SettledFrom(number("settled_from")));
    let tie = apart.or_else(|| pair("sum").map(Tie::Sum)).or_else(|| pair("no_sum").map(Tie::NoSum)).or(settled);
    let hash = |key: &String| key.strip_suffix("_hash").map(|list| (list.to_owned(), text(key)));
    Case { number: number("case"), input, output, hashes: fields.keys().filter_map(hash).collect(), tie }
}

/// Fresh bytes with a text at their front.
pub(crate) fn written_over(text: &[u8], length: usize) -> Vec<u8> {
    let mut bytes = fresh_bytes(length);
    bytes[..text.len()].copy_from_slice(text);
    bytes
}

fn split(list: &str, radix: u32) -> Vec<u64> {
    entries(list).map(|entry| u64::from_str_radix(entry, radix).expect("a number")).collect()
}

fn entries(list: &str) -> impl Iterator<Item = &str> {
    list.split(',').filter(|entry| !entry.is_empty() && *entry != "-")
}
