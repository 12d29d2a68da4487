//! Calls with what they are handed and what they answer, and the form in which they are stored: lines `key value`, from `case N` to `end`.
//!
//! After `job N`, `text N` and `stdout N` follow exactly N bytes and one LF. Words are 16 hexadecimal digits each with commas between, `-` for none; totals
//! are decimal numbers.

use crate::stored::Case;
use checker::calls::{Answer, Asked, Calls, Draws, Rows, Share};
use checker::job::usize_of;
use checker::read::read;

/// The calls that have vectors: a file each.
pub const CALLS: [Call; 15] = [
    Call::Check,
    Call::Run,
    Call::Settle,
    Call::RunShared,
    Call::SettleShared,
    Call::Walk,
    Call::Annotate,
    Call::Locations,
    Call::Correlation,
    Call::FaultTable,
    Call::ByShot,
    Call::ByOutcome,
    Call::Fill,
    Call::Make,
    Call::Print,
];

/// A call by name.
#[derive(Debug, Clone, Copy, PartialEq, Eq)]
#[allow(missing_docs)]
pub enum Call {
    Check,
    Run,
    Settle,
    RunShared,
    SettleShared,
    Walk,
    Annotate,
    Locations,
    Correlation,
    FaultTable,
    ByShot,
    ByOutcome,
    Fill,
    Make,
    Print,
}

impl Call {
    /// Whether the call is on a job.
    #[must_use]
    pub fn is_on_job(self) -> bool {
        !matches!(self, Call::ByShot | Call::ByOutcome | Call::Fill | Call::Make)
    }

    /// Whether the call is by a caller with a share of the main list.
    #[must_use]
    pub fn is_shared(self) -> bool {
        matches!(self, Call::RunShared | Call::SettleShared)
    }

    /// The call that it is without shares.
    #[must_use]
    pub fn unshared(self) -> Self {
        match self {
            Call::RunShared => Call::Run,
            Call::SettleShared => Call::Settle,
            _ => self,
        }
    }

    /// Whether the call writes a text over lent bytes.
    #[must_use]
    pub fn writes_text(self) -> bool {
        matches!(self, Call::Settle | Call::SettleShared | Call::Annotate | Call::FaultTable | Call::Make)
    }

    /// The call's name, as of its subcommand and its file.
    #[must_use]
    pub fn name(self) -> &'static str {
        match self {
            Call::Check => "check",
            Call::Run => "run",
            Call::Settle => "settle",
            Call::RunShared => "run_shared",
            Call::SettleShared => "settle_shared",
            Call::Walk => "walk",
            Call::Annotate => "annotate",
            Call::Locations => "locations",
            Call::Correlation => "correlation",
            Call::FaultTable => "fault_table",
            Call::ByShot => "by_shot",
            Call::ByOutcome => "by_outcome",
            Call::Fill => "fill",
            Call::Make => "make",
            Call::Print => "print",
        }
    }
}

/// What is lent and handed over to a call; each call uses its own part.
#[derive(Debug, Clone, Default, PartialEq, Eq)]
#[allow(missing_docs)]
pub struct Input {
    pub job: Vec<u8>,
    pub base: u64,
    pub main: Vec<u64>,
    pub second: Vec<u64>,
    pub noiseless: Vec<u64>,
    pub frames_x: Vec<u64>,
    pub frames_z: Vec<u64>,
    pub deltas: Vec<u64>,
    /// Whether a run lends a list of totals; one by a caller with a share lends one just long enough where it does not.
    pub with_totals: bool,
    pub totals: Vec<u64>,
    pub out_len: usize,
    pub p: u64,
    pub shot: u64,
    pub set: Vec<u64>,
    pub groups: Vec<u64>,
    pub shares: Vec<u64>,
    pub marks: Vec<u64>,
    pub caller: u64,
    pub qubits: u64,
    pub outcomes: u64,
    pub shots: u64,
    pub lines: u64,
    pub seed: u64,
    pub rows: Vec<u64>,
    pub words: Vec<u64>,
}

/// What a call answers and leaves.
#[derive(Debug, Clone, Default, PartialEq, Eq)]
#[allow(missing_docs)]
pub struct Output {
    pub answer: Answer,
    /// Every lent word after the call.
    pub frames_x: Vec<u64>,
    pub frames_z: Vec<u64>,
    pub deltas: Vec<u64>,
    pub totals: Vec<u64>,
    pub rows: Vec<u64>,
    pub marks: Vec<u64>,
    pub words: Vec<u64>,
    /// Every lent byte after the call, or what the program printed.
    pub bytes: Vec<u8>,
}

/// What lent bytes hold before a call, so that bytes that stay can be told from bytes written.
#[must_use]
pub fn fresh_bytes(length: usize) -> Vec<u8> {
    (0..length).map(|at| b'A' + (at % 23) as u8).collect()
}

impl Input {
    /// The lent draws.
    #[must_use]
    pub fn draws(&self) -> Draws<'_> {
        Draws { base: self.base, main: &self.main, second: &self.second }
    }

    /// What a made job is asked to have.
    #[must_use]
    pub fn asked(&self) -> Asked {
        let Input { qubits, outcomes, shots, lines, seed, .. } = *self;
        Asked { qubits, outcomes, shots, lines, seed }
    }

    /// Make a call and keep all it leaves; none where its program isn't at hand.
    pub fn make(&self, call: Call, calls: &dyn Calls) -> Option<Output> {
        let mut output = Output::default();
        let job = &self.job;
        match call {
            Call::Check => output.answer = calls.check(job),
            Call::Run | Call::RunShared => {
                output.frames_x = self.frames_x.clone();
                output.frames_z = self.frames_z.clone();
                output.deltas = self.deltas.clone();
                output.totals = match (call, self.with_totals) {
                    (_, true) => self.totals.clone(),
                    (Call::Run, false) => Vec::new(),
                    _ => vec![0; outcomes(job)],
                };
                let with_totals = self.with_totals || call == Call::RunShared;
                let rows = Rows {
                    frames_x: &mut output.frames_x,
                    frames_z: &mut output.frames_z,
                    deltas: &mut output.deltas,
                    totals: with_totals.then_some(output.totals.as_mut_slice()),
                };
                output.answer = if call == Call::Run {
                    calls.run(job, self.draws(), &self.noiseless, rows)
                } else {
                    output.marks = self.marks.clone();
                    let share = Share { shares: &self.shares, marks: &mut output.marks, caller: self.caller };
                    calls.run_shared(job, self.draws(), &self.noiseless, rows, share)
                };
                if !self.with_totals {
                    output.totals.clear();
                }
            }
            Call::SettleShared => {
                output.bytes = fresh_bytes(self.out_len);
                output.marks = self.marks.clone();
                let share = Share { shares: &self.shares, marks: &mut output.marks, caller: self.caller };
                output.answer = calls.settle_shared(job, self.draws(), &self.noiseless, share, &mut output.bytes);
            }
            Call::Settle => {
                output.bytes = fresh_bytes(self.out_len);
                output.answer = calls.settle(job, self.draws(), &self.noiseless, &mut output.bytes);
            }
            Call::Walk => output.answer = calls.walk(job, self.shot, &self.set),
            Call::Annotate => {
                output.bytes = fresh_bytes(self.out_len);
                output.answer = calls.annotate(job, self.p, &mut output.bytes);
            }
            Call::Locations => output.answer = calls.locations(job),
            Call::Correlation => output.answer = calls.correlation(job),
            Call::FaultTable => {
                output.bytes = fresh_bytes(self.out_len);
                output.answer = calls.fault_table(job, &self.groups, &mut output.bytes);
            }
            Call::ByShot => {
                output.rows = self.rows.clone();
                output.answer = calls.by_shot(self.outcomes, self.shots, &self.deltas, &mut output.rows);
            }
            Call::ByOutcome => {
                output.deltas = self.deltas.clone();
                output.answer = calls.by_outcome(self.outcomes, self.shots, &self.rows, &mut output.deltas);
            }
            Call::Fill => {
                output.words = self.words.clone();
                output.answer = calls.fill(self.seed, &mut output.words);
            }
            Call::Make => {
                output.bytes = fresh_bytes(self.out_len);
                output.answer = calls.make(self.asked(), &mut output.bytes);
            }
            Call::Print => output.bytes = calls.print(job)?,
        }
        Some(output)
    }
}

/// The outcomes of a job's header; any number will do where it has none.
fn outcomes(job: &[u8]) -> usize {
    read(job).map_or(0, |job| usize_of(job.header.outcomes))
}

// ---- writing

/// A case as its file has it.
#[must_use]
pub fn case_bytes(call: Call, case: &Case) -> Vec<u8> {
    let mut bytes = format!("case {}\n", case.number).into_bytes();
    bytes.extend(input_bytes(call, &case.input));
    bytes.extend(output_bytes(call, &case.output));
    bytes.extend(b"end\n");
    bytes
}

/// What a call is handed: the first half of a case.
#[must_use]
pub fn input_bytes(call: Call, input: &Input) -> Vec<u8> {
    let mut bytes = if call.is_on_job() { with_length("job", &input.job) } else { Vec::new() };
    let base = || vec![("base", input.base.to_string())];
    let out_len = || vec![("out_len", input.out_len.to_string())];
    let draws = || {
        let lists = [("main", &input.main), ("second", &input.second), ("noiseless", &input.noiseless)];
        lists.map(|(key, words)| (key, joined(words, 16))).to_vec()
    };
    let rows = || {
        let lists = [("frames_x", &input.frames_x), ("frames_z", &input.frames_z), ("deltas", &input.deltas)];
        lists.map(|(key, words)| (key, joined(words, 16))).to_vec()
    };
    let totals = || if input.with_totals { vec![("totals", joined(&input.totals, 10))] } else { Vec::new() };
    let share = || {
        let lists = [("shares", &input.shares), ("marks", &input.marks)];
        let lists = lists.map(|(key, numbers)| (key, joined(numbers, 10)));
        std::iter::once(("caller", input.caller.to_string())).chain(lists).collect::<Vec<_>>()
    };
    let counts = || vec![("outcomes", input.outcomes.to_string()), ("shots", input.shots.to_string())];
    let seed = || vec![("seed", input.seed.to_string())];
    let deltas = || vec![("deltas", joined(&input.deltas, 16))];
    let by_shot = || vec![("rows", joined(&input.rows, 16))];
    let fields = match call {
        Call::Run => [base(), draws(), rows(), totals()].concat(),
        Call::Settle => [base(), out_len(), draws()].concat(),
        Call::RunShared => [base(), share(), draws(), rows(), totals()].concat(),
        Call::SettleShared => [base(), out_len(), share(), draws()].concat(),
        Call::Walk => vec![("shot", input.shot.to_string()), ("set", joined(&input.set, 10))],
        Call::Annotate => [out_len(), vec![("p", format!("{:016x}", input.p))]].concat(),
        Call::FaultTable => [out_len(), vec![("groups", joined(&input.groups, 10))]].concat(),
        Call::ByShot => [counts(), deltas(), by_shot()].concat(),
        Call::ByOutcome => [counts(), by_shot(), deltas()].concat(),
        Call::Fill => [seed(), vec![("words", joined(&input.words, 16))]].concat(),
        Call::Make => {
            let lines = vec![("lines", input.lines.to_string())];
            [vec![("qubits", input.qubits.to_string())], counts(), lines, seed(), out_len()].concat()
        }
        Call::Check | Call::Locations | Call::Correlation | Call::Print => Vec::new(),
    };
    for (key, value) in fields {
        bytes.extend(format!("{key} {value}\n").into_bytes());
    }
    bytes
}

fn output_bytes(call: Call, output: &Output) -> Vec<u8> {
    if call == Call::Print {
        return with_length("stdout", &output.bytes);
    }
    let Answer { number, line, figure } = output.answer;
    let mut bytes = format!("refusal {number}\nline {line}\n").into_bytes();
    let figure_key = match call {
        Call::Walk | Call::Locations => Some("count"),
        _ if call.writes_text() => Some("figure"),
        _ => None,
    };
    if let Some(key) = figure_key {
        bytes.extend(format!("{key} {figure}\n").into_bytes());
    }
    if call.writes_text() {
        let written = if number == 0 { usize::try_from(figure).expect("within the lent bytes") } else { 0 };
        bytes.extend(with_length("text", &output.bytes[..written]));
    }
    let written = match call {
        Call::Run | Call::RunShared => {
            vec![("frames_x", &output.frames_x), ("frames_z", &output.frames_z), ("deltas", &output.deltas)]
        }
        Call::ByShot => vec![("rows", &output.rows)],
        Call::ByOutcome => vec![("deltas", &output.deltas)],
        Call::Fill => vec![("words", &output.words)],
        _ => Vec::new(),
    };
    for (key, words) in written {
        bytes.extend(format!("after_{key} {}\n", joined(words, 16)).into_bytes());
    }
    if !output.totals.is_empty() {
        bytes.extend(format!("after_totals {}\n", joined(&output.totals, 10)).into_bytes());
    }
    if call.is_shared() {
        bytes.extend(format!("after_marks {}\n", joined(&output.marks, 10)).into_bytes());
    }
    bytes
}

/// A key with a length, the bytes and LF.
fn with_length(key: &str, text: &[u8]) -> Vec<u8> {
    [format!("{key} {}\n", text.len()).as_bytes(), text, b"\n"].concat()
}

/// Words in hexadecimal or numbers in decimal, with commas; `-` for none.
#[must_use]
pub fn joined(words: &[u64], radix: u32) -> String {
    let entry = |word: &u64| if radix == 16 { format!("{word:016x}") } else { word.to_string() };
    let entries: Vec<String> = words.iter().map(entry).collect();
    if entries.is_empty() { "-".to_owned() } else { entries.join(",") }
}
