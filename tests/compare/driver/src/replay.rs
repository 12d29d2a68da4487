//! The lists that the programs `replay_calls` and `replay_more` run: crates/replay/README.md says how they are written.

use crate::chosen::chosen;
use checker::calls::Answer;
use checker::cases::cases;
use checker::read::check;
use generator::inputs::usual;
use generator::random::Random;
use reference::vectors::{CALLS, Call, Input, Output, fresh_bytes};
use std::io::Write;

/// How many random and damaged jobs are checked, and how long they may be.
const RANDOM: usize = 100;
const MOST_BYTES: usize = 600;

/// From how many times on a line that is repeated gets a record of its own.
const REPEATED: usize = 4;

/// The calls of the program `replay_more`.
pub const MORE: [Call; 5] = [Call::FaultTable, Call::RunShared, Call::SettleShared, Call::Fill, Call::Make];

/// Write the list of `replay_calls` to standard output.
pub fn write() -> bool {
    let is_other = |call: &Call| call.is_on_job() && !matches!(call, Call::Check | Call::Print) && !MORE.contains(call);
    let others = CALLS.into_iter().filter(is_other).flat_map(chosen_cases);
    written(checks().into_iter().chain(others))
}

/// Write the list of `replay_more`.
pub fn write_more() -> bool {
    written(MORE.into_iter().flat_map(chosen_cases))
}

fn written(cases: impl Iterator<Item = Vec<u8>>) -> bool {
    std::io::stdout().write_all(&cases.flatten().collect::<Vec<u8>>()).is_ok()
}

fn chosen_cases(call: Call) -> Vec<Vec<u8>> {
    chosen(call, |input, output| case(call, input, output))
}

/// Cases of `check`: the jobs of every limit, then random and damaged ones, answered by document 01's checks by hand.
fn checks() -> Vec<Vec<u8>> {
    let random = (1..).map(|seed| usual(&mut Random::new(seed), Call::Check).job);
    let random = random.filter(|job| job.len() <= MOST_BYTES).take(RANDOM);
    let jobs = cases().into_iter().map(|case| case.job).chain(random);
    let checked = |job: Vec<u8>| {
        let output = Output { answer: Answer::of(check(&job)), ..Output::default() };
        case(Call::Check, &Input { job, ..Input::default() }, &output)
    };
    jobs.map(checked).collect()
}

/// A case: its bytes and words, and the record of its call.
fn case(call: Call, input: &Input, output: &Output) -> Vec<u8> {
    let mut case = Vec::new();
    add(&mut case, &input.job);
    let draws = [&input.noiseless, &input.main, &input.second];
    let after = [&output.frames_x, &output.frames_z, &output.deltas, &output.totals];
    let share = [&input.marks, &input.shares, &output.marks];
    let words: Vec<&Vec<u64>> = match call {
        Call::Walk => vec![&input.set],
        Call::FaultTable => vec![&input.groups],
        Call::Fill => vec![&output.words],
        Call::Settle => draws.to_vec(),
        Call::Run => draws.into_iter().chain(after).collect(),
        Call::SettleShared => share.into_iter().chain(draws).collect(),
        Call::RunShared => share.into_iter().chain(draws).chain(after).collect(),
        _ => Vec::new(),
    };
    add_text(&mut case, output);
    let lines = words.iter().copied().flatten().map(|word| format!("{word:016x}\n"));
    add(&mut case, lines.collect::<String>().as_bytes());
    let Answer { number, line, figure } = output.answer;
    let bytes = input.job.len();
    let lengths = words.iter().map(|list| list.len().to_string()).collect::<Vec<_>>().join(",");
    let rest = match call {
        Call::Locations => format!(" count={figure}"),
        Call::Walk => format!(" count={figure} shot={} bytes={bytes}", input.shot),
        Call::Annotate => format!(" figure={figure} p={:016x} bytes={bytes}", input.p),
        Call::FaultTable => format!(" figure={figure} bytes={bytes},{}", input.out_len),
        Call::Fill => format!(" figure={figure} seed={:016x}", input.seed),
        Call::Make => {
            let Input { qubits, outcomes, shots, lines, seed, .. } = input;
            format!(" figure={figure} seed={seed:016x} asked={qubits},{outcomes},{shots},{lines}")
        }
        Call::Settle => {
            format!(" figure={figure} base={:016x} bytes={bytes},{} words={lengths}", input.base, input.out_len)
        }
        Call::Run => format!(" figure={figure} base={:016x} bytes={bytes} words={lengths}", input.base),
        Call::SettleShared => {
            let Input { base, caller, out_len, .. } = input;
            format!(" figure={figure} base={base:016x} bytes={bytes},{out_len} words={lengths} caller={caller}")
        }
        Call::RunShared => {
            let Input { base, caller, .. } = input;
            format!(" figure={figure} base={base:016x} bytes={bytes} words={lengths} caller={caller}")
        }
        _ => String::new(),
    };
    case.extend_from_slice(format!("{} number={number} line={line}{rest}\n", call.name()).as_bytes());
    case
}

/// Records that make up some bytes: a line that is repeated often is written once.
fn add(list: &mut Vec<u8>, bytes: &[u8]) {
    let lines: Vec<&[u8]> = bytes.split_inclusive(|&byte| byte == b'\n').collect();
    let mut plain = Vec::new();
    for run in lines.chunk_by(|one, next| one == next) {
        if run.len() < REPEATED {
            plain.extend_from_slice(&run.concat());
        } else {
            record(list, &std::mem::take(&mut plain), 1);
            record(list, run[0], run.len());
        }
    }
    record(list, &plain, 1);
}

/// Every lent byte after a call: the text that it wrote, and behind it what lent bytes hold before a call in the program.
fn add_text(list: &mut Vec<u8>, output: &Output) {
    let written = if output.answer.number == 0 { output.answer.figure } else { 0 };
    let written = usize::try_from(written).expect("a length").min(output.bytes.len());
    assert_eq!(output.bytes[written..], fresh_bytes(output.bytes.len())[written..]);
    add(list, &output.bytes[..written]);
    record(list, b"A", output.bytes.len() - written);
}

fn record(list: &mut Vec<u8>, bytes: &[u8], times: usize) {
    if !bytes.is_empty() && times > 0 {
        list.extend_from_slice(format!("add bytes={} times={times}\n", bytes.len()).as_bytes());
        list.extend_from_slice(bytes);
    }
}
