//! The commands, a call of the engine each.

use crate::arguments::{Arguments, Command, FILE, Flag, Group, NEW_FILE, Operand, ProgramOption, did_you_mean};
use crate::completions::{self, SHELLS};
use crate::files::{Names, Outputs, shown};
use crate::spelling::nearest;
use crate::words::{self, CallInputs};
use crate::{
    Failure, counts, faults, files, load, manual, numbers, print, print_stderr, rates, sample, shares, shots, sizes,
};
use kundatrezo::{Examination, Frames, MAX_BYTES, Number, Refusal, Shots, bit};
use std::ffi::{OsStr, OsString};
use std::fmt::Write;

const X: Flag = Flag { name: "--x", value: NEW_FILE, text: "write the X rows of the frames to this file" };
const Z: Flag = Flag { name: "--z", value: NEW_FILE, text: "write the Z rows of the frames to this file" };
const DELTAS: Flag = Flag {
    name: "--deltas",
    value: NEW_FILE,
    text: "write the rows of the deltas to this file, and do not print them",
};
const SHOTS: Flag = Flag {
    name: "--shots",
    value: NEW_FILE,
    text: "write the deltas by shot as lines of digits, and do not print them",
};
const PACKED: Flag =
    Flag { name: "--packed", value: NEW_FILE, text: "write the deltas by shot as packed bytes, and do not print them" };
const TOTALS: Flag = Flag {
    name: "--totals",
    value: NEW_FILE,
    text: "write the outcomes' totals and rates to this file, and do not print the deltas",
};
pub const OUTPUT: Flag =
    Flag { name: "--output", value: NEW_FILE, text: "write the text to this file; without it, to standard output" };
const ROOM: Flag =
    Flag { name: "--room", value: "N", text: "lend N bytes for the text; without it 1048576, the most it may have" };
const SHOT: Flag = Flag { name: "--shot", value: "N", text: "the shot, from 0" };
const SET: Flag = Flag { name: "--set", value: "L", text: "the outcomes, with commas between; - for none" };
const PARTS: Flag = Flag { name: "--parts", value: "N", text: "the number of parts, at most the job's shots" };
const PREFIX: Flag =
    Flag { name: "--prefix", value: "NAME", text: "write the jobs to the files NAME0.job, NAME1.job, .." };
const P: Flag = Flag { name: "--p", value: "P", text: "the probability in decimal" };
const P_BITS: Flag =
    Flag { name: "--p-bits", value: "H", text: "the probability by the 16 hexadecimal digits of its binary64" };

const ROWS: &str = "\
A row has a bit for each shot: shot s is bit s mod 64 of word s / 64. A file has the rows, each of
ceil(shots / 64) words, in their order.";

const BY_SHOT: &str = "\
By shot, a line of text has a digit for each outcome of the header, outcome 0 first; packed, a shot has
ceil(outcomes / 8) bytes, with eight outcomes to a byte, the lowest first. Shot 0 comes first.";

/// Every command.
pub const COMMANDS: &[Command] = &[
    Command {
        name: "check",
        group: Group::Jobs,
        operand: Operand::Job,
        summary: "whether a job passes its tests, and its numbers",
        details: &["\
Makes the tests of a job. Prints 'ok=1', the qubits, outcomes and shots of its header, 'recorded=' with
the number of outcomes that it records, and 'lines=' with that of its lines."],
        options: &[],
        run: check,
    },
    Command {
        name: "run",
        group: Group::Sample,
        operand: Operand::Job,
        summary: "the frames and the outcome deltas of all shots, and how often each outcome is flipped",
        details: &[
            "\
Runs a job in all of its shots. Prints 'ok=1' and the qubits, outcomes and shots of its header, then 'id='
and 'delta=' for each recorded outcome, with a digit for each shot, shot 0 first.",
            words::SERIES,
            ROWS,
            BY_SHOT,
            rates::DETAILS,
            words::DETAILS,
            shares::DETAILS,
        ],
        options: &[words::FLAGS, shares::FLAGS, ROW_FILES],
        run,
    },
    Command {
        name: "settle",
        group: Group::Jobs,
        operand: Operand::Job,
        summary: "the job with its noise replaced by the injections that it draws",
        details: &[
            "Writes the job with each noise line replaced by the injections that a run with the same words makes.",
            words::DETAILS,
            shares::DETAILS,
        ],
        options: &[words::FLAGS, shares::FLAGS, &[OUTPUT, ROOM]],
        run: settle,
    },
    Command {
        name: "walk",
        group: Group::Faults,
        operand: Operand::Job,
        summary: "the count of faults that flip the parity of a set of outcomes",
        details: &["\
Carries the observable of a set of recorded outcomes back through a job without noise (settle another job
first). Prints 'ok=1 count=' and the number of the shot's faults that flip the set's parity. --shot and
--set are wanted."],
        options: &[&[SHOT, SET]],
        run: walk,
    },
    Command {
        name: "annotate",
        group: Group::Jobs,
        operand: Operand::Job,
        summary: "the job with depolarizing noise before each measurement and after each gate",
        details: &["\
Writes the job with a line of depolarizing noise before each measurement and after each gate. Either --p
or --p-bits is wanted."],
        options: &[&[P, P_BITS, OUTPUT, ROOM]],
        run: annotate,
    },
    Command {
        name: "locations",
        group: Group::Faults,
        operand: Operand::Job,
        summary: "the number of fault locations",
        details: &["\
Prints 'ok=1 locations=' and twice the qubits of the lines that annotation gives noise, summed over the
job. A qubit that control and target share counts for both."],
        options: &[],
        run: locations,
    },
    Command {
        name: "correlation",
        group: Group::Jobs,
        operand: Operand::Job,
        summary: "whether correlated noise lines agree in size",
        details: &[
            "Prints 'ok=1' if the noise lines of each correlation have one size, as their field 'size=' says it.",
        ],
        options: &[],
        run: correlation,
    },
    Command {
        name: "faults",
        group: Group::Faults,
        operand: Operand::Job,
        summary: "the table of single faults: which groups of outcomes each flips",
        details: &[faults::TABLE],
        options: &[faults::TABLE_FLAGS, &[OUTPUT]],
        run: faults::table,
    },
    Command {
        name: "dem",
        group: Group::Faults,
        operand: Operand::Job,
        summary: "the job's noise as a detector error model, for a decoder",
        details: &[faults::MODEL, faults::APPROXIMATION],
        options: &[faults::MODEL_FLAGS, &[OUTPUT]],
        run: faults::model,
    },
    Command {
        name: "sample",
        group: Group::Sample,
        operand: Operand::Job,
        summary: "the rates of any number of shots, with their intervals, or the shots by row",
        details: sample::DETAILS,
        options: &[sample::FLAGS],
        run: sample::sample,
    },
    Command {
        name: "merge",
        group: Group::Sample,
        operand: Operand::Values(FILE),
        summary: "the sum of the counts of several samples",
        details: &[counts::DETAILS],
        options: &[counts::FLAGS],
        run: counts::merge,
    },
    Command {
        name: "share",
        group: Group::Shares,
        operand: Operand::None,
        summary: "the account of a main list that several callers have shares of",
        details: &[shares::NEW],
        options: &[words::MAIN_FLAGS, shares::NEW_FLAGS, &[OUTPUT]],
        run: shares::print_account,
    },
    Command {
        name: "split",
        group: Group::Shares,
        operand: Operand::Job,
        summary: "a job for each of several benches, with a part of the shots",
        details: &["\
Shares the shots of a job without noise (settle another job first) among parts of the same size, and writes
a job for each: all lines but the injections and flips of the other parts' shots. Prints 'job=' with its
file and 'first=' and 'last=' with its shots. Run each of them, and 'add' the files of rows that the runs
write: the sum is what a run of the whole job writes. In its own shots each run has the whole job's bits.
--parts and --prefix are wanted."],
        options: &[&[PARTS, PREFIX]],
        run: split,
    },
    Command {
        name: "add",
        group: Group::Shares,
        operand: Operand::Values(FILE),
        summary: "the sum of the rows of several runs",
        details: &["\
Adds files of rows, X, Z or deltas, by exclusive or. Where the jobs are without noise and have the same
header and the same lines but for injections and flips, the sum is what a run of a job writes that holds
the injections and flips of all, each among the same lines, and twice where two hold it there."],
        options: &[&[load::OUTPUT_WORDS]],
        run: add,
    },
    Command {
        name: "make",
        group: Group::Make,
        operand: Operand::None,
        summary: "a job from a seed, the same on every machine",
        details: &[load::JOB],
        options: &[load::JOB_FLAGS, &[OUTPUT, ROOM]],
        run: load::write_job,
    },
    Command {
        name: "fill",
        group: Group::Make,
        operand: Operand::None,
        summary: "words from a state or a seed, the same on every machine",
        details: &[load::WORDS],
        options: &[words::FILL_FLAGS, &[load::OUTPUT_WORDS]],
        run: load::write_words,
    },
    Command {
        name: "sizes",
        group: Group::Jobs,
        operand: Operand::Job,
        summary: "the job with the size of the distribution on each noise line",
        details: &[sizes::DETAILS],
        options: &[&[OUTPUT]],
        run: |arguments| write_out(arguments, &sizes::added(&files::job(arguments.operand())?)?),
    },
    Command {
        name: "bits",
        group: Group::Jobs,
        operand: Operand::Values("NUMBER"),
        summary: "the bits of probabilities or weights, as jobs have them, from decimal",
        details: &[numbers::BITS],
        options: &[],
        run: numbers::print_bits,
    },
    Command {
        name: "decimal",
        group: Group::Jobs,
        operand: Operand::Values("BITS"),
        summary: "probabilities or weights in decimal, from their bits",
        details: &[numbers::DECIMAL],
        options: &[],
        run: numbers::print_decimal,
    },
    Command {
        name: "help",
        group: Group::Program,
        operand: Operand::Command,
        summary: "what the program or one of its commands does",
        details: &["Prints the help of a command, as its --help does, or of the whole program."],
        options: &[],
        run: help,
    },
    Command {
        name: "completions",
        group: Group::Program,
        operand: Operand::Word("SHELL", SHELLS),
        summary: "a script that lets a shell complete commands and options",
        details: &[completions::DETAILS],
        options: &[],
        run: completions::print_script,
    },
    Command {
        name: "man",
        group: Group::Program,
        operand: Operand::None,
        summary: "the manual page of this program",
        details: &["Prints the manual page, for man: 'kundatrezo man >kundatrezo.1'."],
        options: &[],
        run: |_| print(manual::page()),
    },
];

/// The options that take the place of a command.
pub const PROGRAM_OPTIONS: &[ProgramOption] = &[
    ProgramOption {
        short: "-h",
        long: "--help",
        text: "print the help of the program; after a command, that of the command",
        run: || print(manual::help()),
    },
    ProgramOption {
        short: "-V",
        long: "--version",
        text: "print the version",
        run: || print(concat!("kundatrezo ", env!("CARGO_PKG_VERSION"), "\n")),
    },
];

/// The command of a name.
pub fn command(name: &str) -> Result<&'static Command, Failure> {
    COMMANDS.iter().find(|command| command.name == name).ok_or_else(|| {
        let names = COMMANDS.iter().map(|command| command.name);
        let options = PROGRAM_OPTIONS.iter().flat_map(ProgramOption::names);
        let hint = nearest(name, names.chain(options)).map(|known| format!(" ({})", did_you_mean(known)));
        Failure::Other(format!(
            "there is no command '{name}'{}; 'kundatrezo --help' names those that there are",
            hint.unwrap_or_default()
        ))
    })
}

fn help(arguments: &Arguments) -> Result<(), Failure> {
    match arguments.operands().first() {
        Some(name) => print(command(&shown(name))?.help()),
        None => print(manual::help()),
    }
}

fn check(arguments: &Arguments) -> Result<(), Failure> {
    let (_, examined) = examined(arguments)?;
    print(format!("{} recorded={} lines={}\n", numbers_of(examined), examined.recorded, examined.lines))
}

fn run(arguments: &Arguments) -> Result<(), Failure> {
    let is_number = |path: &OsStr| path.as_encoded_bytes().iter().all(u8::is_ascii_digit);
    if arguments.value(SHOTS.name).is_some_and(is_number) {
        return Err(Failure::Other(format!(
            "{0} of 'run' names a file (./5 one that is called 5); the number of shots is the header's, and \
             'kundatrezo sample {0} N' runs any number",
            SHOTS.name
        )));
    }
    let (job, examined) = examined(arguments)?;
    let mut outputs = Outputs::create(ROW_FILES.iter().filter_map(|flag| arguments.value(flag.name)))?;
    let mut inputs = CallInputs::read(arguments, &job, examined)?;
    let mut frames = Frames::new();
    inputs.call(|noiseless, draws| frames.run(&job, noiseless, draws))?;
    let by_shot = Shots::from_frames(&frames);
    for flag in ROW_FILES {
        if let Some(path) = arguments.value(flag.name) {
            outputs.write(path, &row_file(flag, &frames, &by_shot))?;
        }
    }
    let written = [DELTAS, SHOTS, PACKED, TOTALS].iter().any(|flag| arguments.value(flag.name).is_some());
    let printed = if written { 0 } else { examined.recorded };
    // what can't be printed leaves no file, as the status says
    print(session(&frames, printed) + &inputs.report()?)?;
    outputs.finish()
}

/// The files that a run writes.
const ROW_FILES: &[Flag] = &[X, Z, DELTAS, SHOTS, PACKED, TOTALS];

/// The bytes of such a file.
fn row_file(flag: &Flag, frames: &Frames, by_shot: &Shots) -> Vec<u8> {
    match flag.name {
        name if name == X.name => files::bytes_of(frames.x()),
        name if name == Z.name => files::bytes_of(frames.z()),
        name if name == DELTAS.name => files::bytes_of(frames.deltas()),
        name if name == SHOTS.name => shots::text(by_shot),
        name if name == PACKED.name => shots::packed(by_shot),
        _ => rates::text(frames, frames.job().recorded).into_bytes(),
    }
}

fn settle(arguments: &Arguments) -> Result<(), Failure> {
    let (job, examined) = examined(arguments)?;
    let mut outputs = Outputs::create(arguments.value(OUTPUT.name))?;
    let mut inputs = CallInputs::read(arguments, &job, examined)?;
    let mut out = match arguments.value(ROOM.name) {
        Some(_) => room(arguments)?,
        None => Vec::new(),
    };
    let bytes = inputs.call(|noiseless, draws| match arguments.value(ROOM.name) {
        Some(_) => kundatrezo::settle(&job, noiseless, draws, &mut out),
        None => kundatrezo::settle_into(&job, noiseless, draws, &mut out),
    })?;
    match arguments.value(OUTPUT.name) {
        Some(path) => outputs.write(path, &out[..bytes])?,
        None => print(&out[..bytes])?,
    }
    outputs.finish()
}

fn walk(arguments: &Arguments) -> Result<(), Failure> {
    let shot = arguments.number(SHOT.name)?;
    let set = arguments.parsed(SET.name, "numbers with commas between, or -", outcomes)?;
    let (Some(shot), Some(set)) = (shot, set) else {
        return Err(arguments.missing(&[&SHOT, &SET]));
    };
    let (job, examined) = examined(arguments)?;
    let count = kundatrezo::walk(&job, shot, &set).map_err(|refusal| match refusal.number {
        Number::WALK if shot >= examined.shots as u64 => Failure::refused_shot(&examined.shot_hint()),
        Number::WALK => Failure::refused_list(&examined.outcomes_hint(SET.name)),
        _ => Failure::refused(&refusal, &job, None),
    })?;
    print(format!("ok=1 count={count}\n"))
}

fn annotate(arguments: &Arguments) -> Result<(), Failure> {
    let decimal = arguments.parsed(P.name, "a number", numbers::decimal)?;
    let bits = arguments.parsed(P_BITS.name, "16 hexadecimal digits", numbers::binary64)?;
    let ((Some(p), None) | (None, Some(p))) = (decimal, bits) else {
        return Err(Failure::Other(format!("either {} or {} is wanted", P.name, P_BITS.name)));
    };
    let job = files::job(arguments.operand())?;
    let mut out = room(arguments)?;
    let bytes = kundatrezo::annotate(&job, p, &mut out).map_err(|refusal| {
        let own = refusal.number == Number::PROBABILITY && refusal.line == 0;
        let hint = own.then(|| format!("the probability of {} or {} is {p:?}", P.name, P_BITS.name));
        Failure::refused(&refusal, &job, hint.or_else(|| room_hint(&refusal)))
    })?;
    write_out(arguments, &out[..bytes])?;
    if p < 0.0 {
        print_stderr("note: p is below zero: no fault will fall");
    }
    Ok(())
}

fn locations(arguments: &Arguments) -> Result<(), Failure> {
    let job = files::job(arguments.operand())?;
    let count = kundatrezo::locations(&job).map_err(refused(&job))?;
    print(format!("ok=1 locations={count}\n"))
}

fn correlation(arguments: &Arguments) -> Result<(), Failure> {
    let job = files::job(arguments.operand())?;
    kundatrezo::correlation(&job).map_err(refused(&job))?;
    print("ok=1\n")
}

fn split(arguments: &Arguments) -> Result<(), Failure> {
    let parts = arguments.number(PARTS.name)?;
    let (Some(parts), Some(prefix)) = (parts, arguments.value(PREFIX.name)) else {
        return Err(arguments.missing(&[&PARTS, &PREFIX]));
    };
    let (job, Examination { shots, .. }) = examined(arguments)?;
    let parts = usize::try_from(parts).ok().filter(|parts| (1..=shots).contains(parts)).ok_or_else(|| {
        Failure::Other(format!("the value of {} is to be from 1 to the job's shots, {shots}", PARTS.name))
    })?;
    let parts = kundatrezo::split(&job, parts).map_err(|refusal| {
        let noisy = refusal.number == Number::NOISE;
        let hint = noisy.then(|| "settle the job first ('kundatrezo settle --help'), and split the settled job".into());
        Failure::refused(&refusal, &job, hint)
    })?;
    let path = |place: usize| {
        let mut path = prefix.to_owned();
        path.push(format!("{place}.job"));
        path
    };
    let paths: Vec<OsString> = (0..parts.len()).map(path).collect();
    Names { inputs: vec![arguments.operand().to_owned()], outputs: paths.clone() }.check()?;
    let mut outputs = Outputs::default();
    let mut lines = String::new();
    for (path, part) in paths.iter().zip(parts) {
        outputs.write(path, &part.job)?;
        let (first, last) = (part.shots.start, part.shots.end - 1);
        writeln!(lines, "job={} first={first} last={last}", shown(path)).expect("a string takes all");
    }
    print(lines)?;
    outputs.finish()
}

fn add(arguments: &Arguments) -> Result<(), Failure> {
    let mut sum: Option<Vec<u64>> = None;
    for path in arguments.operands() {
        let rows = files::rows(path)?;
        let sum = sum.get_or_insert_with(|| vec![0; rows.len()]);
        if rows.len() != sum.len() {
            let text = format!("{}: {} words, and the first file has {}", shown(path), rows.len(), sum.len());
            return Err(Failure::Other(text));
        }
        sum.iter_mut().zip(rows).for_each(|(word, other)| *word ^= other);
    }
    write_out(arguments, &files::bytes_of(&sum.unwrap_or_default()))
}

// ---- what commands share

/// The job that a command is called on, and its numbers.
pub fn examined(arguments: &Arguments) -> Result<(Vec<u8>, Examination), Failure> {
    let job = files::job(arguments.operand())?;
    let examined = kundatrezo::examine(&job).map_err(refused(&job))?;
    Ok((job, examined))
}

fn refused(job: &[u8]) -> impl FnOnce(Refusal) -> Failure {
    move |refusal| Failure::refused(&refusal, job, None)
}

/// What to do about a text that does not fit.
pub fn room_hint(refusal: &Refusal) -> Option<String> {
    let hint =
        format!("leave out {}, if it is given; a text of more than {MAX_BYTES} bytes wants a smaller job", ROOM.name);
    (refusal.number == Number::ROOM).then_some(hint)
}

/// The header's numbers, as a session prints them: without the edition.
fn numbers_of(job: Examination) -> String {
    format!("ok=1 qubits={} outcomes={} shots={}", job.qubits, job.outcomes, job.shots)
}

/// The printed session: the header's numbers and the deltas of the first outcomes.
fn session(frames: &Frames, outcomes: usize) -> String {
    let mut text = numbers_of(frames.job());
    for id in 0..outcomes {
        write!(text, "\nid={id} delta=").expect("a string takes all");
        let row = frames.delta_row(id);
        text.extend((0..frames.job().shots).map(|shot| if bit(row, shot) { '1' } else { '0' }));
    }
    text.push('\n');
    text
}

/// The bytes that there are for a text.
pub fn room(arguments: &Arguments) -> Result<Vec<u8>, Failure> {
    // More than the longest text makes no difference.
    let most = MAX_BYTES as u64;
    let bytes = arguments.number(ROOM.name)?.map_or(most, |bytes| bytes.min(most));
    Ok(vec![0; usize::try_from(bytes).expect("no more than the longest text")])
}

/// Write to the file that `--output` names, or to standard output.
pub fn write_out(arguments: &Arguments, bytes: &[u8]) -> Result<(), Failure> {
    match arguments.value(OUTPUT.name) {
        Some(path) => files::write(path, bytes),
        None => print(bytes),
    }
}

/// Outcomes with commas between, sorted: the order in which they are named plays no part. The call judges them.
pub fn outcomes(text: &str) -> Option<Vec<u64>> {
    let mut outcomes = list(text)?;
    outcomes.sort_unstable();
    Some(outcomes)
}

/// Numbers with commas between, in any order; the call judges them.
pub fn list(text: &str) -> Option<Vec<u64>> {
    if text == "-" { Some(Vec::new()) } else { text.split(',').map(|number| number.parse().ok()).collect() }
}
