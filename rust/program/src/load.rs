//! A reproducible load: jobs and words from a seed.

use crate::arguments::{Arguments, Flag, NEW_FILE};
use crate::commands::{room, write_out};
use crate::words::List;
use crate::{Failure, files};
use kundatrezo::{JobParameters, MAX_BYTES, MAX_OUTCOMES, MAX_QUBITS, MAX_SHOTS, Number};

const QUBITS: Flag = Flag { name: "--qubits", value: "N", text: "the qubits of the header" };
const OUTCOMES: Flag = Flag { name: "--outcomes", value: "N", text: "the outcomes of the header" };
const SHOTS: Flag = Flag { name: "--shots", value: "N", text: "the shots of the header" };
const LINES: Flag =
    Flag { name: "--lines", value: "N", text: "the lines after the header, without the elements of noise" };
const SEED: Flag = Flag { name: "--seed", value: "N", text: "the seed, any number but 0" };

/// The parameters of a job, in the order of the call.
const PARAMETERS: [&Flag; 5] = [&QUBITS, &OUTCOMES, &SHOTS, &LINES, &SEED];
pub const JOB_FLAGS: &[Flag] = &[QUBITS, OUTCOMES, SHOTS, LINES, SEED];

pub const OUTPUT_WORDS: Flag =
    Flag { name: "--output", value: NEW_FILE, text: "write the words to this file; without it, to standard output" };

pub const JOB: &str = "\
Writes a job with this header and as many lines behind it, whose kinds and values a seed chooses, by the rule of
docs/MAKING.md. The same numbers give the same job on every machine, and every made job passes its tests. All
five are wanted. The seed is taken as it is, and not mixed as that of a run.";

pub const WORDS: &str = "\
Writes words from a number, eight bytes each, the lowest first. With --state the number is the state of the
xorshift itself, as for kundatrezo_fill, for 'fill' of the Rust and Python packages, and for 'make'. With
--run-seed it is mixed first: these are the words that a run makes by --seed and the same --skip. There is no
--seed, which would mean either. --words is wanted, and --state or --run-seed.";

/// The command `make`.
pub fn write_job(arguments: &Arguments) -> Result<(), Failure> {
    let mut numbers = [0; PARAMETERS.len()];
    for (number, flag) in numbers.iter_mut().zip(PARAMETERS) {
        *number = arguments.number(flag.name)?.ok_or_else(|| arguments.missing(&PARAMETERS))?;
    }
    let [qubits, outcomes, shots, lines, seed] = numbers;
    let mut out = room(arguments)?;
    let parameters = JobParameters { qubits, outcomes, shots, lines, seed };
    let bytes = kundatrezo::make(parameters, &mut out).map_err(|refusal| {
        let limits =
            format!("a header has 1 to {MAX_QUBITS} qubits, 0 to {MAX_OUTCOMES} outcomes, 1 to {MAX_SHOTS} shots");
        let shorter = format!(
            "leave out --room, if it is given; a text of more than {MAX_BYTES} bytes wants fewer {}",
            LINES.name
        );
        let hint = match refusal.number {
            Number::HEADER => Some(limits),
            Number::ROOM => Some(shorter),
            _ => None,
        };
        Failure::refused(&refusal, b"", hint)
    })?;
    write_out(arguments, &out[..bytes])
}

/// The command `fill`.
pub fn write_words(arguments: &Arguments) -> Result<(), Failure> {
    let list = List::filled(arguments)?;
    write_out(arguments, &files::bytes_of(&list.words))
}
