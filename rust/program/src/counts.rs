//! The sum of saved counts.

use crate::Failure;
use crate::arguments::{Arguments, Flag, NEW_FILE};
use crate::files::{self, Output};
use kundatrezo::SavedCounts;
use std::ffi::OsStr;
use std::io::Read;

const OUTPUT: Flag =
    Flag { name: "--output", value: NEW_FILE, text: "write the counts to this file; without it, to standard output" };

pub const FLAGS: &[Flag] = &[OUTPUT];

pub const DETAILS: &str = "\
Adds the counts of samples of one job, and prints them with their rates and intervals. All parts of a sample
are needed, each once: the sum is then what one call for the whole prints. Samples of the same job and sets with
other seeds are added as well. A file that is cut off, that is no text of counts, or that was drawn by another
rule ('draws=') than the first is refused. Counts that the Python package or the Rust crate saves are read, too;
'counted' is the line of the shots that a function of the caller's, such as a decoder, has counted there.";

pub fn merge(arguments: &Arguments) -> Result<(), Failure> {
    let mut sum: Option<SavedCounts> = None;
    for path in arguments.operands() {
        let fault = |error| Failure::Other(format!("{}: {error}", files::shown(path)));
        let saved = SavedCounts::read(&text(path)?).map_err(fault)?;
        sum = Some(match &sum {
            Some(sum) => sum.checked_add(&saved).map_err(fault)?,
            None => saved,
        });
    }
    let sum = sum.ok_or_else(|| Failure::Other("there is nothing to merge".into()))?;
    sum.check_complete().map_err(|error| Failure::Other(error.to_string()))?;
    let mut output = Output::create(arguments.value(OUTPUT.name))?;
    output.write(sum.text().as_bytes())?;
    output.finish()
}

/// Most bytes of a text of counts, of some million sets.
const MOST: u64 = 1 << 28;

/// The text of a file, as far as it may be one of counts: what begins otherwise, such as a device without an end, is not read further than that.
fn text(path: &OsStr) -> Result<String, Failure> {
    const START: &[u8] = b"ok=1 qubits=";
    let mut bytes = Vec::new();
    let mut file = files::open(path)?;
    let read = file.by_ref().take(START.len() as u64).read_to_end(&mut bytes);
    let all = read.and_then(|_| if bytes == START { file.take(MOST).read_to_end(&mut bytes) } else { Ok(0) });
    all.map_err(|error| files::fault(path, &error))?;
    Ok(String::from_utf8_lossy(&bytes).into_owned())
}
