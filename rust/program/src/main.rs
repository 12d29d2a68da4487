//! Kundatrezo's calls on files. `kundatrezo --help` says how.

mod arguments;
mod commands;
mod completions;
mod counts;
mod faults;
mod files;
mod load;
mod manual;
mod numbers;
mod ordered_output;
mod progress;
mod rates;
mod sample;
mod shares;
mod shots;
mod sizes;
mod spelling;
mod words;

use arguments::Arguments;
use commands::PROGRAM_OPTIONS;
use kundatrezo::{Number, Refusal};
use std::ffi::OsString;
use std::io::{self, Write};
use std::process::ExitCode;

/// Why a command did not do its work.
enum Failure {
    /// The call refused the job; the text says by what.
    Refused(String),
    /// Wrong arguments, or a file that can't be read or written.
    Other(String),
    /// Nobody reads the output any more.
    Unread,
}

impl Failure {
    /// The refusal of a job, with the text of its line and what to do about it: what the command knows of that, or what the line shows.
    fn refused(refusal: &Refusal, job: &[u8], hint: Option<String>) -> Self {
        let line = refusal.line_of(job).map(|line| format!(": {}", shortened(line))).unwrap_or_default();
        let need = match (refusal.number, refusal.bytes_needed) {
            (Number::ROOM, 1..) => format!("; the text needs {} bytes", refusal.bytes_needed),
            _ => String::new(),
        };
        let hint = hint.or_else(|| refusal.hint(job)).map(|text| format!("\nhint: {text}"));
        Self::Refused(format!("{refusal}{line}{need}{}", hint.unwrap_or_default()))
    }

    /// The refusal by 17 of the shot of a walk.
    fn refused_shot(hint: &str) -> Self {
        Self::by_cause(Number::WALK, 0, hint)
    }

    /// The refusal by 17 of a list of outcomes, which need not be that of a walk.
    fn refused_list(hint: &str) -> Self {
        Self::by_cause(Number::WALK, 1, hint)
    }

    /// A refusal by one of the causes that a number's words have.
    fn by_cause(number: Number, cause: usize, hint: &str) -> Self {
        let words = number.cause(cause);
        Self::Refused(format!("refused: {} ({words})\nhint: {hint}", number.get()))
    }
}

impl From<io::Error> for Failure {
    fn from(error: io::Error) -> Self {
        match error.kind() {
            io::ErrorKind::BrokenPipe => Self::Unread,
            _ => Self::Other(format!("standard output: {error}")),
        }
    }
}

fn main() -> ExitCode {
    let arguments: Vec<OsString> = std::env::args_os().skip(1).collect();
    match run_command(&arguments) {
        Ok(()) => ExitCode::SUCCESS,
        Err(Failure::Refused(text)) => {
            print_stderr(&text);
            ExitCode::from(1)
        }
        Err(Failure::Other(text)) => {
            print_stderr(&format!("kundatrezo: {text}"));
            ExitCode::from(2)
        }
        Err(Failure::Unread) => ExitCode::from(2),
    }
}

fn run_command(arguments: &[OsString]) -> Result<(), Failure> {
    let Some((first, rest)) = arguments.split_first() else {
        return Err(Failure::Other(format!("a command is missing\n\n{}", manual::help().trim_end())));
    };
    let name = files::shown(first);
    if let Some(option) = PROGRAM_OPTIONS.iter().find(|option| option.names().contains(&name.as_str())) {
        return (option.run)();
    }
    let command = commands::command(&name)?;
    match Arguments::read(command, rest) {
        Ok(Some(arguments)) => {
            arguments.names(command).check()?;
            (command.run)(&arguments)
        }
        Ok(None) => print(command.help()),
        Err(text) => Err(Failure::Other(format!("{text}; see 'kundatrezo {name} --help'"))),
    }
}

/// Write a line to standard error. If it can't be written, the status tells all the same.
fn print_stderr(line: &str) {
    _ = writeln!(io::stderr(), "{line}");
}

/// Write to standard output.
fn print(text: impl AsRef<[u8]>) -> Result<(), Failure> {
    let mut out = io::stdout().lock();
    out.write_all(text.as_ref())?;
    Ok(out.flush()?)
}

/// A line of a job as printable text, cut where it is long.
fn shortened(line: &[u8]) -> String {
    const MOST: usize = 100;
    let cut = if line.len() > MOST { ".." } else { "" };
    format!("{}{cut}", line[..line.len().min(MOST)].escape_ascii())
}
