//! Commands, their options, and the arguments of a call.

use crate::Failure;
use crate::files::{Names, shown};
use crate::shares::lock_name;
use crate::spelling::nearest;
use std::ffi::{OsStr, OsString};
use std::os::unix::ffi::OsStrExt;

/// A command of the program.
pub struct Command {
    pub name: &'static str,
    pub group: Group,
    pub operand: Operand,
    /// One line, for the help of the whole program.
    pub summary: &'static str,
    /// What it does, in paragraphs.
    pub details: &'static [&'static str],
    /// Its options, in groups.
    pub options: &'static [&'static [Flag]],
    pub run: fn(&Arguments) -> Result<(), Failure>,
}

/// A group of commands, under a heading of its own in the help and the manual page.
#[derive(Clone, Copy, PartialEq, Eq)]
pub enum Group {
    Jobs,
    Sample,
    Faults,
    Shares,
    Make,
    Program,
}

impl Group {
    /// Every group, in the order of the help.
    pub const ALL: [Self; 6] = [Self::Jobs, Self::Sample, Self::Faults, Self::Shares, Self::Make, Self::Program];

    pub fn title(self) -> &'static str {
        match self {
            Self::Jobs => "Write and check jobs",
            Self::Sample => "Sample",
            Self::Faults => "Faults and decoders",
            Self::Shares => "Shares of shots and words",
            Self::Make => "Make jobs and words from seeds",
            Self::Program => "This program",
        }
    }
}

/// An option of the program itself, which takes the place of a command.
pub struct ProgramOption {
    pub short: &'static str,
    pub long: &'static str,
    pub text: &'static str,
    pub run: fn() -> Result<(), Failure>,
}

impl ProgramOption {
    pub fn names(&self) -> [&'static str; 2] {
        [self.short, self.long]
    }
}

/// What a command is called on.
#[derive(Clone, Copy, PartialEq, Eq)]
pub enum Operand {
    /// A job: a file, or - for standard input.
    Job,
    /// One value or more; files where they are called so.
    Values(&'static str),
    /// One of these words.
    Word(&'static str, &'static [&'static str]),
    /// The name of a command, or nothing.
    Command,
    None,
}

impl Operand {
    /// How it is written in the help.
    pub fn usage(self) -> String {
        match self {
            Self::Job => " JOB".into(),
            Self::Values(name) => format!(" {name}.."),
            Self::Word(name, _) => format!(" {name}"),
            Self::Command => " [COMMAND]".into(),
            Self::None => String::new(),
        }
    }
}

/// An option that takes a value.
pub struct Flag {
    pub name: &'static str,
    /// What the value is, for the help. One that ends in `..` may be given several times, each with a value of its own.
    pub value: &'static str,
    pub text: &'static str,
}

impl Flag {
    pub fn repeats(&self) -> bool {
        self.value.ends_with("..")
    }

    pub fn is_file(&self) -> bool {
        [FILE, NEW_FILE, ACCOUNT_FILE].contains(&self.value)
    }
}

/// The value of an option, or an operand, that names a file which is read.
pub const FILE: &str = "FILE";
/// The value of an option that names a file which is written.
pub const NEW_FILE: &str = "OUTPUT";
/// The value of an option that names the account of a shared list, which is read and written.
pub const ACCOUNT_FILE: &str = "ACCOUNT";

/// Options that a command refuses because their name would mean two things, with what to say: by the command's name and theirs.
const AMBIGUOUS: [(&str, &str, &str); 1] = [(
    "fill",
    "--seed",
    "'fill' has no --seed, which would mean two things: --state N takes N as the state itself, as kundatrezo_fill, \
     'fill' of the Rust and Python packages and 'make' take their seed; --run-seed N mixes N first, as run, settle and \
     sample do with theirs",
)];

impl Command {
    pub fn flags(&self) -> impl Iterator<Item = &'static Flag> {
        self.options.iter().flat_map(|group| group.iter())
    }

    /// The names of its options, and that of its help.
    pub fn option_names(&self) -> impl Iterator<Item = &'static str> {
        self.flags().map(|flag| flag.name).chain(["--help"])
    }

    pub fn usage(&self) -> String {
        let options = if self.options.is_empty() { "" } else { " [OPTION VALUE].." };
        format!("kundatrezo {}{}{options}", self.name, self.operand.usage())
    }

    /// The help of this command.
    pub fn help(&self) -> String {
        let usage = |flag: &Flag| format!("{} {}", flag.name, flag.value);
        let width = self.flags().map(|flag| usage(flag).len()).max().unwrap_or_default().max(18);
        let row = |flag: &Flag| format!("    {:<width$} {}\n", usage(flag), flag.text);
        let rows: String = self.flags().map(row).collect();
        let gap = if rows.is_empty() { "" } else { "\n" };
        format!("usage: {}\n\n{}\n{gap}{rows}", self.usage(), self.details.join("\n\n"))
    }
}

/// The arguments of a command.
pub struct Arguments {
    operands: Vec<OsString>,
    values: Vec<(&'static str, OsString)>,
}

impl Arguments {
    /// The arguments after a command's name, or none where they ask for help. What follows `--` is no option.
    pub fn read(command: &Command, given: &[OsString]) -> Result<Option<Self>, String> {
        let mut read = Self { operands: Vec::new(), values: Vec::new() };
        let mut given = given.iter();
        while let Some(argument) = given.next() {
            let bytes = argument.as_bytes();
            if bytes == b"--" {
                read.operands.extend(given.by_ref().cloned());
            } else if bytes == b"--help" || bytes == b"-h" {
                return Ok(None);
            } else if bytes == b"-" || !bytes.starts_with(b"-") {
                read.operands.push(argument.clone());
            } else {
                read.option(command, argument, &mut given)?;
            }
        }
        read.count(command)?;
        Ok(Some(read))
    }

    /// An option with its value, which stands after `=` or is the next argument.
    fn option<'a>(
        &mut self,
        command: &Command,
        argument: &OsStr,
        rest: &mut impl Iterator<Item = &'a OsString>,
    ) -> Result<(), String> {
        let mut parts = argument.as_bytes().splitn(2, |byte| *byte == b'=');
        let name = OsStr::from_bytes(parts.next().unwrap_or_default());
        let ambiguous = AMBIGUOUS.iter().find(|(own, flag, _)| *own == command.name && *flag == name);
        if let Some((_, _, text)) = ambiguous {
            return Err((*text).into());
        }
        let flag = command.flags().find(|flag| flag.name == name).ok_or_else(|| {
            let known = nearest(&shown(name), command.option_names());
            let hint = known.map_or_else(|| "after --, a name may begin with -".into(), did_you_mean);
            format!("'{}' has no option '{}' ({hint})", command.name, shown(name))
        })?;
        let value = parts.next().map(|value| OsStr::from_bytes(value).to_owned()).or_else(|| rest.next().cloned());
        let value = value.ok_or_else(|| format!("the option {} wants a value: {}", flag.name, flag.value))?;
        if self.value(flag.name).is_some() && !flag.repeats() {
            return Err(format!("the option {} is given twice", flag.name));
        }
        self.values.push((flag.name, value));
        Ok(())
    }

    /// That there are as many operands as the command takes.
    fn count(&self, command: &Command) -> Result<(), String> {
        let surplus = |place: usize, expected: &str| match self.operands.get(place) {
            Some(other) => Err(format!("{expected}, and '{}' is one more", shown(other))),
            None => Ok(()),
        };
        match (command.operand, self.operands.first()) {
            (Operand::None, _) => surplus(0, "no argument is wanted"),
            (Operand::Command, _) => surplus(1, "one command is wanted"),
            (Operand::Job, None) => Err("a job is missing (a file, or - for standard input)".into()),
            (Operand::Job, _) => surplus(1, "one job is wanted"),
            (Operand::Values(name), None) => Err(format!("{name} is missing")),
            (Operand::Values(_), _) => Ok(()),
            (Operand::Word(_, words), Some(word)) if words.iter().any(|known| word == known) => {
                surplus(1, "one word is wanted")
            }
            (Operand::Word(name, words), _) => Err(format!("{name} is to be one of {}", words.join(", "))),
        }
    }

    /// The files that the command reads and writes.
    pub fn names(&self, command: &Command) -> Names {
        let mut names = Names::default();
        if matches!(command.operand, Operand::Job | Operand::Values(FILE)) {
            names.inputs.clone_from(&self.operands);
        }
        for (name, value) in &self.values {
            let kind = command.flags().find(|flag| flag.name == *name).map(|flag| flag.value);
            match kind {
                Some(FILE) => names.inputs.push(value.clone()),
                Some(NEW_FILE) => names.outputs.push(value.clone()),
                Some(ACCOUNT_FILE) => names.outputs.extend([value.clone(), lock_name(value)]),
                _ => {}
            }
        }
        names
    }

    /// What the command is called on; a command that takes one has it.
    pub fn operand(&self) -> &OsStr {
        self.operands.first().map_or(OsStr::new(""), OsString::as_os_str)
    }

    pub fn operands(&self) -> &[OsString] {
        &self.operands
    }

    /// The value of an option, if it is given.
    pub fn value(&self, name: &str) -> Option<&OsStr> {
        self.values.iter().find(|(given, _)| *given == name).map(|(_, value)| value.as_os_str())
    }

    /// The value of an option as something other than a file.
    pub fn parsed<T>(&self, name: &str, what: &str, parse: fn(&str) -> Option<T>) -> Result<Option<T>, Failure> {
        Ok(self.all_parsed(name, what, parse)?.into_iter().next())
    }

    /// All values of an option that may be given several times, in their order.
    pub fn all_parsed<T>(&self, name: &str, what: &str, parse: fn(&str) -> Option<T>) -> Result<Vec<T>, Failure> {
        let parsed = |value: &OsString| {
            let fault = || {
                let digits = value.to_str().and_then(digits).filter(|digits| parse(digits).is_some());
                let hint = digits.map_or_else(String::new, |digits| format!(": write {digits}"));
                Failure::Other(format!("the value of {name} is to be {what}, not '{}'{hint}", shown(value)))
            };
            value.to_str().and_then(parse).ok_or_else(fault)
        };
        self.values.iter().filter(|(given, _)| *given == name).map(|(_, value)| parsed(value)).collect()
    }

    /// What to say where options that are wanted are not all given: the missing ones.
    pub fn missing(&self, required: &[&Flag]) -> Failure {
        let names: Vec<&str> =
            required.iter().map(|flag| flag.name).filter(|name| self.value(name).is_none()).collect();
        Failure::Other(match names.as_slice() {
            [others @ .., last] if !others.is_empty() => format!("{} and {last} are wanted", others.join(", ")),
            names => format!("{} is wanted", names.concat()),
        })
    }

    /// The value of an option as a number.
    pub fn number(&self, name: &str) -> Result<Option<u64>, Failure> {
        self.parsed(name, "a number below 2^64", |text| text.parse().ok())
    }
}

/// The question after a mistyped name.
pub fn did_you_mean(name: &str) -> String {
    format!("did you mean {name}?")
}

/// The digits of a whole number below 2^53 that is written in another way, such as 1e6, 1_000_000 or 1,000,000.
fn digits(text: &str) -> Option<String> {
    let number: f64 = text.replace(['_', ','], "").parse().ok()?;
    let is_whole = (0.0..9_007_199_254_740_992.0).contains(&number) && number.fract() == 0.0;
    is_whole.then(|| format!("{number:.0}"))
}
