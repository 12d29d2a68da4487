//! The help of the whole program and the manual page, made of the table of commands.

use crate::arguments::{Command, Flag, Group, ProgramOption};
use crate::commands::{COMMANDS, PROGRAM_OPTIONS};

/// What the program is.
const SUMMARY: &str = "Kundatrezo: a Pauli-frame noise engine. Calls on jobs that lie in files.";

/// What all commands have in common, in paragraphs.
const COMMON: [&str; 3] = [
    "\
JOB is a file, or - for standard input; docs/JOBS.md has the language of jobs. A file of words holds 64-bit
words, eight bytes each, the lowest byte first. An option whose value is shown with .. may be given several
times, others once. What follows -- is no option.",
    "\
Exit status: 0, the work is done; 1, the call refused, and standard error says by which number, at which
line, and what may help (docs/REFUSALS.md has more); 2, the arguments are at fault, or a file or standard
output can't be read or written. Unless the status is 0 no file is changed, but for an account of shared
words, which is written before all else, and by a refusal by 14 too.",
    "\
A file is written in its folder as NAME.XXXXXXXXXXXXXXXX.partial, and gets its name when all is written; until
then the old file stays as it was. The new file has the mode of the old one. If the name is a link, the file
that it leads to is replaced. An output that is also an input, or is named for two outputs, is refused. Pipes
and devices are written under their names.",
];

/// How the program is called.
const USAGES: [&str; 3] = ["COMMAND JOB [OPTION VALUE]..", "help [COMMAND]", "--version"];

/// The help of the whole program.
pub fn help() -> String {
    let usages = USAGES.map(|usage| format!("kundatrezo {usage}")).join("\n       ");
    let row = |command: &Command| format!("    {:<12} {}\n", command.name, command.summary);
    let group = |group: Group| format!("{}:\n{}\n", group.title(), commands(group).map(row).collect::<String>());
    let groups: String = Group::ALL.into_iter().map(group).collect();
    let option = |option: &ProgramOption| format!("    {:<14} {}\n", option.names().join(", "), option.text);
    let options: String = PROGRAM_OPTIONS.iter().map(option).collect();
    format!("{SUMMARY}\n\nusage: {usages}\n\n{groups}Options:\n{options}\n{}\n", COMMON.join("\n\n"))
}

/// The commands of a group.
fn commands(group: Group) -> impl Iterator<Item = &'static Command> {
    COMMANDS.iter().filter(move |command| command.group == group)
}

/// The page, in the macros of man(7).
pub fn page() -> String {
    let version = env!("CARGO_PKG_VERSION");
    let usages = USAGES.map(|usage| format!("\\fBkundatrezo\\fR {}\n", synopsis(usage))).join(".br\n");
    let options: String = PROGRAM_OPTIONS.iter().map(program_option).collect();
    let groups: String = Group::ALL.into_iter().map(section).collect();
    let [operand, status, files] = COMMON;
    format!(
        ".TH KUNDATREZO 1 \"\" \"kundatrezo {version}\" \"User Commands\"
.SH NAME
kundatrezo \\- a Pauli\\-frame noise engine
.SH SYNOPSIS
{usages}.SH DESCRIPTION
{}
.PP
{}
.SH OPTIONS
{options}{groups}.SH EXIT STATUS
{}
.SH FILES
{}
",
        text(SUMMARY),
        text(operand),
        text(status.trim_start_matches("Exit status: ")),
        text(files),
    )
}

/// How the program is called, with what a user replaces in italics and what is typed in bold.
fn synopsis(usage: &str) -> String {
    let word = |word: &str| {
        let typed = word.trim_matches(['[', ']', '.']);
        let font = if typed.chars().all(char::is_uppercase) { 'I' } else { 'B' };
        text(word).replace(&text(typed), &format!("\\f{font}{}\\fR", text(typed)))
    };
    usage.split(' ').map(word).collect::<Vec<String>>().join(" ")
}

fn program_option(option: &ProgramOption) -> String {
    let names = option.names().map(|name| format!("\\fB{}\\fR", text(name))).join(", ");
    format!(".TP\n{names}\n{}\n", text(option.text))
}

fn section(group: Group) -> String {
    let commands: String = commands(group).map(command).collect();
    format!(".SH {}\n{commands}", text(&group.title().to_uppercase()))
}

fn command(command: &Command) -> String {
    let paragraphs: Vec<String> = command.details.iter().map(|paragraph| text(paragraph)).collect();
    let flags: String = command.flags().map(flag).collect();
    format!(".SS {}\n{}\n{flags}", text(&command.usage()), paragraphs.join("\n.PP\n"))
}

fn flag(flag: &Flag) -> String {
    format!(".TP\n\\fB{}\\fR \\fI{}\\fR\n{}\n", text(flag.name), flag.value, text(flag.text))
}

/// A text in which nothing is a request or an escape.
fn text(text: &str) -> String {
    let escaped = text.replace('\\', "\\e").replace('-', "\\-");
    let lines =
        escaped.lines().map(|line| if line.starts_with(['.', '\'']) { format!("\\&{line}") } else { line.into() });
    lines.collect::<Vec<String>>().join("\n")
}
