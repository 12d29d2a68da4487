//! Scripts by which shells complete commands, options and files.

use crate::arguments::{Arguments, Command, FILE, Flag, Operand, ProgramOption};
use crate::commands::{COMMANDS, PROGRAM_OPTIONS};
use crate::{Failure, print};
use std::fmt::Write;

/// The shells that there is a script for.
pub const SHELLS: &[&str] = &["bash", "zsh", "fish"];

pub const DETAILS: &str = "\
Prints a script for bash, zsh or fish. For bash: 'source <(kundatrezo completions bash)'. For zsh the script
is a file _kundatrezo in a folder of fpath, for fish kundatrezo.fish in ~/.config/fish/completions.";

pub fn print_script(arguments: &Arguments) -> Result<(), Failure> {
    let shell = arguments.operand();
    print(match SHELLS.iter().position(|known| shell == *known) {
        Some(0) => bash(),
        Some(1) => zsh(),
        _ => fish(),
    })
}

/// The names of all commands.
fn command_names() -> Vec<&'static str> {
    COMMANDS.iter().map(|command| command.name).collect()
}

/// The words that a command is called on, if there are such.
fn operands(command: &Command) -> Vec<&'static str> {
    match command.operand {
        Operand::Word(_, words) => words.to_vec(),
        Operand::Command => command_names(),
        _ => Vec::new(),
    }
}

fn bash() -> String {
    let first = command_names().into_iter().chain(PROGRAM_OPTIONS.iter().flat_map(ProgramOption::names));
    let mut cases = String::new();
    for command in COMMANDS {
        let words = operands(command).into_iter().chain(command.option_names()).collect::<Vec<_>>().join(" ");
        writeln!(cases, "        {}) words='{words}' ;;", command.name).expect("a string takes all");
    }
    let mut files: Vec<&str> =
        COMMANDS.iter().flat_map(Command::flags).filter(|flag| flag.is_file()).map(|flag| flag.name).collect();
    files.sort_unstable();
    files.dedup();
    format!(
        "_kundatrezo() {{
    local word=${{COMP_WORDS[COMP_CWORD]}} before=${{COMP_WORDS[COMP_CWORD - 1]}} words=
    if ((COMP_CWORD == 1)); then
        COMPREPLY=($(compgen -W '{}' -- \"$word\"))
        return
    fi
    case $before in
        {}) COMPREPLY=($(compgen -f -- \"$word\")); return ;;
    esac
    case ${{COMP_WORDS[1]}} in
{cases}    esac
    COMPREPLY=($(compgen -W \"$words\" -- \"$word\"))
    if [[ $word != -* ]]; then
        COMPREPLY+=($(compgen -f -- \"$word\"))
    fi
}}
complete -o filenames -F _kundatrezo kundatrezo
",
        first.collect::<Vec<_>>().join(" "),
        files.join("|"),
    )
}

fn zsh() -> String {
    let mut commands = String::new();
    let mut cases = String::new();
    for option in PROGRAM_OPTIONS {
        for name in option.names() {
            writeln!(commands, "        '{name}:{}'", quoted(option.text)).expect("a string takes all");
        }
    }
    for command in COMMANDS {
        writeln!(commands, "        '{}:{}'", command.name, quoted(command.summary)).expect("a string takes all");
        let option = |flag: &Flag| {
            let action = if flag.is_file() { "_files" } else { "" };
            let again = if flag.repeats() { "*" } else { "" };
            format!(" \\\n                '{again}{}=[{}]:{}:{action}'", flag.name, quoted(flag.text), flag.value)
        };
        let options: String = command.flags().map(option).collect();
        let operand = match command.operand {
            Operand::Job => "':job:_files'".into(),
            Operand::Values(FILE) => format!("'*:{FILE}:_files'"),
            Operand::Values(name) => format!("'*:{name}:'"),
            Operand::Word(name, _) => format!("':{name}:({})'", operands(command).join(" ")),
            Operand::Command => format!("'::COMMAND:({})'", operands(command).join(" ")),
            Operand::None => String::new(),
        };
        writeln!(
            cases,
            "        {})\n            _arguments '--help[say how]'{options} {operand}\n            ;;",
            command.name
        )
        .expect("a string takes all");
    }
    format!(
        "#compdef kundatrezo
_kundatrezo() {{
    local -a commands
    commands=(
{commands}    )
    if ((CURRENT == 2)); then
        _describe command commands
        return
    fi
    local command=$words[2]
    shift words
    ((CURRENT--))
    case $command in
{cases}    esac
}}
_kundatrezo \"$@\"
"
    )
}

fn fish() -> String {
    let mut script = String::new();
    for option in PROGRAM_OPTIONS {
        let [short, long] = option.names().map(|name| name.trim_start_matches('-'));
        let text = quoted(option.text);
        writeln!(script, "complete -c kundatrezo -f -n __fish_use_subcommand -s {short} -l {long} -d '{text}'")
            .expect("a string takes all");
    }
    for command in COMMANDS {
        let (name, summary) = (command.name, quoted(command.summary));
        let is_chosen = format!("-n '__fish_seen_subcommand_from {name}'");
        writeln!(script, "complete -c kundatrezo -f -n __fish_use_subcommand -a {name} -d '{summary}'")
            .expect("a string takes all");
        for flag in command.flags() {
            let (value, text) = (if flag.is_file() { "-rF" } else { "-x" }, quoted(flag.text));
            let option = flag.name.trim_start_matches('-');
            writeln!(script, "complete -c kundatrezo {is_chosen} -l {option} {value} -d '{text}'")
                .expect("a string takes all");
        }
        let operand = match command.operand {
            Operand::Job | Operand::Values(FILE) => "-F".into(),
            Operand::Word(..) | Operand::Command => format!("-f -a '{}'", operands(command).join(" ")),
            Operand::Values(_) | Operand::None => "-f".into(),
        };
        writeln!(script, "complete -c kundatrezo {is_chosen} {operand}").expect("a string takes all");
    }
    script
}

/// A text within single quotes of a script, where colons and brackets mean something too.
fn quoted(text: &str) -> String {
    text.replace(['\'', ':', '[', ']'], "")
}
