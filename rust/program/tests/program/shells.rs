//! The manual page and the scripts for shells, tried with the programs that read them, where these are installed.

use crate::common::{Done, finish, folder, kundatrezo};
use std::fs;
use std::path::Path;
use std::process::Command;

/// Run a program on arguments, if it is installed.
fn tried(program: &str, arguments: &[&str]) -> Option<Done> {
    let found = Command::new("sh").arg("-c").arg(format!("command -v {program} >/dev/null")).status();
    found
        .is_ok_and(|status| status.success())
        .then(|| finish(Command::new(program).args(arguments).env("HOME", env!("CARGO_TARGET_TMPDIR")), b""))
}

/// A file with what a command prints, as an argument.
fn printed(folder: &Path, command: &[&str]) -> String {
    let done = kundatrezo(command, b"");
    assert_eq!((done.status, done.stderr.as_str()), (0, ""));
    let path = folder.join(command.join("_"));
    fs::write(&path, done.stdout).expect("the file can be written");
    path.into_os_string().into_string().expect("a path in plain text")
}

#[test]
fn the_manual_page_is_one() {
    let page = printed(&folder("manual"), &["man"]);
    let readers: [(&str, &[&str]); 2] = [("mandoc", &["-Tlint", "-Werror"]), ("groff", &["-man", "-ww", "-z"])];
    for (program, arguments) in readers {
        if let Some(done) = tried(program, &[arguments, &[page.as_str()]].concat()) {
            assert_eq!((done.status, done.stderr.as_str(), done.stdout.len()), (0, "", 0), "{program}");
        }
    }
}

#[test]
fn bash_completes() {
    let script = printed(&folder("bash"), &["completions", "bash"]);
    let completed = |words: &str| {
        let last = words.split(' ').count() - 1;
        let run = format!(
            "source {script}; COMP_WORDS=({words}); COMP_CWORD={last}; _kundatrezo; echo \"${{COMPREPLY[@]}}\""
        );
        tried("bash", &["--norc", "-c", &run]).map(|done| String::from_utf8(done.stdout).expect("text"))
    };
    let cases = [
        ("kundatrezo co", "correlation completions\n"),
        ("kundatrezo run job --se", "--seed --second --second-seed --second-state --second-words\n"),
        ("kundatrezo run job --main /dev/nul", "/dev/null\n"),
        ("kundatrezo run job --deltas /dev/nul", "/dev/null\n"),
        ("kundatrezo run job --account /dev/nul", "/dev/null\n"),
        ("kundatrezo check /dev/nul", "/dev/null\n"),
        ("kundatrezo add /dev/nul", "/dev/null\n"),
        ("kundatrezo siz", "sizes\n"),
        ("kundatrezo faults job --group 0 --g", "--group\n"),
        ("kundatrezo sizes job --o", "--output\n"),
        ("kundatrezo completions z", "zsh\n"),
        ("kundatrezo help co", "correlation completions\n"),
        ("kundatrezo --v", "--version\n"),
    ];
    for (words, expected) in cases {
        if let Some(output) = completed(words) {
            assert_eq!(output, expected, "{words}");
        }
    }
}

#[test]
fn zsh_and_fish_read_their_scripts() {
    let folder = folder("shells");
    let [zsh, fish] = ["zsh", "fish"].map(|shell| printed(&folder, &["completions", shell]));
    for (shell, script) in [("zsh", &zsh), ("fish", &fish)] {
        if let Some(done) = tried(shell, &["-n", script]) {
            assert_eq!((done.status, done.stderr.as_str()), (0, ""), "{shell}");
        }
    }
    let ask = format!("source {fish}; complete -C 'kundatrezo run job --sec'");
    if let Some(done) = tried("fish", &["--no-config", "-c", &ask]) {
        let output = String::from_utf8(done.stdout).expect("text");
        let names: Vec<&str> = output.lines().filter_map(|line| line.split('\t').next()).collect();
        assert_eq!(names, ["--second", "--second-seed", "--second-state"]);
    }
}
