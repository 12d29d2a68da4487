//! The sessions of the documents: what a `$` line and its `>` lines say is run by the shell, and must print what stands below.

use crate::common::{Done, finish, folder, kundatrezo};
use kundatrezo::Number;
use std::fs;
use std::path::{Path, PathBuf};
use std::process::Command;

/// A command of a document and what it prints, standard output and error together.
pub struct Step {
    pub command: String,
    pub printed: String,
}

/// The steps of a text: indented lines, from a `$` line on.
pub fn steps(text: &str) -> Vec<Step> {
    let mut steps: Vec<Step> = Vec::new();
    let mut in_session = false;
    for line in text.lines() {
        let Some(line) = line.strip_prefix("    ") else {
            in_session = false;
            continue;
        };
        if let Some(command) = line.strip_prefix("$ ") {
            in_session = true;
            steps.push(Step { command: format!("{command}\n"), printed: String::new() });
        } else if let Some(step) = steps.last_mut().filter(|_| in_session) {
            match line.strip_prefix("> ") {
                Some(more) => step.command += &format!("{more}\n"),
                None => step.printed += &format!("{line}\n"),
            }
        }
    }
    steps
}

/// Run a step in a folder, with the program in the shell's path, and see that it prints what it should.
pub fn run(step: &Step, folder: &Path) -> Done {
    let program = Path::new(env!("CARGO_BIN_EXE_kundatrezo"));
    let mut path = program.parent().expect("the program lies in a folder").as_os_str().to_owned();
    path.push(":");
    path.push(std::env::var_os("PATH").unwrap_or_default());
    let mut shell = Command::new("sh");
    // standard error goes where standard output goes
    let script = format!("exec 2>&1\n{}", step.command);
    let done = finish(shell.arg("-c").arg(script).env("PATH", path).current_dir(folder), b"");
    assert_eq!(String::from_utf8_lossy(&done.stdout), step.printed, "{}", step.command);
    done
}

pub fn document(name: &str) -> String {
    let path = PathBuf::from(env!("CARGO_MANIFEST_DIR")).join("../..").join(name);
    fs::read_to_string(path).expect("the document is there")
}

/// A folder in which sessions run, with the examples of the repository.
pub fn session_folder(name: &str) -> PathBuf {
    let folder = folder(name);
    let examples = PathBuf::from(env!("CARGO_MANIFEST_DIR")).join("../../examples");
    std::os::unix::fs::symlink(examples, folder.join("examples")).expect("a link can be made");
    folder
}

#[test]
fn refusals() {
    let text = document("docs/REFUSALS.md");
    let folder = session_folder("refusals");
    let mut sections = text.split("\n## ").skip(1);
    for number in Number::ALL {
        let section = sections.next().expect("a section for each number");
        let (heading, body) = section.split_once('\n').expect("a heading");
        assert_eq!(heading, format!("{}: {}", number.get(), number.words()));
        let steps = steps(body);
        assert!(!steps.is_empty(), "{heading}");
        for step in steps {
            assert_eq!(run(&step, &folder).status, 1, "{}", step.command);
            // of several causes a refusal may name the one that it is
            assert!(step.printed.starts_with(&format!("refused: {} (", number.get())), "{}", step.printed);
        }
    }
    assert_eq!(sections.next(), None);
}

#[test]
fn read_me() {
    for page in ["rust/README.md", "README.md", "docs/SAMPLING.md"] {
        let folder = session_folder(&page.replace('/', "_"));
        let mut steps = steps(&document(page));
        if page == "README.md" {
            // the first page also has lines that build and install, which the tests do on their own
            steps.retain(|step| step.command.contains("kundatrezo sample "));
            // and shows what its first line prints at a terminal
            let first = steps[0].command.strip_prefix("./").expect("the script at the root");
            steps[0].command = first.replace('\n', " --format table\n");
        }
        assert!(!steps.is_empty(), "{page}");
        for step in &steps {
            run(step, &folder);
        }
    }
}

/// Pages whose sessions all do their work.
#[test]
fn pages() {
    for page in ["docs/FAULTS.md", "docs/SHARES.md", "docs/MAKING.md"] {
        let folder = session_folder(&page.replace('/', "_"));
        let steps = steps(&document(page));
        assert!(!steps.is_empty(), "{page}");
        for step in &steps {
            assert_eq!(run(step, &folder).status, 0, "{}", step.command);
        }
    }
}

#[test]
fn the_repetition_code_stands_on_its_page() {
    let indented: String = document("examples/repetition.job").lines().map(|line| format!("    {line}\n")).collect();
    assert!(document("docs/FAULTS.md").contains(&indented));
}

/// The session that the printing program is tried on is the example.
#[test]
fn one_bell_example() {
    assert_eq!(document("examples/bell.job"), document("crates/kundatrezo_print/stdin"));
    let printed = kundatrezo(["run", "-"], document("examples/bell.job").as_bytes());
    assert_eq!(printed, Done::printed(document("crates/kundatrezo_print/stdout")));
}

/// The printing program, where the test command names it: the same sessions, and a word on standard error where one could not be written.
#[test]
fn the_printing_program() {
    let Some(print) = std::env::var_os("KUNDATREZO_PRINT") else {
        return;
    };
    let job = document("examples/bell.job");
    for job in [&job, &document("examples/parity.job")] {
        let printed = finish(&mut Command::new(&print), job.as_bytes());
        assert_eq!(printed, kundatrezo(["run", "-"], job.as_bytes()));
    }
    let refused = finish(&mut Command::new(&print), job.replace("q=0,1", "q=0,9").as_bytes());
    assert_eq!(refused, Done::printed("ok=0 refusal=4 line=3\n"));
    let script = "exec \"$0\" >/dev/full";
    let full = finish(Command::new("sh").arg("-c").arg(script).arg(&print), job.as_bytes());
    let message = "kundatrezo_print: the session could not be written whole\n";
    assert_eq!(full, Done { status: 0, stdout: Vec::new(), stderr: message.into() });
}
