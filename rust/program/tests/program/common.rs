//! The program, run on arguments and a standard input.

use std::ffi::OsStr;
use std::io::Write;
use std::path::{Path, PathBuf};
use std::process::{Command, Stdio};

/// What the program did.
#[derive(Debug, PartialEq, Eq)]
pub struct Done {
    pub status: i32,
    pub stdout: Vec<u8>,
    pub stderr: String,
}

impl Done {
    pub fn printed(text: impl Into<Vec<u8>>) -> Self {
        Self { status: 0, stdout: text.into(), stderr: String::new() }
    }
}

/// Run the program with these arguments and this standard input.
pub fn kundatrezo<A: AsRef<OsStr>>(arguments: impl IntoIterator<Item = A>, stdin: &[u8]) -> Done {
    let mut command = Command::new(env!("CARGO_BIN_EXE_kundatrezo"));
    finish(command.args(arguments), stdin)
}

/// Run a command to its end.
pub fn finish(command: &mut Command, stdin: &[u8]) -> Done {
    let piped = command.stdin(Stdio::piped()).stdout(Stdio::piped()).stderr(Stdio::piped());
    let mut child = piped.spawn().expect("the program starts");
    let mut input = child.stdin.take().expect("it is piped");
    // A program may end before it has read all; what it prints counts all the same.
    _ = input.write_all(stdin);
    drop(input);
    let output = child.wait_with_output().expect("the program ends");
    let stderr = String::from_utf8(output.stderr).expect("messages are text");
    Done { status: output.status.code().expect("an exit status"), stdout: output.stdout, stderr }
}

/// A new folder for the files of a test.
pub fn folder(name: &str) -> PathBuf {
    let folder = PathBuf::from(env!("CARGO_TARGET_TMPDIR")).join(name);
    _ = std::fs::remove_dir_all(&folder);
    std::fs::create_dir_all(&folder).expect("the folder can be made");
    folder
}

/// The names in a folder, sorted.
pub fn names(folder: &Path) -> Vec<String> {
    let entries = std::fs::read_dir(folder).expect("a folder").map(|entry| entry.expect("an entry").file_name());
    let mut names: Vec<String> = entries.map(|name| name.into_string().expect("text")).collect();
    names.sort();
    names
}
