//! What is written to files: whole or not at all, and never over what is read.

use crate::common::{Done, finish, folder, names};
use std::fs::{self, Permissions};
use std::os::unix::fs::{PermissionsExt, symlink};
use std::path::Path;
use std::process::Command;

/// A job that draws from its main list, and one without noise.
const NOISY: &str = concat!(env!("CARGO_MANIFEST_DIR"), "/../../examples/syndrome.job");
const BELL: &str = concat!(env!("CARGO_MANIFEST_DIR"), "/../../examples/bell.job");

/// Each command that writes a file, and `out` for its name.
const WRITERS: [&str; 18] = [
    "run noisy --seed 1 --x out",
    "run noisy --seed 1 --z out",
    "run noisy --seed 1 --deltas out",
    "run noisy --seed 1 --shots out",
    "run noisy --seed 1 --packed out",
    "run noisy --seed 1 --totals out",
    "settle noisy --seed 1 --output out",
    "annotate bell --p 0.5 --output out",
    "faults noisy --group 0 --output out",
    "dem noisy --detector 0 --output out",
    "sample noisy --shots 100 --seed 1 --output out",
    "sample noisy --shots 100 --seed 1 --format b8 --output out",
    "merge counts --output out",
    "share --seed 5 --words 25 --shares 10,0 --output out",
    "add rows rows --output out",
    "make --qubits 3 --outcomes 2 --shots 10 --lines 8 --seed 279 --output out",
    "fill --state 1 --words 20 --output out",
    "sizes noisy --output out",
];

/// A folder with what the commands read.
fn prepared(name: &str) -> std::path::PathBuf {
    let folder = folder(name);
    fs::copy(NOISY, folder.join("noisy")).expect("a job");
    fs::copy(BELL, folder.join("bell")).expect("a job");
    for arguments in ["run noisy --seed 1 --deltas rows", "sample noisy --shots 100 --seed 1 --output counts"] {
        assert_eq!(call(&folder, arguments).status, 0);
    }
    folder
}

/// The program in a folder.
fn call(folder: &Path, arguments: &str) -> Done {
    shell(folder, &format!("exec \"$0\" {arguments}"))
}

/// A script in a folder, with the program as `$0`.
fn shell(folder: &Path, script: &str) -> Done {
    let mut shell = Command::new("sh");
    finish(shell.arg("-c").arg(script).arg(env!("CARGO_BIN_EXE_kundatrezo")).current_dir(folder), b"")
}

fn read(folder: &Path, name: &str) -> Vec<u8> {
    fs::read(folder.join(name)).expect("a file")
}

const LEFT: [&str; 5] = ["bell", "counts", "noisy", "out", "rows"];

/// A user's file or a planted link of the name that partial files once had is not touched, and a mode is handed on.
#[test]
fn files_are_written_beside_their_names() {
    let folder = prepared("beside");
    fs::write(folder.join("victim"), "victim").expect("it can be written");
    symlink("victim", folder.join("out.partial")).expect("a link");
    for writer in WRITERS {
        _ = fs::remove_file(folder.join("out"));
        assert_eq!(call(&folder, writer).status, 0, "{writer}");
        let whole = read(&folder, "out");
        fs::write(folder.join("out"), "old").expect("it can be written");
        fs::set_permissions(folder.join("out"), Permissions::from_mode(0o600)).expect("a mode");
        assert_eq!(call(&folder, writer).status, 0, "{writer}");
        assert_eq!(read(&folder, "out"), whole, "{writer}");
        let mode = fs::metadata(folder.join("out")).expect("a file").permissions().mode() & 0o777;
        assert_eq!((mode, read(&folder, "victim")), (0o600, b"victim".to_vec()), "{writer}");
        _ = fs::remove_file(folder.join("out.lock"));
    }
    assert_eq!(names(&folder), ["bell", "counts", "noisy", "out", "out.partial", "rows", "victim"]);
}

/// A full disk, here a limit of no bytes, leaves the old file and nothing beside it.
#[test]
fn full_disks_leave_the_old_file() {
    let folder = prepared("full");
    for writer in WRITERS {
        fs::write(folder.join("out"), "old").expect("it can be written");
        let done = shell(&folder, &format!("trap '' XFSZ; ulimit -f 0; exec \"$0\" {writer}"));
        assert_eq!((done.status, done.stderr.as_str()), (2, "kundatrezo: out: File too large (os error 27)\n"));
        _ = fs::remove_file(folder.join("out.lock"));
        assert_eq!((read(&folder, "out"), names(&folder)), (b"old".to_vec(), LEFT.map(String::from).to_vec()));
    }
}

/// A message that can't be written changes no status: the log of a run may lie on the same full disk.
#[test]
fn messages_that_cannot_be_written() {
    let folder = prepared("unsaid");
    let cases = [
        ("annotate bell --p 0.5 --output gone/out", 2),
        ("check noisy --x", 2),
        ("walk noisy --shot 0 --set 0", 1),
        ("annotate bell --p -0.5 --output out", 0),
    ];
    for (arguments, status) in cases {
        assert_eq!(call(&folder, &format!("{arguments} 2>/dev/full")).status, status, "{arguments}");
    }
    assert_eq!(names(&folder), LEFT);
    let full = shell(&folder, "trap '' XFSZ; ulimit -f 0; exec \"$0\" settle bell --output rows 2>log");
    assert_eq!((full.status, read(&folder, "log").len()), (2, 0));
}

/// What can't be printed leaves no file either: the status says that the work is not done.
#[test]
fn closed_pipes_leave_the_old_file() {
    let folder = prepared("closed");
    let printers = [
        "run noisy --seed 1 --deltas out",
        "sample noisy --shots 100 --seed 1 --format b8 --output out",
        "split bell --parts 1 --prefix out",
    ];
    for writer in printers {
        let old = if writer.starts_with("split") { "out0.job" } else { "out" };
        fs::write(folder.join(old), "old").expect("it can be written");
        let full = shell(&folder, &format!("exec \"$0\" {writer} >/dev/full"));
        assert!(full.status == 2 && full.stderr.contains("standard output: "), "{full:?}");
        let closed = shell(&folder, &format!("(sleep 0.3; \"$0\" {writer}; echo $? >&2) | :"));
        assert_eq!(closed.stderr.lines().last(), Some("2"), "{closed:?}");
        assert_eq!(read(&folder, old), b"old", "{writer}");
        fs::remove_file(folder.join(old)).expect("it is there");
        assert_eq!(names(&folder), ["bell", "counts", "noisy", "rows"]);
    }
    // if one of several files can't be written, none is changed
    for name in ["x", "z"] {
        fs::write(folder.join(name), "old").expect("it can be written");
    }
    let done = call(&folder, "run noisy --seed 1 --x x --z z --deltas /dev/full");
    assert!(done.status == 2 && done.stderr.starts_with("kundatrezo: /dev/full: "), "{done:?}");
    assert_eq!((read(&folder, "x"), read(&folder, "z")), (b"old".to_vec(), b"old".to_vec()));
}

/// An output that is an input, or is named twice: by its name, another path, a link, or a hard link.
#[test]
fn no_output_is_an_input_or_named_twice() {
    let folder = prepared("named");
    for (link, target) in [("soft", "noisy"), ("early", "late")] {
        symlink(target, folder.join(link)).expect("a link");
    }
    fs::hard_link(folder.join("noisy"), folder.join("hard")).expect("a link");
    assert_eq!(call(&folder, "share --seed 5 --words 9999 --shares 10,0 --output account").status, 0);
    assert_eq!(call(&folder, "split bell --parts 1 --prefix part").status, 0);
    let inputs = ["account", "account.lock", "bell", "counts", "noisy", "part0.job", "rows"];
    let before = inputs.map(|name| fs::read(folder.join(name)).unwrap_or_default());
    let there = names(&folder);
    let read_too = [
        "sample noisy --shots 9 --seed 1 --output noisy",
        "sample noisy --shots 9 --seed 1 --output ./noisy",
        "sample soft --shots 9 --seed 1 --output noisy",
        "sample noisy --shots 9 --seed 1 --format b8 --output hard",
        "run bell --deltas bell",
        "run noisy --seed 5 --account account --caller 1 --x hard",
        "run noisy --main rows --x rows",
        "run noisy --seed 1 --noiseless rows --x rows",
        "settle noisy --seed 1 --output hard",
        "settle - --seed 1 --output noisy <noisy",
        "annotate bell --p 0.5 --output bell",
        "sizes noisy --output soft",
        "merge counts --output counts",
        "add bell rows --output rows",
        "dem noisy --detector 0 --output noisy",
        "faults noisy --group 0 --output noisy",
        "share --main rows --shares 1,0 --output rows",
        "sample noisy --shots 9 --seed 1 --sets bell --output bell",
        "split part0.job --parts 1 --prefix part",
    ];
    let twice = [
        "run bell --deltas same --totals same",
        "run bell --deltas late --totals early",
        "run noisy --seed 5 --account account --caller 1 --deltas account",
        "run noisy --seed 5 --account account --caller 1 --deltas account.lock",
    ];
    let printed =
        ["run bell --deltas session >session", "run bell --deltas /dev/stdout >session", "run bell --x log 2>log"];
    let message = [
        "is read, too, and would be overwritten",
        "is named for two outputs",
        "standard output or standard error goes to",
    ];
    for (cases, message) in [read_too.as_slice(), &twice, &printed].into_iter().zip(message) {
        for arguments in cases {
            let done = call(&folder, arguments);
            let text = if arguments.contains("2>") { read(&folder, "log") } else { done.stderr.clone().into_bytes() };
            let text = String::from_utf8(text).expect("text");
            assert!(done.status == 2 && text.contains(message), "{arguments}: {text}");
        }
    }
    _ = ["session", "log"].map(|name| fs::remove_file(folder.join(name)));
    assert_eq!(names(&folder), there);
    assert_eq!(inputs.map(|name| fs::read(folder.join(name)).unwrap_or_default()), before);
}

/// Pipes and devices are written under their names, and may be named twice; a link to a file stays.
#[test]
fn pipes_devices_and_links() {
    let folder = prepared("pipes");
    let null = call(&folder, "run bell --x /dev/null --z /dev/null --deltas /dev/null");
    assert_eq!((null.status, null.stderr.as_str()), (0, ""));
    let piped = shell(&folder, "\"$0\" run bell --deltas rows && \"$0\" run bell --deltas /dev/stdout | cat");
    assert!(piped.status == 0 && piped.stdout.ends_with(b"shots=3\n"), "{piped:?}");
    // two pipes; the second is read when the first is at its end
    let script = "mkfifo one two && { \"$0\" run bell --deltas one --totals two & cat one two >both; wait; }";
    assert_eq!(shell(&folder, script).status, 0);
    assert_eq!(call(&folder, "run bell --deltas one.file --totals two.file").status, 0);
    assert_eq!(read(&folder, "both"), [read(&folder, "one.file"), read(&folder, "two.file")].concat());
    for (link, target) in [("link", "there"), ("early", "late")] {
        symlink(target, folder.join(link)).expect("a link");
        fs::write(folder.join("there"), "old").expect("it can be written");
        assert_eq!(call(&folder, &format!("settle bell --output {link}")).status, 0);
        assert!(folder.join(link).is_symlink());
        assert_eq!(read(&folder, target), read(&folder, "bell"));
    }
}

/// Two samples that write one name at the same time: both are whole, and the name has one of them.
#[test]
fn two_writers_of_one_name() {
    let folder = prepared("two");
    let sample =
        |seed: u64, name: &str| format!("\"$0\" sample noisy --shots 100000 --seed {seed} --format b8 --output {name}");
    for seed in [1, 2] {
        assert_eq!(shell(&folder, &sample(seed, &format!("alone{seed}"))).status, 0);
    }
    let both =
        format!("{} >/dev/null & first=$!; {} >/dev/null & wait $! && wait $first", sample(1, "one"), sample(2, "one"));
    for _ in 0..5 {
        let done = shell(&folder, &both);
        assert_eq!((done.status, done.stderr.as_str()), (0, ""));
        let written = read(&folder, "one");
        assert!(["alone1", "alone2"].iter().any(|name| read(&folder, name) == written));
    }
    assert_eq!(names(&folder), ["alone1", "alone2", "bell", "counts", "noisy", "one", "rows"]);
}

/// Names are shown escaped: none can move the cursor of a terminal or break a line.
#[test]
fn names_are_shown_escaped() {
    let folder = prepared("escaped");
    let gone = |name: &str| format!("kundatrezo: {name}: No such file or directory (os error 2)\n");
    let cases = [
        ("check \"$(printf 'a\\033[2J\\nb')\"", gone("a\\u{1b}[2J\\nb")),
        ("check \"$(printf 'a\\377\\\\b')\"", gone("a\\xff\\\\b")),
        ("check \"it's gone\"", gone("it's gone")),
        ("check Größe.job", gone("Größe.job")),
        ("settle bell --output \"$(printf 'a\\033/b')\"", gone("a\\u{1b}/b")),
        ("merge \"$(printf 'a\\033')\"", gone("a\\u{1b}")),
        ("sample noisy --shots 9 --seed 1 --sets \"$(printf 'a\\033')\"", gone("a\\u{1b}")),
        ("bits \"$(printf 'a\\033')\"", "kundatrezo: 'a\\u{1b}' is not a number in decimal\n".into()),
    ];
    for (arguments, message) in cases {
        let done = call(&folder, arguments);
        assert_eq!((done.status, done.stderr), (2, message), "{arguments}");
    }
    let done = call(&folder, "\"$(printf 'a\\033')\"");
    assert!(done.status == 2 && done.stderr.starts_with("kundatrezo: there is no command 'a\\u{1b}'"), "{done:?}");
}
