//! Shots on several benches: jobs split, and rows added.

use crate::common::{Done, folder, kundatrezo};
use std::fs;
use std::path::Path;

/// Injections and flips in all of 70 shots, with a conditional Pauli and a reset behind them.
fn job() -> String {
    let mut text = String::from("op=job qubits=2 outcomes=3 shots=70\n");
    for shot in 0..70 {
        let pauli = ["x=0 z=-", "x=0,1 z=1", "x=- z=0", "x=1 z=-"][shot % 4];
        text += &format!("op=i shot={shot} {pauli}\n");
    }
    text += "op=o x=- z=0 id=0\nop=f x=1 z=0 id=0 parity=0\nop=z q=0\n";
    for shot in (0..70).step_by(3) {
        text += &format!("op=t shot={shot} id=0\nop=i shot={shot} x=0 z=-\n");
    }
    text + "op=f x=1 z=- id=0 parity=1\nop=o x=- z=1 id=1\nop=o x=- z=0,1 id=2\n"
}

/// The program in a folder, on names of files there that begin with a `/`.
fn call(folder: &Path, arguments: &str) -> Done {
    let folder = folder.to_str().expect("a path in plain text");
    let named = |argument: &str| match argument.strip_prefix('/') {
        Some(name) => format!("{folder}/{name}"),
        None => argument.to_owned(),
    };
    kundatrezo(arguments.split(' ').map(named), job().as_bytes())
}

fn quiet(folder: &Path, arguments: &str) {
    let done = call(folder, arguments);
    assert_eq!((done.status, done.stderr.as_str()), (0, ""), "{arguments}");
}

#[test]
fn parts_of_a_job_add_up() {
    let folder = folder("parts");
    quiet(&folder, "run - --x /x --z /z --deltas /deltas");
    for parts in [1, 2, 3, 70] {
        let done = call(&folder, &format!("split - --parts {parts} --prefix /part"));
        let last = format!("part{}.job first={} last=69\n", parts - 1, 70 * (parts - 1) / parts);
        let output = String::from_utf8(done.stdout).expect("text");
        assert!(output.starts_with("job=") && output.contains("/part0.job first=0 last="), "{output}");
        assert!(output.ends_with(&last) && output.lines().count() == parts, "{output}");
        for part in 0..parts {
            quiet(&folder, &format!("run /part{part}.job --x /x{part} --z /z{part} --deltas /deltas{part}"));
        }
        for rows in ["x", "z", "deltas"] {
            let files: String = (0..parts).map(|part| format!(" /{rows}{part}")).collect();
            quiet(&folder, &format!("add{files} --output /sum"));
            let [sum, whole] = ["sum", rows].map(|name| fs::read(folder.join(name)).expect("it was written"));
            assert_eq!(sum, whole, "{rows} of {parts} parts");
            assert_eq!(call(&folder, &format!("add{files}")), Done::printed(whole));
        }
    }
}

#[test]
fn what_is_not_split_or_added() {
    let folder = folder("not_split");
    let noisy =
        "op=job qubits=1 outcomes=0 shots=2\nop=n p=0000000000000000 corr=- cond=- parity=0 d=1 x=0 z=- size=1\n";
    for (name, bytes) in [("noisy", noisy.as_bytes()), ("one", &[1; 8]), ("two", &[1; 16]), ("odd", &[1; 9])] {
        fs::write(folder.join(name), bytes).expect("it can be written");
    }
    let refused = call(&folder, "split /noisy --parts 2 --prefix /part");
    assert_eq!(refused.status, 1);
    assert!(refused.stderr.starts_with("refused: 16 (noise in a walk) at line 2: op=n "), "{refused:?}");
    assert!(refused.stderr.ends_with(", and split the settled job\n"), "{refused:?}");
    assert!(!folder.join("part0.job").exists());
    let cases = [
        ("split - --parts 2", "--prefix is wanted"),
        ("split - --prefix /part", "--parts is wanted"),
        ("split - --parts 0 --prefix /part", "the value of --parts is to be from 1 to the job's shots, 70"),
        ("split - --parts 71 --prefix /part", "the value of --parts is to be from 1 to the job's shots, 70"),
        ("add", "FILE is missing"),
        ("add /one /two", "two: 2 words, and the first file has 1"),
        ("add /one /odd", "odd: its bytes are no whole number of 64-bit words"),
        ("add /one /three", "three: "),
    ];
    for (arguments, text) in cases {
        let done = call(&folder, arguments);
        assert_eq!((done.status, done.stdout.as_slice()), (2, b"".as_slice()), "{arguments}");
        assert!(done.stderr.contains(text), "{arguments}: {}", done.stderr);
    }
    let endless = kundatrezo(["add", "/dev/zero"], b"");
    assert_eq!(endless.stderr, "kundatrezo: /dev/zero: no job has rows of more than 65536 words\n");
}
