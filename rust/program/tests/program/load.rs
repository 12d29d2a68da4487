//! Jobs and words from a seed.

use crate::common::{Done, folder, kundatrezo};
use kundatrezo::{JobParameters, Number, Xorshift, fill, make_job};
use std::fs;

fn call(arguments: &str) -> Done {
    kundatrezo(arguments.split(' '), b"")
}

fn bytes_of(words: &[u64]) -> Vec<u8> {
    words.iter().flat_map(|word| word.to_le_bytes()).collect()
}

#[test]
fn words_are_those_of_the_call() {
    let mut words = [0; 50];
    fill(12, &mut words).expect("not zero");
    assert_eq!(call("fill --state 12 --words 50"), Done::printed(bytes_of(&words)));
    assert_eq!(call("fill --state 12 --words 20 --skip 30"), Done::printed(bytes_of(&words[30..])));
    let mixed: Vec<u64> = Xorshift::new(12).take(50).collect();
    assert_eq!(call("fill --run-seed 12 --words 50"), Done::printed(bytes_of(&mixed)));
    let path = folder("fill").join("words");
    let name = path.to_str().expect("a path in plain text");
    assert_eq!(call(&format!("fill --run-seed 12 --words 50 --output {name}")), Done::printed(""));
    assert_eq!(fs::read(path).ok(), Some(bytes_of(&mixed)));
}

/// A run's words by a seed are those of `fill --run-seed`; `fill --seed` would be taken for either.
#[test]
fn seeds_of_runs_are_mixed() {
    let job = "op=job qubits=1 outcomes=1 shots=64\nop=n p=3fe0000000000000 corr=- cond=- parity=0 d=1 x=0 z=- size=1\n\
         op=o x=- z=0 id=0\n";
    let words = call("fill --run-seed 12 --words 64").stdout;
    let path = folder("run_seed").join("words");
    fs::write(&path, words).expect("it can be written");
    let by_file = kundatrezo(["run", "-", "--main", path.to_str().expect("a path in plain text")], job.as_bytes());
    assert_eq!(kundatrezo(["run", "-", "--seed", "12"], job.as_bytes()), by_file);
    assert_ne!(kundatrezo(["run", "-", "--state", "12"], job.as_bytes()), by_file);
    for arguments in ["fill --seed 12 --words 5", "fill --words 5 --seed=12", "fill --state 1 --seed"] {
        let done = call(arguments);
        assert_eq!((done.status, done.stdout.len()), (2, 0));
        let message =
            "kundatrezo: 'fill' has no --seed, which would mean two things: --state N takes N as the state itself, ";
        assert!(
            done.stderr.starts_with(message) && done.stderr.contains("--run-seed N mixes N first"),
            "{}",
            done.stderr
        );
    }
    for command in ["run", "settle", "sample", "share"] {
        let help = String::from_utf8(call(&format!("{command} --help")).stdout).expect("text");
        let row = help.lines().find(|line| line.starts_with("    --seed N ")).expect("a row");
        assert!(row.ends_with("any number, which is mixed"), "{row}");
    }
}

#[test]
fn jobs_are_those_of_the_call() {
    let asked = JobParameters { qubits: 9, outcomes: 12, shots: 70, lines: 40, seed: 5 };
    let job = make_job(asked).expect("it fits");
    let options = "make --qubits 9 --outcomes 12 --shots 70 --lines 40 --seed 5";
    assert_eq!(call(options), Done::printed(job.clone()));
    assert_eq!(call(&format!("{options} --room {}", job.len())), Done::printed(job.clone()));
    assert_eq!(kundatrezo(["check", "-"], &job).status, 0);
    let refused = [
        (format!("{options} --room {}", job.len() - 1), Number::ROOM, "leave out --room"),
        (options.replace("--seed 5", "--seed 0"), Number::SEED, "zero gives no words"),
        (
            options.replace("--shots 70", "--shots 0"),
            Number::HEADER,
            "a header has 1 to 256 qubits, 0 to 1024 outcomes",
        ),
        ("run /dev/null --state 0".into(), Number::LENGTH, "the job is empty"),
        ("fill --state 0 --words 1".into(), Number::SEED, "zero gives no words"),
    ];
    for (arguments, number, hint) in refused {
        let done = call(&arguments);
        assert_eq!((done.status, done.stdout.len()), (1, 0), "{arguments}");
        assert!(done.stderr.starts_with(&format!("refused: {number}\nhint: {hint}")), "{arguments}: {}", done.stderr);
    }
    let done = kundatrezo(["run", "-", "--state", "0"], &job);
    assert!(done.status == 1 && done.stderr.starts_with("refused: 22 "), "{done:?}");
}
