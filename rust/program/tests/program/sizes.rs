//! Jobs whose noise lines lack a size.

use crate::common::{Done, folder, kundatrezo};
use crate::documents::document;
use std::fs;

fn added(job: &[u8]) -> Done {
    kundatrezo(["sizes", "-"], job)
}

/// A job without the sizes of its noise lines.
fn without_sizes(job: &str) -> String {
    let line = |line: &str| format!("{}\n", line.split(" size=").next().expect("a beginning"));
    job.lines().map(line).collect()
}

const NOISE: &str = "op=n p=3fe0000000000000 corr=- cond=- parity=0";

/// Every kind of distribution, with condition and correlation, and the most qubits.
fn every_kind() -> String {
    let most = (0..31).map(|qubit| qubit.to_string()).collect::<Vec<_>>().join(",");
    format!(
        "op=job qubits=31 outcomes=2 shots=1
op=r id=0 angle=0
op=n p=0000000000000000 corr=7 cond=0 parity=1 d=1 x=0 z=- size=1
{NOISE} d=2 q=3 size=3
{NOISE} d=2 q=5,0 size=15
{NOISE} d=2 q={most} size=4611686018427387903
{NOISE} d=3 n=2 size=2
x=0 z=-
x=- z=-
{NOISE} d=4 n=1 size=1
w=3ff0000000000000 x=1 z=-
op=o x=- z=0 id=1
"
    )
}

#[test]
fn an_older_job_gets_its_sizes() {
    for job in [every_kind(), document("examples/syndrome.job")] {
        assert_eq!(kundatrezo(["check", "-"], job.as_bytes()).status, 0);
        let older = without_sizes(&job);
        assert_eq!(kundatrezo(["check", "-"], older.as_bytes()).status, 1);
        assert_eq!(added(older.as_bytes()), Done::printed(job.clone()));
        assert_eq!(added(job.as_bytes()), Done::printed(job));
    }
    let path = folder("sizes").join("older.job");
    fs::write(&path, without_sizes(&every_kind())).expect("it can be written");
    let sized = path.with_file_name("sized.job");
    let names = [path.as_os_str(), "--output".as_ref(), sized.as_os_str()];
    assert_eq!(kundatrezo([["sizes".as_ref()].as_slice(), &names].concat(), b""), Done::printed(""));
    assert_eq!(fs::read_to_string(sized).ok(), Some(every_kind()));
    // not in its own place
    let names = [path.as_os_str(), "--output".as_ref(), path.as_os_str()];
    assert_eq!(kundatrezo([["sizes".as_ref()].as_slice(), &names].concat(), b"").status, 2);
    assert_eq!(fs::read_to_string(path).ok(), Some(without_sizes(&every_kind())));
}

/// Whatever a job holds beside noise lines without a size, and also if it is no job, is copied byte by byte.
#[test]
fn all_else_is_copied() {
    let copied: [&[u8]; 7] = [
        b"",
        b"\n\n",
        b"op=job qubits=1 outcomes=0 shots=1\nop=z q=9\n",
        b"\xff\x00 d=1 x=0 z=-\r\nop=nonsense d=1 x=0 z=-\nx=0 z=-",
        b"op=n size=1\n",
        b"op=n p=3fe0000000000000 corr=- cond=- parity=0 d=2 q=0 size=4\n",
        b"op=n p=3fe0000000000000 corr=- cond=- parity=0 d=2 q=0 size=03\n",
    ];
    for job in copied {
        assert_eq!(added(job), Done::printed(job));
    }
    // without its last LF, and between lines that a job may not have
    let (before, after) = (format!("# noise\r\n{NOISE} d=3 n=0"), format!("# noise\r\n{NOISE} d=3 n=0 size=0"));
    assert_eq!(added(before.as_bytes()), Done::printed(after));
}

#[test]
fn a_line_whose_size_cannot_be_told_is_named() {
    let many = (0..32).map(|qubit| qubit.to_string()).collect::<Vec<_>>().join(",");
    let lines = [
        "op=n ".to_owned(),
        format!("{NOISE} d=5 q=0"),
        format!("{NOISE} d=2 q=-"),
        format!("{NOISE} d=2 q={many}"),
        format!("{NOISE} d=3 n=02"),
        format!("{NOISE} d=3 n=18446744073709551616"),
        format!("{NOISE} d=1 x=0 z=-\r"),
        format!("{NOISE} d=1 x=0 z=- "),
        format!("{NOISE} d=1 size=1 x=0 z=-"),
        "op=n p=0.5 corr=- cond=- parity=0 d=1 x=0 z=-".to_owned(),
    ];
    let folder = folder("no_size");
    let out = folder.join("out");
    for line in lines {
        let job = format!("op=job qubits=1 outcomes=0 shots=1\n{NOISE} d=1 x=0 z=-\n{line}\nop=z q=0\n");
        let done = kundatrezo(["sizes".as_ref(), "-".as_ref(), "--output".as_ref(), out.as_os_str()], job.as_bytes());
        assert_eq!((done.status, done.stdout.as_slice()), (1, b"".as_slice()), "{line}");
        assert!(done.stderr.starts_with("the size of the noise at line 3 can't be told: op=n "), "{done:?}");
    }
    assert!(!out.exists());
}

#[test]
fn a_job_may_become_too_long() {
    let header = "op=job qubits=1 outcomes=0 shots=1\n";
    let noise = format!("{NOISE} d=1 x=0 z=-\n");
    let filled = |length: usize| {
        let mut job = format!("{header}{noise}");
        while job.len() + 18 <= length {
            job += "op=z q=0\n";
        }
        // the last line has the bytes that are left
        let rest = length - job.len() - "op=z q=\n".len();
        job + &format!("op=z q={}\n", "0".repeat(rest))
    };
    let most = 1_048_576 - " size=1".len();
    assert_eq!(added(filled(most).as_bytes()).stdout.len(), 1_048_576);
    for length in [most + 1, 1_048_576, 2_000_000] {
        let done = added(filled(length).as_bytes());
        let message = "with its sizes the job is longer than 1,048,576 bytes, the most it may have\n";
        assert_eq!(done, Done { status: 1, stdout: Vec::new(), stderr: message.into() });
    }
}
