//! A job's shots split over several runs, and runs added.

use kundatrezo::{Draws, Frames, MAX_SHOTS, Number, Xorshift, bit, examine, keep_shots, settled, split};
use std::panic::catch_unwind;

const SYNDROME: &[u8] = include_bytes!("../../../../examples/syndrome.job");

fn run(job: &[u8]) -> Frames {
    let words = examine(job).expect("it passes").outcome_words();
    Frames::from_run(job, &vec![0; words], Draws::default()).expect("it runs")
}

fn rows(frames: &Frames) -> [&[u64]; 3] {
    [frames.x(), frames.z(), frames.deltas()]
}

/// The example with its noise settled, and with a conditional Pauli on each round's syndrome, so that a shot's faults act on each other.
fn settled_syndrome(shots: usize) -> Vec<u8> {
    let text = String::from_utf8(SYNDROME.to_vec()).expect("text");
    let text = text.replace("shots=64", &format!("shots={shots}"));
    let text = text.replace("id=1\n", "id=1\nop=f x=0,1 z=2 id=0,1 parity=1\n");
    let words: Vec<u64> = Xorshift::new(11).take(100 * shots).collect();
    let noiseless = vec![0; examine(text.as_bytes()).expect("it passes").outcome_words()];
    settled(text.as_bytes(), &noiseless, Draws::new(&words)).expect("it settles")
}

#[test]
fn parts_add_up_to_the_whole() {
    for shots in [1, 63, 64, 65, 200, MAX_SHOTS] {
        let job = settled_syndrome(shots);
        let whole = run(&job);
        assert!(shots < 60 || whole.deltas().iter().any(|word| *word != 0));
        for parts in [1, 2, 3, 7, 100] {
            let mut sum = Frames::new();
            let mut next = 0;
            for part in split(&job, parts).expect("it has no noise") {
                assert_eq!(part.shots.start, next);
                next = part.shots.end;
                assert!(part.shots.len().abs_diff(shots / parts) <= 1);
                let ran = run(&part.job);
                for (rows, all) in rows(&ran).iter().zip(rows(&whole)) {
                    let of_shots = |words: &[u64]| -> Vec<bool> {
                        words
                            .chunks(shots.div_ceil(64))
                            .flat_map(|row| part.shots.clone().map(|s| bit(row, s)))
                            .collect()
                    };
                    assert_eq!(of_shots(rows), of_shots(all), "shots {:?} of {shots}", part.shots);
                }
                sum ^= &ran;
            }
            assert_eq!(next, shots);
            assert_eq!(rows(&sum), rows(&whole), "{parts} parts of {shots}");
        }
    }
}

#[test]
fn a_part_keeps_all_other_lines() {
    let job = settled_syndrome(64);
    let kept = keep_shots(&job, |shot| shot % 3 == 1).expect("it has no noise");
    let line_is_kept = |line: &&str| match line.split_once("shot=") {
        Some((_, rest)) => rest.split(' ').next().expect("a field").parse::<usize>().expect("a number") % 3 == 1,
        None => true,
    };
    let text = String::from_utf8(job.clone()).expect("text");
    let lines: Vec<&str> = text.lines().filter(line_is_kept).collect();
    assert_eq!(String::from_utf8(kept).expect("text"), lines.join("\n") + "\n");
    assert_eq!(keep_shots(&job, |_| true).as_ref(), Ok(&job));
    let none = keep_shots(&job, |_| false).expect("it has no noise");
    assert!(rows(&run(&none)).iter().all(|rows| rows.iter().all(|word| *word == 0)));
}

#[test]
fn no_part_of_a_job_that_is_not_settled() {
    let refused = |job: &[u8]| {
        let refusal = split(job, 2).expect_err("it is refused");
        assert_eq!(keep_shots(job, |_| true), Err(refusal));
        (refusal.number, refusal.line)
    };
    assert_eq!(refused(SYNDROME), (Number::NOISE, 2));
    assert_eq!(refused(b""), (Number::LENGTH, 0));
    assert_eq!(refused(b"op=job qubits=1 outcomes=0 shots=1\nop=i shot=1 x=0 z=-\n"), (Number::SHOT, 2));
}

#[test]
fn frames_of_different_headers_are_not_added() {
    let frames = |header: &str| run(format!("op=job {header}\n").as_bytes());
    let one = frames("qubits=2 outcomes=1 shots=64");
    for other in ["qubits=1 outcomes=1 shots=64", "qubits=2 outcomes=2 shots=64", "qubits=2 outcomes=1 shots=63"] {
        let other = frames(other);
        let (mut sum, other) = (one.clone(), &other);
        assert!(catch_unwind(move || sum ^= other).is_err());
    }
    let mut sum = one.clone();
    sum ^= &one;
    assert_eq!(sum, one);
}
