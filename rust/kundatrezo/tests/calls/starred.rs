//! The ten cases that the specification marks, and its limits of shots.

use kundatrezo::{Draws, Frames, Number, check, walk};

const SESSION: &[u8] = include_bytes!("../../../../examples/bell.job");

/// The frame of qubit 0 as words of its X and Z rows, after a run of at most 64 shots without outcomes.
fn frame(job: &str, main: &[u64]) -> Result<(u64, u64), Number> {
    let frames = Frames::from_run(job.as_bytes(), &[], Draws::new(main));
    frames.map(|frames| (frames.x_row(0)[0], frames.z_row(0)[0])).map_err(|refusal| refusal.number)
}

#[test]
fn star_1_the_printed_session() {
    let frames = Frames::from_run(SESSION, &[0; 2], Draws::default()).expect("the session runs");
    assert_eq!(frames.deltas(), [0b010, 0b100]);
}

#[test]
fn star_2_the_sessions_walk() {
    assert_eq!(walk(SESSION, 1, &[0, 1]), Ok(1));
}

#[test]
fn stars_3_to_5_tables_of_one_qubit() {
    let after = |table: char, x: char, z: char| {
        let header = "op=job qubits=1 outcomes=0 shots=1";
        frame(&format!("{header}\nop=i shot=0 x={x} z={z}\nop=c q=0 t=000000000000000{table}\n"), &[])
    };
    let (x, z, y) = (Ok((1, 0)), Ok((0, 1)), Ok((1, 1)));
    assert_eq!((after('9', '0', '-'), after('9', '-', '0')), (x, z));
    assert_eq!((after('6', '0', '-'), after('6', '-', '0')), (z, x));
    assert_eq!((after('b', '0', '-'), after('b', '-', '0')), (y, z));
}

#[test]
fn stars_6_to_9_depolarizing_one_qubit() {
    let job = "op=job qubits=1 outcomes=0 shots=1\nop=n p=3ff0000000000000 corr=- cond=- parity=0 d=2 q=0 size=3\n";
    assert_eq!(frame(job, &[0, 0]), Ok((1, 0)));
    assert_eq!(frame(job, &[0, 1]), Ok((0, 1)));
    assert_eq!(frame(job, &[0, 2]), Ok((1, 1)));
    assert_eq!(frame(job, &[0, u64::MAX]), Err(Number::DRAWS));
    assert_eq!(frame(job, &[0, u64::MAX, 0]), Ok((1, 0)));
}

#[test]
fn star_10_a_conditional_absorbs() {
    let job = b"op=job qubits=1 outcomes=2 shots=1
op=i shot=0 x=0 z=-
op=o x=- z=0 id=0
op=f x=0 z=- id=0 parity=1
op=o x=- z=0 id=1
";
    let frames = Frames::from_run(job, &[0; 2], Draws::default()).expect("the job runs");
    assert_eq!(frames.deltas(), [1, 0]);
    assert_eq!(walk(job, 0, &[1]), Ok(0));
}

#[test]
fn p_just_above_one() {
    let job =
        |p: &str| format!("op=job qubits=1 outcomes=0 shots=1\nop=n p={p} corr=- cond=- parity=0 d=1 x=0 z=- size=1\n");
    assert_eq!(check(job("3ff0000000000000").as_bytes()), Ok(()));
    let refusal = check(job("3ff0000000000001").as_bytes()).expect_err("p is above 1");
    assert_eq!((refusal.number, refusal.line), (Number::PROBABILITY, 2));
}

#[test]
fn shots_around_a_word_and_the_most() {
    for (shots, last) in [(63, u64::MAX >> 1), (64, u64::MAX), (65, 1), (4096, u64::MAX)] {
        let noise = "op=n p=3ff0000000000000 corr=- cond=- parity=0 d=1 x=0 z=- size=1";
        let job = format!("op=job qubits=1 outcomes=0 shots={shots}\n{noise}\n");
        let words = vec![u64::MAX; shots];
        let mut frames = Frames::new();
        assert_eq!(frames.run(job.as_bytes(), &[], Draws::new(&words)), Ok(()));
        let (end, before) = frames.x_row(0).split_last().expect("a row has words");
        assert_eq!((*end, before.len()), (last, (shots - 1) / 64));
        assert!(before.iter().all(|word| *word == u64::MAX));
        // one word less is one draw too few, and leaves nothing of the run before
        let short = Draws::new(&words[1..]);
        assert_eq!(frames.run(job.as_bytes(), &[], short).map_err(|refusal| refusal.number), Err(Number::DRAWS));
        assert!(frames.x().iter().all(|word| *word == 0));
    }
}
