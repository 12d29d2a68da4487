//! The starred cases of document 01.

use checker::calls::{Answer, Calls, Draws, Rows};
use checker::plain::Plain;

const SESSION: &str = "\
op=job qubits=2 outcomes=2 shots=3
op=u g=4 q=0
op=u g=11 q=0,1
op=i shot=1 x=0 z=-
op=o x=- z=0 id=0
op=o x=- z=1 id=1
op=t shot=2 id=1
";

/// The frames of qubit 0 and the deltas after a run with at most 64 shots and one qubit, and how the run answered.
fn run(job: &str, main: &[u64]) -> (Answer, u64, u64, Vec<u64>) {
    let (mut frames_x, mut frames_z, mut deltas) = ([7], [7], [7; 2]);
    let draws = Draws { base: 0, main, second: &[] };
    let rows = Rows { frames_x: &mut frames_x, frames_z: &mut frames_z, deltas: &mut deltas, totals: None };
    let answer = Plain.run(job.as_bytes(), draws, &[0; 2], rows);
    (answer, frames_x[0], frames_z[0], deltas.to_vec())
}

#[test]
fn star_1_the_printed_session() {
    let printed = Plain.print(SESSION.as_bytes()).expect("a printing program");
    let expected = "ok=1 qubits=2 outcomes=2 shots=3\nid=0 delta=010\nid=1 delta=001\n";
    assert_eq!(String::from_utf8(printed).as_deref(), Ok(expected));
}

#[test]
fn star_2_the_sessions_walk() {
    assert_eq!(Plain.walk(SESSION.as_bytes(), 1, &[0, 1]), Answer::success(1));
}

#[test]
fn stars_3_to_5_tables_of_one_qubit() {
    let after = |table: &str, x: &str, z: &str| {
        let job =
            format!("op=job qubits=1 outcomes=0 shots=1\nop=i shot=0 x={x} z={z}\nop=c q=0 t=000000000000000{table}\n");
        let (answer, x, z, _) = run(&job, &[]);
        assert_eq!(answer, Answer::default());
        (x, z)
    };
    assert_eq!((after("9", "0", "-"), after("9", "-", "0")), ((1, 0), (0, 1)));
    assert_eq!((after("6", "0", "-"), after("6", "-", "0")), ((0, 1), (1, 0)));
    assert_eq!((after("b", "0", "-"), after("b", "-", "0")), ((1, 1), (0, 1)));
}

#[test]
fn stars_6_to_9_depolarizing_one_qubit() {
    let job = "op=job qubits=1 outcomes=0 shots=1\nop=n p=3ff0000000000000 corr=- cond=- parity=0 d=2 q=0 size=3\n";
    let drawn = |words: &[u64]| {
        let (answer, x, z, _) = run(job, words);
        (answer.number, x, z)
    };
    assert_eq!(drawn(&[0, 0]), (0, 1, 0));
    assert_eq!(drawn(&[0, 1]), (0, 0, 1));
    assert_eq!(drawn(&[0, 2]), (0, 1, 1));
    assert_eq!(drawn(&[0, u64::MAX]), (14, 0, 0));
    assert_eq!(drawn(&[0, u64::MAX, 0]), (0, 1, 0));
}

#[test]
fn star_10_a_conditional_absorbs() {
    let job = "\
op=job qubits=1 outcomes=2 shots=1
op=i shot=0 x=0 z=-
op=o x=- z=0 id=0
op=f x=0 z=- id=0 parity=1
op=o x=- z=0 id=1
";
    let (answer, _, _, deltas) = run(job, &[]);
    assert_eq!(answer, Answer::default());
    assert_eq!(deltas, [1, 0]);
    assert_eq!(Plain.walk(job.as_bytes(), 0, &[1]), Answer::success(0));
}
