//! Every refusal number, what a refusal leaves in lent memory, and that each parameter of a call arrives where it belongs.

use kundatrezo::{
    Draws, Frames, MAX_BYTES, Number, Refusal, Rows, annotate, annotated, check, correlation, examine, fault_table,
    locations, run, settle, settled, walk,
};

const HEADER: &str = "op=job qubits=2 outcomes=1 shots=1\n";
const ONE: &str = "3ff0000000000000";

/// The number and line of a refusal, with every figure but settling's 15 found to be 0.
fn refused<T: std::fmt::Debug>(answer: Result<T, Refusal>) -> (u64, u64) {
    let refusal = answer.expect_err("the call refuses");
    assert!(refusal.bytes_needed == 0 || refusal.number == Number::ROOM);
    (refusal.number.get(), refusal.line)
}

/// Lines after a header.
fn job(lines: &str) -> Vec<u8> {
    format!("{HEADER}{lines}\n").into_bytes()
}

#[test]
fn numbers_of_the_checks() {
    let noise = |p: &str, kind: &str| format!("op=n p={p} corr=- cond=- parity=0 {kind}");
    let cases = [
        (HEADER.trim_end().as_bytes().to_vec(), (1, 0)),
        (b"\xff\n".to_vec(), (2, 1)),
        (job("op=u g=15 q=0"), (2, 2)),
        (job(HEADER.trim_end()), (3, 2)),
        (job("op=z q=0\nop=z q=2"), (4, 3)),
        (job("op=u g=11 q=1,1"), (5, 2)),
        (job("op=m s=0,0 q=0,1"), (6, 2)),
        (job("op=c q=0 t=0000000000000001"), (7, 2)),
        (job("op=o x=- z=0 id=1"), (8, 2)),
        (job("op=t shot=0 id=0"), (9, 2)),
        (job("op=i shot=1 x=- z=-"), (10, 2)),
        (job(&noise("7ff8000000000000", "d=1 x=- z=- size=1")), (11, 2)),
        (job(&noise(ONE, "d=4 n=1 size=1\nw=0000000000000000 x=- z=-")), (12, 3)),
        (job("op=k x=0 z=- u=- v=0"), (20, 2)),
        (job(&noise(ONE, "d=2 q=0,1 size=16")), (21, 2)),
        (HEADER.replace("qubits", "edition=3 qubits").into_bytes(), (23, 1)),
    ];
    for (job, expected) in &cases {
        // every call makes these tests, and makes them first
        let short = Draws::default();
        let rows = Rows::new(&mut [], &mut [], &mut []);
        assert_eq!(refused(check(job)), *expected);
        assert_eq!(refused(examine(job)), *expected);
        assert_eq!(refused(run(job, rows, &[], short)), *expected);
        assert_eq!(refused(settle(job, &[], short, &mut [])), *expected);
        assert_eq!(refused(walk(job, u64::MAX, &[1, 1])), *expected);
        assert_eq!(refused(annotate(job, f64::NAN, &mut [])), *expected);
        assert_eq!(refused(locations(job)), *expected);
        assert_eq!(refused(correlation(job)), *expected);
        assert_eq!(refused(fault_table(job, &[])), *expected);
    }
    let seen: Vec<u64> = cases.iter().map(|(_, (number, _))| *number).collect();
    assert!((1..=12).chain([20, 21, 23]).all(|number| seen.contains(&number)));
}

#[test]
fn numbers_of_the_calls() {
    let fault = |corr: &str, kind: &str| format!("op=n p={ONE} corr={corr} cond=- parity=0 {kind}");
    let none = Draws::default();
    let noisy = job(&format!("op=z q=0\n{}", fault("-", "d=1 x=0 z=- size=1")));
    assert_eq!(refused(Frames::from_run(&noisy, &[], none)), (13, 0));
    assert_eq!(refused(Frames::from_run(&noisy, &[0], none)), (14, 3));
    assert_eq!(refused(settled(&noisy, &[], none)), (13, 0));
    assert_eq!(refused(settled(&noisy, &[0], none)), (14, 3));
    assert_eq!(refused(settle(&noisy, &[0], Draws::new(&[0]), &mut [0; 60])), (15, 0));
    assert_eq!(refused(annotate(&job("op=u g=4 q=0"), 0.5, &mut [0; 60])), (15, 0));
    assert_eq!(refused(walk(&noisy, 0, &[])), (16, 3));
    assert_eq!(refused(walk(&noisy, 1, &[])), (17, 0));
    assert_eq!(refused(walk(&job("op=r id=0 angle=0"), 0, &[0, 0])), (17, 0));
    assert_eq!(refused(walk(&job("op=z q=0"), 0, &[0])), (17, 0));
    assert_eq!(refused(annotated(&noisy, 1.5)), (11, 0));
    let many = (0..31).map(|qubit| qubit.to_string()).collect::<Vec<_>>().join(",");
    let wide = format!("op=job qubits=32 outcomes=0 shots=1\nop=p x=31 z={many}\n");
    assert_eq!(refused(annotated(wide.as_bytes(), 0.5)), (18, 2));
    let sizes = format!("{}\n{}", fault("3", "d=1 x=- z=- size=1"), fault("3", "d=2 q=0 size=3"));
    assert_eq!(refused(correlation(&job(&sizes))), (19, 3));
    assert_eq!(correlation(&noisy), Ok(()));
    assert_eq!(refused(fault_table(&noisy, &[vec![0]])), (17, 0));
    assert_eq!(refused(fault_table(&noisy, &[])), (24, 0));
}

#[test]
fn refusals_leave_lent_memory() {
    let noisy = job(&format!("op=i shot=0 x=0 z=1\nop=n p={ONE} corr=- cond=- parity=0 d=1 x=0 z=- size=1"));
    let lend = |x: usize, noiseless: &[u64], main: &[u64]| {
        let (mut xs, mut z, mut deltas) = (vec![7; x], [7; 3], [7; 2]);
        let rows = Rows::new(&mut xs, &mut z, &mut deltas);
        let answer = run(&noisy, rows, noiseless, Draws::new(main));
        (answer.map_err(|refusal| refusal.number), xs, z, deltas)
    };
    assert_eq!(lend(1, &[0], &[0]), (Err(Number::WORDS), vec![7], [7; 3], [7; 2]));
    assert_eq!(lend(2, &[], &[0]), (Err(Number::WORDS), vec![7; 2], [7; 3], [7; 2]));
    // spent draws leave the needed words zero, and no others are touched
    assert_eq!(lend(3, &[0], &[]), (Err(Number::DRAWS), vec![0, 0, 7], [0, 0, 7], [0, 7]));
    assert_eq!(lend(3, &[0], &[0]), (Ok(()), vec![0, 0, 7], [0, 1, 7], [0, 7]));

    let mut out = [7; 60];
    let draws = Draws::new(&[0]);
    let refusal = settle(&noisy, &[0], draws, &mut out).expect_err("the text is longer");
    assert_eq!(refusal.number, Number::ROOM);
    assert_eq!(refusal.bytes_needed, settled(&noisy, &[0], draws).expect("there is room").len() as u64);
    assert_eq!(out, [7; 60]);
}

/// Settling's figure is the size of the settled text, above 2^32 bytes too: Y on 31 qubits in every shot of each noise line.
#[test]
fn the_figure_of_a_text_above_32_bits() {
    const LINES: usize = 3960;
    const SHOTS: u64 = 4096;
    let qubits = (100..131).map(|qubit| qubit.to_string()).collect::<Vec<_>>().join(",");
    let header = format!("op=job qubits=131 outcomes=0 shots={SHOTS}\n");
    let size = 4u64.pow(31) - 1;
    let noise = format!("op=n p={ONE} corr=0 cond=- parity=0 d=2 q={qubits} size={size}\n");
    let words = [0, size - 1].repeat(SHOTS as usize);
    let draws = Draws::default().with_second(&words, 0);
    let job = header.clone() + &noise.repeat(LINES);
    let refusal = settle(job.as_bytes(), &[], draws, &mut []).expect_err("the text is longer");
    assert_eq!(refusal.number, Number::ROOM);
    let injections: usize = (0..SHOTS).map(|shot| format!("op=i shot={shot} x={qubits} z={qubits}\n").len()).sum();
    assert_eq!(refusal.bytes_needed, (header.len() + LINES * injections) as u64);
    assert!(refusal.bytes_needed > 1 << 32);
}

/// Noise by condition and correlation tells noiseless bits, the main list, the second one and the base apart.
#[test]
fn parameters_arrive() {
    let job = format!(
        "op=job qubits=2 outcomes=3 shots=2
op=r id=0 angle=0
op=r id=1 angle=0
op=n p={ONE} corr=- cond=1 parity=1 d=2 q=0 size=3
op=n p={ONE} corr=1 cond=- parity=0 d=2 q=1 size=3
op=o x=0 z=- id=2
"
    );
    let job = job.as_bytes();
    // The first noise line falls in shot 1 alone, by the bits of outcome 1, and draws Y there; the second draws X in shot 0 and Z in shot 1, from
    // place 4 + 1 of the second list.
    let noiseless = [0b01, 0b10, 0b11];
    let draws = Draws::new(&[9, 9, 2]).with_second(&[2, 2, 2, 2, 2, 9, 0, 9, 1], 4);
    let frames = Frames::from_run(job, &noiseless, draws).expect("the job runs");
    assert_eq!(Ok(frames.job()), examine(job));
    let numbers = frames.job();
    assert_eq!((numbers.qubits, numbers.outcomes, numbers.shots), (2, 3, 2));
    assert_eq!((numbers.recorded, numbers.lines), (3, 6));
    let used = draws.words_read(job, &noiseless).expect("the job settles");
    assert_eq!((used.main, used.second), (3, 9));
    assert_eq!((frames.x(), frames.z()), ([0b10, 0b01].as_slice(), [0b10, 0b10].as_slice()));
    assert_eq!((frames.deltas(), frames.delta_row(2)), ([0, 0, 0b10].as_slice(), [0b10].as_slice()));

    let text = settled(job, &noiseless, draws).expect("the job settles");
    let injections: Vec<&[u8]> = text.split(|byte| *byte == b'\n').filter(|line| line.starts_with(b"op=i")).collect();
    let expected = ["op=i shot=1 x=0 z=0", "op=i shot=0 x=1 z=-", "op=i shot=1 x=- z=1"];
    assert_eq!(injections, expected.map(str::as_bytes));
    let again = Frames::from_run(&text, &noiseless, Draws::default()).expect("the settled job runs");
    assert_eq!((again.x(), again.z(), again.deltas()), (frames.x(), frames.z(), frames.deltas()));
    assert_eq!((walk(&text, 0, &[2]), walk(&text, 1, &[2]), walk(&text, 1, &[])), (Ok(0), Ok(1), Ok(0)));
    assert_eq!(locations(job), Ok(2));
    // the base wraps, and a place past the second list is 14
    let wrapped = draws.with_second(&draws.second[5..], u64::MAX);
    assert_eq!(settled(job, &noiseless, wrapped), Ok(text));
    assert_eq!(refused(settled(job, &noiseless, draws.with_second(draws.second, 5))), (14, 5));
}

#[test]
fn the_longest_job() {
    let (header, line) = ("op=job qubits=1 outcomes=0 shots=1\n", "op=p x=- z=-\n");
    let lines = (MAX_BYTES - header.len()) / line.len();
    let mut job = format!("{header}{}", line.repeat(lines)).into_bytes();
    assert_eq!(job.len(), MAX_BYTES);
    assert_eq!(check(&job), Ok(()));
    assert_eq!(settled(&job, &[], Draws::default()).as_ref(), Ok(&job));
    job.push(b'\n');
    assert_eq!(refused(check(&job)), (1, 0));
    // a text beyond the limit, however many bytes are lent
    let gates = format!("{header}{}", "op=u g=4 q=0\n".repeat(20_000));
    assert_eq!(refused(annotate(gates.as_bytes(), 0.5, &mut vec![0; 2 * MAX_BYTES])), (15, 0));
}
