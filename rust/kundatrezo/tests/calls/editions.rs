//! Jobs of the second edition, beside jobs of the first that say the same.

use kundatrezo::{Draws, Frames, Number, annotated, check, examine, keep_shots, locations, settled, split, walk};

const PARITY: &str = include_str!("../../../../examples/parity.job");

/// The job in lines of the first edition: ControlledY as three gates, single resets, no barriers.
fn in_first_edition(job: &str) -> String {
    let line = |line: &str| -> Vec<String> {
        if let Some(operands) = line.strip_prefix("op=u g=15 q=") {
            let (_, target) = operands.split_once(',').expect("two operands");
            let root = |code: u64| format!("op=u g={code} q={target}");
            return vec![root(6), format!("op=u g=11 q={operands}"), root(5)];
        }
        match line.strip_prefix("op=z q=") {
            Some(qubits) => qubits.split(',').map(|qubit| format!("op=z q={qubit}")).collect(),
            None if line.starts_with("op=b ") => Vec::new(),
            None => vec![line.replace("edition=2 ", "")],
        }
    };
    job.lines().flat_map(line).map(|line| line + "\n").collect()
}

fn run(job: &str) -> Frames {
    let words = examine(job.as_bytes()).expect("it passes").outcome_words();
    Frames::from_run(job.as_bytes(), &vec![0; words], Draws::default()).expect("it runs")
}

/// The parity circuit, with every Pauli on every qubit before and behind each of its lines, a shot each.
fn with_all_faults() -> String {
    let lines: Vec<&str> = PARITY.lines().filter(|line| !line.starts_with("op=i ")).collect();
    let shots = 9 * lines.len();
    let mut text = format!("{}\n", lines[0].replace("shots=4", &format!("shots={shots}")));
    for place in 0..lines.len() {
        for fault in 0..9 {
            let (shot, qubit) = (9 * place + fault, (fault / 3).to_string());
            let (x, z) = [(qubit.as_str(), "-"), ("-", &qubit), (&qubit, &qubit)][fault % 3];
            text += &format!("op=i shot={shot} x={x} z={z}\n");
        }
        text.extend(lines.get(place + 1).map(|line| format!("{line}\n")));
    }
    text
}

#[test]
fn lines_of_the_second_edition_do_what_their_parts_do() {
    let job = with_all_faults();
    let (second, first) = (run(&job), run(&in_first_edition(&job)));
    assert_eq!((second.x(), second.z(), second.deltas()), (first.x(), first.z(), first.deltas()));
    assert!(second.x().iter().chain(second.z()).any(|word| *word != 0));
    for shot in 0..second.job().shots as u64 {
        for set in [&[0][..], &[1], &[0, 1], &[0, 2], &[0, 1, 2]] {
            let sum = set.iter().fold(false, |sum, id| {
                sum ^ kundatrezo::bit(second.delta_row(usize::try_from(*id).expect("small")), shot as usize)
            });
            assert_eq!(walk(job.as_bytes(), shot, set), walk(in_first_edition(&job).as_bytes(), shot, set));
            assert_eq!(walk(job.as_bytes(), shot, set).map(|count| count % 2), Ok(u64::from(sum)));
        }
    }
}

#[test]
fn the_first_edition_has_none_of_them() {
    for (field, edition) in [("", 1), ("edition=1 ", 1), ("edition=2 ", 2)] {
        let header = format!("op=job {field}qubits=2 outcomes=0 shots=1\n");
        for line in ["op=u g=15 q=0,1", "op=b q=0", "op=z q=0,1"] {
            let answer = check(format!("{header}{line}\n").as_bytes()).map_err(|refusal| refusal.number);
            assert_eq!(answer, if edition == 2 { Ok(()) } else { Err(Number::FORM) }, "{header}{line}");
        }
        assert_eq!(check(format!("{header}op=z q=0\n").as_bytes()), Ok(()));
    }
}

/// Whatever writes a job copies its header with the field, or without it.
#[test]
fn headers_are_copied() {
    for field in ["", "edition=1 ", "edition=2 "] {
        let header = format!("op=job {field}qubits=2 outcomes=1 shots=2\n");
        let rest = "op=i shot=1 x=0 z=-\nop=u g=11 q=0,1\nop=o x=- z=1 id=0\n";
        let job = format!("{header}{rest}");
        let texts = [
            settled(job.as_bytes(), &[0], Draws::default()).expect("it settles"),
            annotated(job.as_bytes(), 0.5).expect("it fits"),
            keep_shots(job.as_bytes(), |shot| shot == 0).expect("it has no noise"),
        ];
        let parts = split(job.as_bytes(), 2).expect("it has no noise");
        for text in texts.into_iter().chain(parts.into_iter().map(|part| part.job)) {
            assert!(text.starts_with(header.as_bytes()));
            assert_eq!(check(&text), Ok(()));
        }
    }
}

#[test]
fn noise_and_locations_of_controlled_y_are_those_of_controlled_x() {
    let header = "op=job edition=2 qubits=3 outcomes=0 shots=1\n";
    let noise = "op=n p=3fe0000000000000 corr=- cond=- parity=0 d=2 q=2,0 size=15\n";
    for gate in ["op=u g=11 q=2,0\n", "op=u g=15 q=2,0\n"] {
        let job = format!("{header}{gate}op=b q=0,1\nop=z q=1,2\n");
        let expected = format!("{header}{gate}{noise}op=b q=0,1\nop=z q=1,2\n");
        assert_eq!(annotated(job.as_bytes(), 0.5), Ok(expected.into_bytes()));
        assert_eq!(locations(job.as_bytes()), Ok(4));
    }
}
