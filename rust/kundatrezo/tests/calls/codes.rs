//! Clifford lines of five qubits and more: encoders of small codes as one line, with the syndromes of all faults of one qubit.

use kundatrezo::{Draws, Frames, MAX_CLIFFORD_QUBITS, Number, Xorshift, bit, clifford_line, examine, walk};

const FIVE_QUBIT_CODE: &str = include_str!("../../../../examples/five_qubit_code.job");

/// A code by an encoder: Z on a place from 1 on goes to a stabilizer, X on it to a Pauli that anticommutes with this one alone, and X and Z on place 0 to
/// the logical ones.
struct Code {
    x_images: &'static [&'static str],
    z_images: &'static [&'static str],
}

const FIVE: Code = Code {
    x_images: &["XXXXX", "IIIYY", "YIIYI", "IYIYI", "IIYYI"],
    z_images: &["ZZZZZ", "XZZXI", "IXZZX", "XIXZZ", "ZXIXZ"],
};

const STEANE: Code = Code {
    x_images: &["XXXXXXX", "IZIIIZI", "ZIZIIII", "IIIZZII", "IXIIIXI", "XIXIIII", "IIIXXII"],
    z_images: &["ZZZZZZZ", "IIIXXXX", "IXXIIXX", "XIXIXIX", "IIIZZZZ", "IZZIIZZ", "ZIZIZIZ"],
};

impl Code {
    fn stabilizers(&self) -> &[&str] {
        &self.z_images[1..]
    }

    /// Which stabilizers a fault anticommutes with, letter by letter.
    fn syndrome(&self, fault: &str) -> Vec<bool> {
        self.stabilizers().iter().map(|stabilizer| anticommute(fault, stabilizer)).collect()
    }
}

/// Two Paulis anticommute if they have different letters on an odd number of qubits, those with an I not counted.
fn anticommute(one: &str, other: &str) -> bool {
    let meets = |(one, other): &(char, char)| one != other && *one != 'I' && *other != 'I';
    one.chars().zip(other.chars()).filter(meets).count() % 2 == 1
}

/// The Paulis of one letter.
fn single_faults(qubits: usize) -> impl Iterator<Item = String> {
    let fault = move |(qubit, letter): (usize, char)| {
        (0..qubits).map(|place| if place == qubit { letter } else { 'I' }).collect::<String>()
    };
    (0..qubits).flat_map(|qubit| "XYZ".chars().map(move |letter| (qubit, letter))).map(fault)
}

/// The fields of a Pauli on some qubits.
fn parts(pauli: &str, qubits: &[usize]) -> String {
    let list = |letters: &str| {
        let has = |place: &usize| letters.contains(pauli.as_bytes()[*place] as char);
        let mut members: Vec<usize> = (0..qubits.len()).filter(has).map(|place| qubits[place]).collect();
        members.sort_unstable();
        let members: Vec<String> = members.iter().map(usize::to_string).collect();
        if members.is_empty() { "-".to_owned() } else { members.join(",") }
    };
    format!("x={} z={}", list("XY"), list("ZY"))
}

fn run(job: &str) -> Frames {
    let words = examine(job.as_bytes()).expect("it passes").outcome_words();
    Frames::from_run(job.as_bytes(), &vec![0; words], Draws::default()).expect("it runs")
}

/// Shot s of some outcomes, and that the walk finds the same.
fn outcomes(job: &str, frames: &Frames, ids: std::ops::Range<usize>, shot: usize) -> Vec<bool> {
    let deltas: Vec<bool> = ids.clone().map(|id| bit(frames.delta_row(id), shot)).collect();
    for (id, delta) in ids.zip(&deltas) {
        let count = walk(job.as_bytes(), shot as u64, &[id as u64]).expect("a job without noise");
        assert_eq!(count % 2 == 1, *delta, "outcome {id}, shot {shot}");
    }
    deltas
}

/// A code's job: faults of the places before the encoder, all faults of one qubit behind it, and the measured stabilizers. The shots are those of the single
/// faults from 1 on, then those of X on a place each, then those of Z.
fn code_job(code: &Code, qubits: &[usize]) -> String {
    let count = qubits.len();
    let faults: Vec<String> = single_faults(count).collect();
    let shots = 1 + faults.len() + 2 * count;
    let mut job = format!("op=job qubits=30 outcomes={} shots={shots}\n", count - 1);
    for (place, qubit) in qubits.iter().enumerate() {
        let shot = 1 + faults.len() + place;
        job += &format!("op=i shot={shot} x={qubit} z=-\nop=i shot={} x=- z={qubit}\n", shot + count);
    }
    job += &clifford_line(qubits, code.x_images, code.z_images).expect("an encoder");
    job += "\n";
    for (place, fault) in faults.iter().enumerate() {
        job += &format!("op=i shot={} {}\n", 1 + place, parts(fault, qubits));
    }
    for (id, stabilizer) in code.stabilizers().iter().enumerate() {
        job += &format!("op=o {} id={id}\n", parts(stabilizer, qubits));
    }
    job
}

fn syndromes(code: &Code, qubits: &[usize]) {
    let count = qubits.len();
    let job = code_job(code, qubits);
    let frames = run(&job);
    let syndrome = |shot| outcomes(&job, &frames, 0..count - 1, shot);
    let nothing = vec![false; count - 1];
    assert_eq!(syndrome(0), nothing);
    let mut shot = 1;
    for fault in single_faults(count) {
        assert_eq!(syndrome(shot), code.syndrome(&fault), "{fault}");
        assert_ne!(syndrome(shot), nothing, "{fault}");
        shot += 1;
    }
    // Before the encoder X on a place flips its stabilizer alone, and Z, like a logical Pauli, none.
    for place in 0..count {
        let flipped: Vec<bool> = (1..count).map(|stabilizer| stabilizer == place).collect();
        assert_eq!(syndrome(shot + place), flipped, "X on place {place}");
        assert_eq!(syndrome(shot + count + place), nothing, "Z on place {place}");
    }
}

#[test]
fn five_qubit_code() {
    syndromes(&FIVE, &[0, 1, 2, 3, 4]);
    syndromes(&FIVE, &[17, 3, 29, 0, 8]);
    // The code is perfect: each fault of one qubit has a syndrome of its own, and no syndrome is left.
    let mut all: Vec<Vec<bool>> = single_faults(5).map(|fault| FIVE.syndrome(&fault)).collect();
    all.sort();
    all.dedup();
    assert_eq!(all.len(), 15);
}

#[test]
fn steanes_code() {
    syndromes(&STEANE, &[0, 1, 2, 3, 4, 5, 6]);
    syndromes(&STEANE, &[6, 11, 2, 25, 4, 1, 0]);
    // The checks of one kind spell the number of the faulty qubit, counted from 1, in binary.
    for (place, fault) in single_faults(7).filter(|fault| fault.contains('X')).enumerate() {
        let number = STEANE.syndrome(&fault)[3..].iter().fold(0, |number, bit| number << 1 | usize::from(*bit));
        assert_eq!(number, place + 1, "{fault}");
    }
}

/// The example's encoder and decoder, and its outcomes: the stabilizers behind the faults, and the ancillas behind the decoder.
#[test]
fn five_qubit_example() {
    let qubits = [0, 1, 2, 3, 4];
    let encoder = clifford_line(&qubits, FIVE.x_images, FIVE.z_images).expect("an encoder");
    let lines: Vec<&str> = FIVE_QUBIT_CODE.lines().filter(|line| line.starts_with("op=c ")).collect();
    assert_eq!((lines.len(), lines[0]), (2, encoder.as_str()));
    let there_and_back = format!("{}\n{}\n", lines[0], lines[1]);
    assert_eq!(images(&there_and_back, &qubits), images("", &qubits), "the second line undoes the first");

    let frames = run(FIVE_QUBIT_CODE);
    let faults: Vec<String> = single_faults(5).collect();
    for shot in 0..20 {
        let expected = match shot {
            0 => vec![false; 4],
            1..=15 => FIVE.syndrome(&faults[shot - 1]),
            _ => (16..20).map(|ancilla| ancilla == shot).collect(),
        };
        assert_eq!(outcomes(FIVE_QUBIT_CODE, &frames, 0..4, shot), expected, "stabilizers, shot {shot}");
        assert_eq!(outcomes(FIVE_QUBIT_CODE, &frames, 4..8, shot), expected, "ancillas, shot {shot}");
    }
}

/// What lines make of X and of Z on each of some qubits of 30, as letters on these qubits.
fn images(lines: &str, qubits: &[usize]) -> [Vec<String>; 2] {
    let count = qubits.len();
    let mut job = format!("op=job qubits=30 outcomes=0 shots={}\n", 2 * count);
    for (place, qubit) in qubits.iter().enumerate() {
        job += &format!("op=i shot={place} x={qubit} z=-\nop=i shot={} x=- z={qubit}\n", count + place);
    }
    let frames = run(&(job + lines));
    let letter = |shot: usize, qubit: &usize| match (bit(frames.x_row(*qubit), shot), bit(frames.z_row(*qubit), shot)) {
        (false, false) => 'I',
        (true, false) => 'X',
        (true, true) => 'Y',
        (false, true) => 'Z',
    };
    let image = |shot: usize| qubits.iter().map(|qubit| letter(shot, qubit)).collect::<String>();
    [0, count].map(|first| (first..first + count).map(image).collect())
}

fn letters(images: &[String]) -> Vec<&str> {
    images.iter().map(String::as_str).collect()
}

/// Gates of every kind on some qubits, at random.
fn gates(random: &mut Xorshift, qubits: &[usize]) -> String {
    let mut lines = String::new();
    for word in random.take(12 * qubits.len()) {
        let (code, first, second) = (word % 15, word >> 8 & 0xff, word >> 16 & 0xff);
        let at = |place: u64| place as usize % qubits.len();
        match (code, at(first), at(second)) {
            (..=10, first, _) => lines += &format!("op=u g={code} q={}\n", qubits[first]),
            (_, first, second) if first != second => {
                lines += &format!("op=u g={code} q={},{}\n", qubits[first], qubits[second]);
            }
            _ => {}
        }
    }
    lines
}

/// Some gates and the one line of what they make of X and Z do the same.
#[test]
fn gates_as_one_line_of_every_width() {
    let random = &mut Xorshift::new(12);
    for count in 1..=MAX_CLIFFORD_QUBITS {
        for _ in 0..20 {
            let qubits: Vec<usize> = (0..count).map(|place| (7 * place + 3) % 30).collect();
            let gates = gates(random, &qubits);
            let made = images(&gates, &qubits);
            let [x, z] = made.each_ref().map(|all| letters(all));
            let line = clifford_line(&qubits, &x, &z).expect("gates make a Clifford");
            assert_eq!(images(&format!("{line}\n"), &qubits), made, "{gates}{line}");
        }
    }
}

#[test]
fn lines_that_are_none() {
    let line = |qubits: &[usize], x: &[&str], z: &[&str]| clifford_line(qubits, x, z);
    assert_eq!(line(&[], &[], &[]), Err(Number::FORM));
    assert_eq!(line(&[0], &["X"], &[]), Err(Number::FORM));
    assert_eq!(line(&[0], &["x"], &["Z"]), Err(Number::FORM));
    assert_eq!(line(&[0, 1], &["XI", "IXI"], &["ZI", "I"]), Err(Number::FORM));
    assert_eq!(line(&[256], &["X"], &["Z"]), Err(Number::QUBIT));
    assert_eq!(line(&[3, 3], &["XI", "IX"], &["ZI", "IZ"]), Err(Number::OPERANDS));
    assert_eq!(line(&[0, 1], &["XI", "IX"], &["ZZ", "IZ"]), Err(Number::CLIFFORD));
    let identity = |letter: char, count: usize| -> Vec<String> {
        (0..count).map(|row| (0..count).map(|place| if place == row { letter } else { 'I' }).collect()).collect()
    };
    for count in [8, 9] {
        let (x, z) = (identity('X', count), identity('Z', count));
        let made = line(&(0..count).collect::<Vec<_>>(), &letters(&x), &letters(&z));
        assert_eq!(made.err(), (count > MAX_CLIFFORD_QUBITS).then_some(Number::OPERANDS));
    }
}
