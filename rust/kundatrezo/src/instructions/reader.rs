//! Reads jobs that the engine has accepted: every line has its form, so that the order of its fields says what each value is.

use super::{
    Circuit, Gate, Header, Instruction, Noise, OutcomeCondition, PauliDistribution, SparsePauli, WeightedPauli,
};
use crate::size;

pub(super) fn read(job: &[u8]) -> Circuit {
    let text = job.strip_suffix(b"\n").unwrap_or(job);
    let mut lines = text.split(|byte| *byte == b'\n').map(Values);
    let header = lines.next().map(header).expect("a job has a header");
    let mut instructions = Vec::with_capacity(count(text, b'\n'));
    while let Some(line) = lines.next() {
        instructions.push(instruction(line, &mut lines));
    }
    Circuit { header, instructions }
}

fn header(mut line: Values<'_>) -> Header {
    let has_edition = line.0.starts_with(b"op=job edition=");
    line.next();
    let edition = has_edition.then(|| line.number());
    Header { edition, qubits: line.index(), outcomes: line.index(), shots: line.index() }
}

/// The instruction that begins with a line. Noise takes its elements from the lines that follow.
fn instruction<'a>(mut line: Values<'a>, following: &mut impl Iterator<Item = Values<'a>>) -> Instruction {
    match line.next() {
        b"u" => Instruction::Unitary { gate: line.gate(), qubits: line.list() },
        b"c" => Instruction::Clifford { qubits: line.list(), table: line.words() },
        b"p" => Instruction::Pauli(line.pauli()),
        b"e" => Instruction::PauliExp(line.pauli()),
        b"k" => Instruction::ControlledPauli { control: line.pauli(), target: line.pauli() },
        b"m" => Instruction::Permute { places: line.list(), qubits: line.list() },
        b"o" => Instruction::Measure { observable: line.pauli(), outcome: line.index() },
        b"r" => Instruction::Allocate { outcome: line.index(), is_angle: line.bit() },
        b"f" => Instruction::ConditionalPauli { pauli: line.pauli(), outcomes: line.list(), parity: line.bit() },
        b"z" => Instruction::Reset { qubits: line.list() },
        b"b" => Instruction::Barrier { qubits: line.list() },
        b"i" => Instruction::Inject { shot: line.index(), pauli: line.pauli() },
        b"t" => Instruction::Flip { shot: line.index(), outcome: line.index() },
        b"n" => Instruction::Noise(noise(line, following)),
        other => unreachable!("the engine accepts no line op={}", String::from_utf8_lossy(other)),
    }
}

fn noise<'a>(mut line: Values<'a>, following: &mut impl Iterator<Item = Values<'a>>) -> Noise {
    let probability = f64::from_bits(line.word());
    let correlation = line.optional_number();
    let condition = OutcomeCondition { outcomes: line.list(), parity: line.bit() };
    let distribution = match line.next() {
        b"1" => PauliDistribution::Single(line.pauli()),
        b"2" => PauliDistribution::Depolarizing(line.list()),
        b"3" => PauliDistribution::Uniform(following.take(line.index()).map(|mut line| line.pauli()).collect()),
        _ => PauliDistribution::Weighted(following.take(line.index()).map(weighted).collect()),
    };
    let condition = Some(condition).filter(|condition| !condition.outcomes.is_empty());
    Noise { probability, correlation, condition, distribution }
}

fn weighted(mut line: Values<'_>) -> WeightedPauli {
    WeightedPauli { weight: f64::from_bits(line.word()), pauli: line.pauli() }
}

/// The values of the fields of a line, from the next one on.
struct Values<'a>(&'a [u8]);

impl<'a> Values<'a> {
    /// The next value as it is written.
    fn next(&mut self) -> &'a [u8] {
        let start = self.0.iter().position(|byte| *byte == b'=').map_or(self.0.len(), |place| place + 1);
        let rest = &self.0[start..];
        let end = rest.iter().position(|byte| *byte == b' ').unwrap_or(rest.len());
        self.0 = &rest[end..];
        &rest[..end]
    }

    fn number(&mut self) -> u64 {
        number(self.next())
    }

    /// The number of a qubit, an outcome or a shot, or a count of them.
    fn index(&mut self) -> usize {
        size(self.number())
    }

    fn bit(&mut self) -> bool {
        self.next() == b"1"
    }

    fn gate(&mut self) -> Gate {
        Gate::from_code(self.number()).expect("the engine accepts the codes of gates alone")
    }

    fn optional_number(&mut self) -> Option<u64> {
        let value = self.next();
        (value != b"-").then(|| number(value))
    }

    fn word(&mut self) -> u64 {
        word(self.next())
    }

    fn words(&mut self) -> Vec<u64> {
        self.next().split(|byte| *byte == b',').map(word).collect()
    }

    fn list(&mut self) -> Vec<usize> {
        let value = self.next();
        if value == b"-" {
            return Vec::new();
        }
        let mut list = Vec::with_capacity(1 + count(value, b','));
        list.extend(value.split(|byte| *byte == b',').map(|digits| size(number(digits))));
        list
    }

    fn pauli(&mut self) -> SparsePauli {
        SparsePauli { x: self.list(), z: self.list() }
    }
}

/// How often a byte occurs.
fn count(bytes: &[u8], wanted: u8) -> usize {
    bytes.iter().map(|byte| usize::from(*byte == wanted)).sum()
}

/// The number of decimal digits.
fn number(digits: &[u8]) -> u64 {
    digits.iter().fold(0, |number, digit| 10 * number + u64::from(digit - b'0'))
}

/// The word of hexadecimal digits.
fn word(digits: &[u8]) -> u64 {
    let value = |digit: u8| if digit <= b'9' { digit - b'0' } else { digit - b'a' + 10 };
    digits.iter().fold(0, |word, digit| word << 4 | u64::from(value(*digit)))
}
