//! Writes jobs, by the templates of the forms.

use super::{Form, Header, Instruction, Noise, PauliDistribution, SparsePauli};
use std::fmt;

/// The job of a header and instructions.
pub(crate) fn write_job<'a>(header: &Header, instructions: impl IntoIterator<Item = &'a Instruction>) -> Vec<u8> {
    let mut text = String::new();
    header.write(&mut text);
    for instruction in instructions {
        text.push('\n');
        instruction.write(&mut text);
    }
    text.push('\n');
    text.into_bytes()
}

/// A value of a line.
#[derive(Clone, Copy)]
enum Value<'a> {
    Number(u64),
    /// 16 hexadecimal digits.
    Word(u64),
    Words(&'a [u64]),
    /// `-` if it is empty.
    List(&'a [usize]),
}

impl From<usize> for Value<'_> {
    fn from(number: usize) -> Self {
        Self::Number(number as u64)
    }
}

impl From<bool> for Value<'_> {
    fn from(bit: bool) -> Self {
        Self::Number(u64::from(bit))
    }
}

impl Value<'_> {
    fn write(self, text: &mut String) {
        match self {
            Self::Number(number) => push_digits(text, number, 10, 1),
            Self::Word(word) => push_digits(text, word, 16, 16),
            Self::Words(words) => separated(text, words, |text, word| Value::Word(*word).write(text)),
            Self::List([]) => text.push('-'),
            Self::List(numbers) => separated(text, numbers, |text, number| Value::from(*number).write(text)),
        }
    }
}

/// Write a number in a base, with a least number of digits. Much faster than `write!`, and jobs are mostly numbers.
fn push_digits(text: &mut String, number: u64, base: u64, least: u32) {
    if number >= base || least > 1 {
        push_digits(text, number / base, base, least.saturating_sub(1));
    }
    let digit = usize::try_from(number % base).expect("a digit is small");
    text.push(char::from(b"0123456789abcdef"[digit]));
}

/// Write the members of a list with commas between.
fn separated<T>(text: &mut String, members: &[T], write: impl Fn(&mut String, &T)) {
    for (place, member) in members.iter().enumerate() {
        if place > 0 {
            text.push(',');
        }
        write(text, member);
    }
}

impl Form {
    /// Write a line of this form: its template with these values for the capital letters, of which the last ends it.
    fn write(self, text: &mut String, values: &[Value<'_>]) {
        let between = self.template().split(|letter: char| letter.is_ascii_uppercase());
        for (between, value) in between.zip(values) {
            text.push_str(between);
            value.write(text);
        }
    }
}

impl Header {
    fn write(&self, text: &mut String) {
        let [qubits, outcomes, shots] = [self.qubits, self.outcomes, self.shots].map(Value::from);
        match self.edition {
            None => Form::Header.write(text, &[qubits, outcomes, shots]),
            Some(edition) => Form::HeaderWithEdition.write(text, &[Value::Number(edition), qubits, outcomes, shots]),
        }
    }
}

impl Instruction {
    fn write(&self, text: &mut String) {
        use Value::{List, Number, Words};
        let mut line = |values: &[Value<'_>]| self.form().write(text, values);
        match self {
            Self::Unitary { gate, qubits } => line(&[Number(gate.code()), List(qubits)]),
            Self::Clifford { qubits, table } => line(&[List(qubits), Words(table)]),
            Self::Pauli(SparsePauli { x, z }) | Self::PauliExp(SparsePauli { x, z }) => line(&[List(x), List(z)]),
            Self::ControlledPauli { control, target } => {
                line(&[List(&control.x), List(&control.z), List(&target.x), List(&target.z)]);
            }
            Self::Permute { places, qubits } => line(&[List(places), List(qubits)]),
            Self::Measure { observable, outcome } => {
                line(&[List(&observable.x), List(&observable.z), (*outcome).into()]);
            }
            Self::Allocate { outcome, is_angle } => line(&[(*outcome).into(), (*is_angle).into()]),
            Self::ConditionalPauli { pauli, outcomes, parity } => {
                line(&[List(&pauli.x), List(&pauli.z), List(outcomes), (*parity).into()]);
            }
            Self::Reset { qubits } | Self::Barrier { qubits } => line(&[List(qubits)]),
            Self::Inject { shot, pauli } => line(&[(*shot).into(), List(&pauli.x), List(&pauli.z)]),
            Self::Flip { shot, outcome } => line(&[(*shot).into(), (*outcome).into()]),
            Self::Noise(noise) => noise.write(text),
        }
    }
}

impl Noise {
    fn write(&self, text: &mut String) {
        use Value::{List, Number, Word};
        let (outcomes, parity) = match &self.condition {
            Some(condition) => (condition.outcomes.as_slice(), condition.parity),
            None => ([].as_slice(), false),
        };
        let correlation = self.correlation.map_or(List(&[]), Number);
        let mut values = vec![Word(self.probability.to_bits()), correlation, List(outcomes), parity.into()];
        let size = Number(self.distribution.size());
        match &self.distribution {
            PauliDistribution::Single(pauli) => values.extend([List(&pauli.x), List(&pauli.z)]),
            PauliDistribution::Depolarizing(qubits) => values.push(List(qubits)),
            PauliDistribution::Uniform(_) | PauliDistribution::Weighted(_) => values.push(size),
        }
        values.push(size);
        self.distribution.form().write(text, &values);
        self.distribution.write_elements(text);
    }
}

impl PauliDistribution {
    /// Write the element lines, each after a line end.
    fn write_elements(&self, text: &mut String) {
        use Value::{List, Word};
        let mut line = |form: Form, values: &[Value<'_>]| {
            text.push('\n');
            form.write(text, values);
        };
        match self {
            Self::Single(_) | Self::Depolarizing(_) => {}
            Self::Uniform(paulis) => {
                for SparsePauli { x, z } in paulis {
                    line(Form::Element, &[List(x), List(z)]);
                }
            }
            Self::Weighted(elements) => {
                for element in elements {
                    let SparsePauli { x, z } = &element.pauli;
                    line(Form::WeightedElement, &[Word(element.weight.to_bits()), List(x), List(z)]);
                }
            }
        }
    }
}

/// The line, without a line end after it; noise with its element lines.
impl fmt::Display for Instruction {
    fn fmt(&self, f: &mut fmt::Formatter<'_>) -> fmt::Result {
        let mut text = String::new();
        self.write(&mut text);
        f.write_str(&text)
    }
}

/// The line, without a line end after it.
impl fmt::Display for Header {
    fn fmt(&self, f: &mut fmt::Formatter<'_>) -> fmt::Result {
        let mut text = String::new();
        self.write(&mut text);
        f.write_str(&text)
    }
}
