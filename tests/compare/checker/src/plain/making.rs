//! Words and jobs from a seed (note 7): docs/MAKING.md, a value at a time.

use crate::calls::Asked;
use crate::job::{
    Distribution, Header, Instruction, List, MAX_BYTES, MAX_ONE_QUBIT_GATE, Noise, Pauli, Refusal, usize_of,
};
use crate::read::in_range;
use crate::write;

/// The stream of a seed: Marsaglia's 64-bit xorshift.
struct Stream(u64);

impl Stream {
    /// 22 where the seed is zero.
    fn of(seed: u64) -> Result<Self, Refusal> {
        if seed == 0 { Err(Refusal::of_call(22)) } else { Ok(Self(seed)) }
    }

    /// The next word, which is the new state.
    fn word(&mut self) -> u64 {
        for shifted in [|state: u64| state << 13, |state: u64| state >> 7, |state: u64| state << 17] {
            self.0 ^= shifted(self.0);
        }
        self.0
    }

    fn pick(&mut self, count: u64) -> u64 {
        self.word() % count
    }

    fn pick_of<T: Copy>(&mut self, values: &[T]) -> T {
        values[usize_of(self.pick(values.len() as u64))]
    }

    /// Some of the eight numbers from one on that are below `top`.
    fn few(&mut self, top: u64) -> List {
        if top == 0 {
            return List::new();
        }
        let (first, chosen) = (self.pick(top), self.pick(256));
        (0..8)
            .filter(|place| chosen >> place & 1 == 1)
            .map(|place| first + place)
            .filter(|number| *number < top)
            .collect()
    }
}

/// Write the words of a seed over a list.
///
/// # Errors
///
/// 22.
pub(super) fn fill(seed: u64, words: &mut [u64]) -> Result<(), Refusal> {
    let mut stream = Stream::of(seed)?;
    words.iter_mut().for_each(|word| *word = stream.word());
    Ok(())
}

/// The text of a made job; no further than one byte past the longest, so that it ends for every number of lines.
///
/// # Errors
///
/// 3, then 22.
pub(super) fn made(asked: Asked) -> Result<Vec<u8>, Refusal> {
    let Asked { qubits, outcomes, shots, lines, seed } = asked;
    if !in_range(&Header { edition: None, qubits, outcomes, shots }) {
        return Err(Refusal::of_call(3));
    }
    let mut stream = Stream::of(seed)?;
    let edition = (stream.pick(2) == 1).then_some(2);
    let header = Header { edition, qubits, outcomes, shots };
    let mut text = write::header(&header);
    let mut maker = Maker { stream, header, recorded: 0 };
    let mut count = 0;
    while count < lines && text.len() <= MAX_BYTES {
        text += &write::instruction(&maker.line());
        count += 1;
    }
    Ok(text.into_bytes())
}

/// The ring of kinds; the last is of the second edition alone.
const RING: [&str; 17] = ["u", "c", "p", "e", "k", "m", "f", "z", "i", "n1", "n2", "n3", "n4", "t", "o", "r", "b"];

/// Each table's words, and on how many qubits it is.
const TABLES: [(u64, &[u64]); 8] = [
    (1, &[0x6]),
    (1, &[0x7]),
    (1, &[0x9]),
    (1, &[0xb]),
    (1, &[0xd]),
    (1, &[0xe]),
    (2, &[0xc423]),
    (5, &[0x9f81_8c52_929c_601f, 0x8_ab05_648c]),
];

const PROBABILITIES: [u64; 6] = [
    0x0000_0000_0000_0000,
    0x3f50_624d_d2f1_a9fc,
    0x3f84_7ae1_47ae_147b,
    0x3fb9_9999_9999_999a,
    0x3fe0_0000_0000_0000,
    0x3ff0_0000_0000_0000,
];

const WEIGHTS: [u64; 4] = [0x3ff0_0000_0000_0000, 0x0000_0000_0000_0000, 0x3fe0_0000_0000_0000, 0x3fd0_0000_0000_0000];

struct Maker {
    stream: Stream,
    header: Header,
    recorded: u64,
}

impl Maker {
    fn line(&mut self) -> Instruction {
        let ring = if self.header.edition() == 2 { &RING[..] } else { &RING[..16] };
        let mut place = usize_of(self.stream.pick(ring.len() as u64));
        while !self.can_stand(ring[place]) {
            place = (place + 1) % ring.len();
        }
        self.line_of(ring[place])
    }

    fn can_stand(&self, kind: &str) -> bool {
        match kind {
            "o" | "r" => self.recorded < self.header.outcomes,
            "t" => self.recorded > 0,
            _ => true,
        }
    }

    fn line_of(&mut self, kind: &str) -> Instruction {
        match kind {
            "u" => self.gate(),
            "c" => self.clifford(),
            "p" => Instruction::Pauli(self.pauli()),
            "e" => Instruction::Exponential(self.pauli()),
            "k" => self.controlled(),
            "m" => self.permute(),
            "f" => {
                let (pauli, ids) = (self.pauli(), self.stream.few(self.recorded));
                Instruction::Conditional { pauli, ids, parity: self.bit() }
            }
            "z" if self.header.edition() == 1 => Instruction::Reset { qubits: std::iter::once(self.qubit()).collect() },
            "z" => Instruction::Reset { qubits: self.stretch(8) },
            "b" => Instruction::Barrier { qubits: self.stretch(8) },
            "i" => {
                let shot = self.stream.pick(self.header.shots);
                Instruction::Inject { shot, pauli: self.pauli() }
            }
            "t" => {
                let shot = self.stream.pick(self.header.shots);
                Instruction::Flip { shot, id: self.stream.pick(self.recorded) }
            }
            "o" => {
                let observable = self.pauli();
                Instruction::Measure { observable, id: self.record() }
            }
            "r" => {
                let angle = self.bit();
                Instruction::Allocate { id: self.record(), angle }
            }
            noise => Instruction::Noise(Box::new(self.noise(noise))),
        }
    }

    fn record(&mut self) -> u64 {
        self.recorded += 1;
        self.recorded - 1
    }

    fn bit(&mut self) -> bool {
        self.stream.pick(2) == 1
    }

    fn qubit(&mut self) -> u64 {
        self.stream.pick(self.header.qubits)
    }

    /// So many qubits from one on, round to the first.
    fn from(&self, first: u64, count: u64) -> List {
        (0..count).map(|place| (first + place) % self.header.qubits).collect()
    }

    fn stretch(&mut self, most: u64) -> List {
        let count = 1 + self.stream.pick(self.header.qubits.min(most));
        let first = self.qubit();
        self.from(first, count)
    }

    fn pauli(&mut self) -> Pauli {
        let x = self.stream.few(self.header.qubits);
        Pauli { x, z: self.stream.few(self.header.qubits) }
    }

    fn gate(&mut self) -> Instruction {
        let qubits = self.header.qubits;
        let gates = match (qubits, self.header.edition()) {
            (1, _) => 11,
            (_, 1) => 15,
            _ => 16,
        };
        let gate = self.stream.pick(gates);
        let first = self.qubit();
        let mut operands = List::new();
        operands.push(first);
        if gate > MAX_ONE_QUBIT_GATE {
            operands.push((first + 1 + self.stream.pick(qubits - 1)) % qubits);
        }
        Instruction::Unitary { gate, qubits: operands }
    }

    fn clifford(&mut self) -> Instruction {
        let fitting: Vec<_> = TABLES.into_iter().filter(|(qubits, _)| *qubits <= self.header.qubits).collect();
        let (qubits, table) = self.stream.pick_of(&fitting);
        let first = self.qubit();
        Instruction::Clifford { qubits: self.from(first, qubits), table: table.iter().copied().collect() }
    }

    fn controlled(&mut self) -> Instruction {
        let of_z = self.bit();
        let part = |list: List| {
            let none = List::new();
            if of_z { Pauli { x: none, z: list } } else { Pauli { x: list, z: none } }
        };
        let control = part(self.stream.few(self.header.qubits));
        Instruction::Controlled { control, target: Box::new(part(self.stream.few(self.header.qubits))) }
    }

    fn permute(&mut self) -> Instruction {
        let qubits = self.stretch(8);
        let count = qubits.len() as u64;
        let turn = self.stream.pick(count);
        Instruction::Permute { places: (0..count).map(|place| (place + turn) % count).collect(), qubits }
    }

    fn noise(&mut self, kind: &str) -> Noise {
        let p = self.stream.pick_of(&PROBABILITIES);
        let correlation = self.stream.pick(16).checked_sub(8);
        let condition = self.stream.few(self.recorded);
        let parity = !condition.is_empty() && self.bit();
        let distribution = match kind {
            "n1" => Distribution::Single(self.pauli()),
            "n2" => Distribution::Depolarizing(self.stretch(4)),
            "n3" => {
                let count = 1 + self.stream.pick(4);
                Distribution::Uniform((0..count).map(|_| self.pauli()).collect())
            }
            _ => {
                let count = 1 + self.stream.pick(4);
                Distribution::Weighted((0..usize_of(count)).map(|place| (WEIGHTS[place], self.pauli())).collect())
            }
        };
        let size = distribution.size();
        Noise { p, correlation, condition, parity, distribution, size }
    }
}
