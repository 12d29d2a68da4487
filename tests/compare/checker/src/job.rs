//! What a job says.

use smallvec::SmallVec;

/// The longest job, and the longest text that a call writes, in bytes.
pub const MAX_BYTES: usize = 1_048_576;
/// The longest input of the printing program, in bytes.
pub const MAX_PRINTED_BYTES: usize = 65_536;
/// Most qubits of a header.
pub const MAX_QUBITS: u64 = 256;
/// Most outcomes of a header.
pub const MAX_OUTCOMES: u64 = 1_024;
/// Most shots of a header.
pub const MAX_SHOTS: u64 = 4_096;
/// Most entries of a list on a line.
pub const MAX_LIST: usize = 31;
/// Most qubits of a Clifford line.
pub const MAX_CLIFFORD_QUBITS: usize = 8;
/// Most element lines of a noise line.
pub const MAX_ELEMENTS: u64 = 64;
/// Most groups of a table of single faults.
pub const MAX_GROUPS: usize = 16;
/// Most qubits of depolarizing noise in a table of single faults.
pub const MAX_SPREAD: usize = 4;
/// Most callers with shares of a main list.
pub const MAX_CALLERS: usize = 8;
/// The editions that a header may name.
pub const EDITIONS: std::ops::RangeInclusive<u64> = 1..=2;
/// The highest code of a gate on one qubit.
pub const MAX_ONE_QUBIT_GATE: u64 = 10;

/// The highest gate code of an edition: PrepareBell, or in the second ControlledY.
#[must_use]
pub fn max_gate(edition: u64) -> u64 {
    if edition == 1 { 14 } else { 15 }
}

/// A list of numbers as written.
pub type List = SmallVec<[u64; 2]>;

/// The numbers of the tests of a job, which every call makes.
pub const TESTS: [u64; 15] = [1, 2, 3, 4, 5, 6, 7, 8, 9, 10, 11, 12, 20, 21, 23];
/// The numbers that are calls' own.
pub const OF_CALLS: [u64; 11] = [13, 14, 15, 16, 17, 18, 19, 22, 24, 25, 26];

/// Why a call says no: the number of documents 01 and 02, and the line from 1 (0 where none fits).
#[derive(Debug, Clone, Copy, PartialEq, Eq)]
pub struct Refusal {
    /// One of [`TESTS`] or [`OF_CALLS`].
    pub number: u64,
    /// From 1, or 0 where none fits.
    pub line: u64,
}

impl Refusal {
    /// A refusal at a line.
    #[must_use]
    pub fn at(number: u64, line: u64) -> Self {
        Self { number, line }
    }

    /// A refusal that no line fits.
    #[must_use]
    pub fn of_call(number: u64) -> Self {
        Self { number, line: 0 }
    }
}

/// The numbers of `op=job`.
#[derive(Debug, Clone, Copy, Default, PartialEq, Eq)]
#[allow(missing_docs)]
pub struct Header {
    /// As written; none where the field is left out.
    pub edition: Option<u64>,
    pub qubits: u64,
    pub outcomes: u64,
    pub shots: u64,
}

impl Header {
    /// The edition; without the field it is 1.
    #[must_use]
    pub fn edition(&self) -> u64 {
        self.edition.unwrap_or(1)
    }

    /// Words in a row of bits, one bit a shot.
    #[must_use]
    pub fn row_words(&self) -> usize {
        usize_of(self.shots).div_ceil(64)
    }

    /// Words that the frames of one part need.
    #[must_use]
    pub fn frame_words(&self) -> usize {
        usize_of(self.qubits) * self.row_words()
    }

    /// Words that the deltas, or the noiseless bits, need.
    #[must_use]
    pub fn outcome_words(&self) -> usize {
        usize_of(self.outcomes) * self.row_words()
    }
}

/// A number that the checks have bounded, as an index.
///
/// # Panics
///
/// Panics if the number is no index.
#[must_use]
pub fn usize_of(number: u64) -> usize {
    usize::try_from(number).expect("a checked number")
}

/// A Pauli: two rising lists of qubits.
#[derive(Debug, Clone, Default, PartialEq, Eq)]
pub struct Pauli {
    /// Qubits with an X part.
    pub x: List,
    /// Qubits with a Z part.
    pub z: List,
}

impl Pauli {
    /// The qubits with either part, rising; a Y counts once.
    #[must_use]
    pub fn support(&self) -> Vec<u64> {
        let mut qubits: Vec<u64> = self.x.iter().chain(&self.z).copied().collect();
        qubits.sort_unstable();
        qubits.dedup();
        qubits
    }

    /// Whether X parts on the other's Z parts, plus the reverse, are odd in number.
    #[must_use]
    pub fn anticommutes(&self, other: &Pauli) -> bool {
        let meetings = |one: &List, two: &List| one.iter().filter(|qubit| two.contains(qubit)).count();
        (meetings(&self.x, &other.z) + meetings(&self.z, &other.x)) % 2 == 1
    }
}

/// A line other than the header; a noise line with its element lines. A Clifford's table is its words, the least significant first. What is large is boxed,
/// so that the rest moves quickly.
#[derive(Debug, Clone, PartialEq)]
#[allow(missing_docs)]
pub enum Instruction {
    Unitary { gate: u64, qubits: List },
    Clifford { qubits: List, table: List },
    Pauli(Pauli),
    Exponential(Pauli),
    Controlled { control: Pauli, target: Box<Pauli> },
    Permute { places: List, qubits: List },
    Measure { observable: Pauli, id: u64 },
    Allocate { id: u64, angle: bool },
    Conditional { pauli: Pauli, ids: List, parity: bool },
    Reset { qubits: List },
    Barrier { qubits: List },
    Inject { shot: u64, pauli: Pauli },
    Flip { shot: u64, id: u64 },
    Noise(Box<Noise>),
}

/// A noise instruction.
#[derive(Debug, Clone, PartialEq)]
pub struct Noise {
    /// The probability's binary64 bits.
    pub p: u64,
    /// The correlation, if any.
    pub correlation: Option<u64>,
    /// The outcomes of the condition; empty where there is none.
    pub condition: List,
    /// What the condition's noiseless bits must sum to.
    pub parity: bool,
    /// What falls on a fault.
    pub distribution: Distribution,
    /// The distribution's size as written.
    pub size: u64,
}

impl Noise {
    /// Noise of a probability's bits without correlation or condition.
    #[must_use]
    pub fn unconditional(p: u64, distribution: Distribution) -> Self {
        let size = distribution.size();
        Self { p, correlation: None, condition: List::new(), parity: false, distribution, size }
    }

    /// The probability.
    #[must_use]
    pub fn probability(&self) -> f64 {
        f64::from_bits(self.p)
    }
}

/// What falls on a fault: one of four kinds.
#[derive(Debug, Clone, PartialEq)]
#[allow(missing_docs)]
pub enum Distribution {
    Single(Pauli),
    Depolarizing(List),
    Uniform(Vec<Pauli>),
    /// Each weight by its binary64 bits.
    Weighted(Vec<(u64, Pauli)>),
}

impl Distribution {
    /// How many elements it has: 1, 4^k - 1 for k qubits (at most 31), or n.
    #[must_use]
    pub fn size(&self) -> u64 {
        match self {
            Distribution::Single(_) => 1,
            Distribution::Depolarizing(qubits) => (1 << (2 * qubits.len())) - 1,
            Distribution::Uniform(paulis) => paulis.len() as u64,
            Distribution::Weighted(elements) => elements.len() as u64,
        }
    }
}

/// A Clifford table's row as bits: X parts of the places from bit 0 on, then Z parts. A row may begin in one word and end in the next.
#[must_use]
pub fn table_row(table: &[u64], qubits: usize, row: usize) -> u64 {
    let width = 2 * qubits;
    let (word, place) = (width * row / 64, width * row % 64);
    let ahead = if place + width > 64 { table[word + 1] << (64 - place) } else { 0 };
    (table[word] >> place | ahead) & ((1 << width) - 1)
}

/// How many words hold the 4k² bits of a Clifford table on k qubits.
#[must_use]
pub fn table_words(qubits: usize) -> usize {
    (4 * qubits * qubits).div_ceil(64)
}

/// The words of a table with these rows.
#[must_use]
pub fn table_of_rows(rows: &[u64]) -> List {
    let width = rows.len();
    let mut words = vec![0; table_words(width / 2)];
    for bit in (0..width * width).filter(|bit| rows[bit / width] >> (bit % width) & 1 == 1) {
        words[bit / 64] |= 1 << (bit % 64);
    }
    words.into_iter().collect()
}

/// An instruction and where it stands.
#[derive(Debug, Clone, PartialEq)]
pub struct Line<'a> {
    /// The line's number; a noise instruction's is that of its noise line.
    pub number: u64,
    /// The bytes with their LF, element lines included.
    pub text: &'a [u8],
    /// What it says.
    pub instruction: Instruction,
}

/// A job that has passed the tests of a job.
#[derive(Debug, Clone, PartialEq)]
pub struct Job<'a> {
    /// The header's numbers.
    pub header: Header,
    /// The header's bytes with their LF.
    pub header_text: &'a [u8],
    /// The instructions in their order.
    pub lines: Vec<Line<'a>>,
    /// How many outcomes are recorded; their ids are those below.
    pub recorded: u64,
}
