//! A job as a typed list of instructions.

mod forms;
mod gates;
mod reader;
mod writer;

pub use forms::Form;
pub use gates::Gate;
pub(crate) use writer::write_job;

use crate::{Refusal, check};

/// A job as a header and a list of instructions. All values are as they are written, so that [`to_job`](Self::to_job) gives the bytes that
/// [`read`](Self::read) was given.
///
/// ```
/// use kundatrezo::{Circuit, Gate, Instruction};
///
/// let job = b"op=job qubits=2 outcomes=1 shots=9\nop=u g=11 q=0,1\nop=o x=- z=1 id=0\n";
/// let mut circuit = Circuit::read(job)?;
/// assert_eq!(circuit.instructions[0], Instruction::Unitary { gate: Gate::ControlledX, qubits: vec![0, 1] });
/// assert_eq!(circuit.to_job(), job);
///
/// circuit.header.shots = 100;
/// circuit.instructions.remove(0);
/// assert_eq!(circuit.to_job(), b"op=job qubits=2 outcomes=1 shots=100\nop=o x=- z=1 id=0\n");
/// # Ok::<(), kundatrezo::Refusal>(())
/// ```
#[derive(Debug, Clone, PartialEq)]
pub struct Circuit {
    /// The first line.
    pub header: Header,
    /// The lines after it. Noise and its element lines are one instruction.
    pub instructions: Vec<Instruction>,
}

/// The numbers of the header.
#[derive(Debug, Clone, Copy, PartialEq, Eq, Hash)]
pub struct Header {
    /// The edition, if the header has the field. Without it the edition is 1.
    pub edition: Option<u64>,
    /// From 1 to [`MAX_QUBITS`](crate::MAX_QUBITS).
    pub qubits: usize,
    /// The most outcomes that the job may record, up to [`MAX_OUTCOMES`](crate::MAX_OUTCOMES).
    pub outcomes: usize,
    /// From 1 to [`MAX_SHOTS`](crate::MAX_SHOTS).
    pub shots: usize,
}

/// An instruction of a job. docs/JOBS.md of the repository says what each does.
#[derive(Debug, Clone, PartialEq)]
pub enum Instruction {
    /// A gate (`op=u`).
    Unitary {
        /// The gate.
        gate: Gate,
        /// Its operands, [`Gate::operands`] of them.
        qubits: Vec<usize>,
    },
    /// A Clifford (`op=c`).
    Clifford {
        /// Its operands.
        qubits: Vec<usize>,
        /// The images of X and Z on each of them, as the words of a table of bits.
        table: Vec<u64>,
    },
    /// A Pauli gate (`op=p`).
    Pauli(SparsePauli),
    /// The exponential of a Pauli (`op=e`).
    PauliExp(SparsePauli),
    /// A controlled Pauli (`op=k`).
    ControlledPauli {
        /// The Pauli that controls.
        control: SparsePauli,
        /// The Pauli that is controlled.
        target: SparsePauli,
    },
    /// A permutation (`op=m`).
    Permute {
        /// The content of `qubits[i]` goes to `qubits[places[i]]`.
        places: Vec<usize>,
        /// The qubits.
        qubits: Vec<usize>,
    },
    /// A measurement (`op=o`).
    Measure {
        /// The Pauli that is measured.
        observable: SparsePauli,
        /// The outcome that it records.
        outcome: usize,
    },
    /// An outcome without a measurement (`op=r`).
    Allocate {
        /// The outcome that it records.
        outcome: usize,
        /// Whether it stands for the angle of a rotation. Otherwise it is a random bit.
        is_angle: bool,
    },
    /// A conditional Pauli (`op=f`).
    ConditionalPauli {
        /// The Pauli.
        pauli: SparsePauli,
        /// The outcomes that decide whether it is applied.
        outcomes: Vec<usize>,
        /// Their sum when it is applied.
        parity: bool,
    },
    /// A reset (`op=z`).
    Reset {
        /// The qubits: a single one in the first edition.
        qubits: Vec<usize>,
    },
    /// A barrier (`op=b`).
    Barrier {
        /// The qubits.
        qubits: Vec<usize>,
    },
    /// A fault in one shot (`op=i`).
    Inject {
        /// The shot.
        shot: usize,
        /// The fault.
        pauli: SparsePauli,
    },
    /// A flipped outcome in one shot (`op=t`).
    Flip {
        /// The shot.
        shot: usize,
        /// The outcome.
        outcome: usize,
    },
    /// Noise (`op=n`) with its element lines.
    Noise(Noise),
}

/// A Pauli without its sign: the qubits with an X part, and those with a Z part. A qubit with a Y is in both lists. The default is the identity.
#[derive(Debug, Clone, Default, PartialEq, Eq, Hash)]
pub struct SparsePauli {
    /// The qubits with an X part, strictly rising.
    pub x: Vec<usize>,
    /// The qubits with a Z part, strictly rising.
    pub z: Vec<usize>,
}

/// A noise line.
#[derive(Debug, Clone, PartialEq)]
pub struct Noise {
    /// The probability of a fault. It may be below zero, which means 0. It is written by its bits.
    pub probability: f64,
    /// The place in the second list from which the line draws. Without it the line draws from the main list.
    pub correlation: Option<u64>,
    /// The condition under which a fault counts.
    pub condition: Option<OutcomeCondition>,
    /// The Paulis that a fault chooses among.
    pub distribution: PauliDistribution,
}

/// A condition of noise: the noiseless bits of some outcomes sum to a parity.
#[derive(Debug, Clone, PartialEq, Eq, Hash)]
pub struct OutcomeCondition {
    /// The outcomes, strictly rising. There is at least one.
    pub outcomes: Vec<usize>,
    /// The sum of their bits.
    pub parity: bool,
}

/// The Paulis that a fault chooses among.
#[derive(Debug, Clone, PartialEq)]
pub enum PauliDistribution {
    /// One Pauli (`d=1`).
    Single(SparsePauli),
    /// All Paulis on these qubits but the identity, each as likely (`d=2`).
    Depolarizing(Vec<usize>),
    /// The Paulis of the element lines, each as likely (`d=3`).
    Uniform(Vec<SparsePauli>),
    /// The Paulis of the element lines, by their weights (`d=4`).
    Weighted(Vec<WeightedPauli>),
}

/// An element of a weighted distribution.
#[derive(Debug, Clone, PartialEq)]
pub struct WeightedPauli {
    /// The weight. Weights need not sum to 1. It is written by its bits.
    pub weight: f64,
    /// The Pauli.
    pub pauli: SparsePauli,
}

impl Circuit {
    /// Read a job.
    ///
    /// # Errors
    ///
    /// The refusal by a test of the job, as [`check`] returns it.
    pub fn read(job: &[u8]) -> Result<Self, Refusal> {
        check(job)?;
        Ok(Self::read_accepted(job))
    }

    /// Read a job that the engine has accepted. It panics at lines that have no form.
    pub(crate) fn read_accepted(job: &[u8]) -> Self {
        reader::read(job)
    }

    /// The text of the job. It is not checked: the engine accepts it if the circuit was read from a job and not changed.
    #[must_use]
    pub fn to_job(&self) -> Vec<u8> {
        write_job(&self.header, &self.instructions)
    }

    /// The instructions with the numbers of their lines, by which refusals name them. The header is line 1. Noise has the number of its noise line.
    ///
    /// ```
    /// use kundatrezo::Circuit;
    ///
    /// let noise = "op=n p=3fe0000000000000 corr=- cond=- parity=0 d=3 n=2 size=2\nx=0 z=-\nx=- z=0\n";
    /// let job = format!("op=job qubits=1 outcomes=0 shots=1\n{noise}op=z q=0\n");
    /// let circuit = Circuit::read(job.as_bytes())?;
    /// let lines: Vec<usize> = circuit.numbered().map(|(line, _)| line).collect();
    /// assert_eq!(lines, [2, 5]);
    /// // an element line belongs to its noise
    /// assert_eq!(circuit.at_line(4), Some(&circuit.instructions[0]));
    /// # Ok::<(), kundatrezo::Refusal>(())
    /// ```
    pub fn numbered(&self) -> impl Iterator<Item = (usize, &Instruction)> {
        let numbers = self.instructions.iter().scan(2, |next, instruction| {
            let line = *next;
            *next += instruction.line_count();
            Some(line)
        });
        numbers.zip(&self.instructions)
    }

    /// The instruction to which a line belongs. The header and lines past the last one belong to no instruction.
    #[must_use]
    pub fn at_line(&self, line: usize) -> Option<&Instruction> {
        let has_line = |(first, instruction): &(usize, &Instruction)| line < first + instruction.line_count();
        if line < 2 { None } else { self.numbered().find(has_line).map(|(_, instruction)| instruction) }
    }

    /// The number of outcomes that it records: those whose ids are below this number.
    #[must_use]
    pub fn recorded(&self) -> usize {
        let records = |instruction: &&Instruction| {
            matches!(instruction, Instruction::Measure { .. } | Instruction::Allocate { .. })
        };
        self.instructions.iter().filter(records).count()
    }

    /// The noise to which a line belongs.
    #[must_use]
    pub fn noise_at(&self, line: usize) -> Option<&Noise> {
        match self.at_line(line) {
            Some(Instruction::Noise(noise)) => Some(noise),
            _ => None,
        }
    }

    /// The noise, with the numbers of the noise lines.
    pub fn noise(&self) -> impl Iterator<Item = (usize, &Noise)> {
        self.numbered().filter_map(|(line, instruction)| match instruction {
            Instruction::Noise(noise) => Some((line, noise)),
            _ => None,
        })
    }
}

impl Instruction {
    /// The form of its line, for noise that of the noise line.
    #[must_use]
    pub fn form(&self) -> Form {
        match self {
            Self::Unitary { .. } => Form::Unitary,
            Self::Clifford { .. } => Form::Clifford,
            Self::Pauli(_) => Form::Pauli,
            Self::PauliExp(_) => Form::PauliExp,
            Self::ControlledPauli { .. } => Form::ControlledPauli,
            Self::Permute { .. } => Form::Permute,
            Self::Measure { .. } => Form::Measure,
            Self::Allocate { .. } => Form::Allocate,
            Self::ConditionalPauli { .. } => Form::ConditionalPauli,
            Self::Reset { .. } => Form::Reset,
            Self::Barrier { .. } => Form::Barrier,
            Self::Inject { .. } => Form::Inject,
            Self::Flip { .. } => Form::Flip,
            Self::Noise(noise) => noise.distribution.form(),
        }
    }

    /// The number of its lines: the element lines of noise count.
    #[must_use]
    pub fn line_count(&self) -> usize {
        match self {
            Self::Noise(noise) => 1 + noise.distribution.element_lines(),
            _ => 1,
        }
    }

    /// The first edition of jobs that has it.
    #[must_use]
    pub fn edition(&self) -> u64 {
        match self {
            Self::Unitary { gate, .. } => gate.edition(),
            Self::Reset { qubits } if qubits.len() > 1 => 2,
            Self::Barrier { .. } => 2,
            _ => 1,
        }
    }

    /// The shot that an injection or a flip names.
    #[must_use]
    pub fn shot(&self) -> Option<usize> {
        match self {
            Self::Inject { shot, .. } | Self::Flip { shot, .. } => Some(*shot),
            _ => None,
        }
    }
}

impl PauliDistribution {
    /// The form of a noise line of this distribution.
    #[must_use]
    pub fn form(&self) -> Form {
        match self {
            Self::Single(_) => Form::SingleNoise,
            Self::Depolarizing(_) => Form::DepolarizingNoise,
            Self::Uniform(_) => Form::UniformNoise,
            Self::Weighted(_) => Form::WeightedNoise,
        }
    }

    /// The number of Paulis that it chooses among: 1, 4^k - 1 on k qubits, or the number of elements. A line has at most 31 qubits. From 32 on this
    /// returns `u64::MAX`.
    #[must_use]
    pub fn size(&self) -> u64 {
        match self {
            Self::Single(_) => 1,
            Self::Depolarizing(qubits) => depolarizing_size(qubits.len()).unwrap_or(u64::MAX),
            Self::Uniform(_) | Self::Weighted(_) => self.element_lines() as u64,
        }
    }

    fn element_lines(&self) -> usize {
        match self {
            Self::Single(_) | Self::Depolarizing(_) => 0,
            Self::Uniform(paulis) => paulis.len(),
            Self::Weighted(elements) => elements.len(),
        }
    }
}

/// The number of Paulis on some qubits but the identity, 4^k - 1, if 4^k is below 2^64.
pub(crate) fn depolarizing_size(qubits: usize) -> Option<u64> {
    let all = u32::try_from(qubits).ok().and_then(|qubits| 4_u64.checked_pow(qubits))?;
    Some(all - 1)
}
