//! Injections and flips among the other lines of a job, as note 11 of document 02 speaks of them.

use crate::job::{Header, Instruction, Job};
use crate::write;

/// A job by its other lines and the injections and flips between them.
#[derive(Debug, Clone, PartialEq)]
pub struct Gaps {
    /// The header's numbers.
    pub header: Header,
    /// The lines that are neither injections nor flips, in their order.
    pub others: Vec<Instruction>,
    /// The injections and flips: place g has those with exactly g other lines before them.
    pub faults: Vec<Vec<Instruction>>,
}

/// The shot of an injection or a flip; none for every other line.
#[must_use]
pub fn fault_shot(instruction: &Instruction) -> Option<u64> {
    match instruction {
        Instruction::Inject { shot, .. } | Instruction::Flip { shot, .. } => Some(*shot),
        _ => None,
    }
}

impl Gaps {
    /// The gaps of a header and instructions.
    pub fn of(header: Header, instructions: impl IntoIterator<Item = Instruction>) -> Self {
        let mut others = Vec::new();
        let mut faults = vec![Vec::new()];
        for instruction in instructions {
            if fault_shot(&instruction).is_some() {
                faults[others.len()].push(instruction);
            } else {
                others.push(instruction);
                faults.push(Vec::new());
            }
        }
        Self { header, others, faults }
    }

    /// The gaps of a job.
    #[must_use]
    pub fn of_job(job: Job<'_>) -> Self {
        Self::of(job.header, job.lines.into_iter().map(|line| line.instruction))
    }

    /// The same other lines with other injections and flips.
    #[must_use]
    pub fn with(&self, faults: Vec<Vec<Instruction>>) -> Self {
        Self { faults, ..self.clone() }
    }

    /// The job's text.
    #[must_use]
    pub fn bytes(&self) -> Vec<u8> {
        let mut text = write::header(&self.header);
        for (place, faults) in self.faults.iter().enumerate() {
            let lines = faults.iter().chain(self.others.get(place));
            text.extend(lines.map(write::instruction));
        }
        text.into_bytes()
    }

    /// Whether all lines but injections and flips are another job's, the header among them, and none is noise.
    fn agrees_with(&self, other: &Self) -> bool {
        let is_noise = |line: &Instruction| matches!(line, Instruction::Noise(_));
        self.header == other.header && self.others == other.others && !self.others.iter().any(is_noise)
    }

    /// Whether two jobs without noise differ only in injections and flips of shots outside a set.
    pub fn is_apart(&self, other: &Self, shots: impl Fn(u64) -> bool) -> bool {
        let in_set = |fault: &&Instruction| fault_shot(fault).is_some_and(&shots);
        let same = |(one, other): (&Vec<Instruction>, &Vec<Instruction>)| {
            one.iter().chain(other).filter(in_set).all(|fault| times(fault, one) == times(fault, other))
        };
        self.agrees_with(other) && self.faults.iter().zip(&other.faults).all(same)
    }

    /// Whether this job without noise holds just the injections and flips of two, each among the same lines, and twice where both hold it there.
    #[must_use]
    pub fn is_sum(&self, one: &Self, other: &Self) -> bool {
        let holds = |place: usize| {
            let (sum, one, other) = (&self.faults[place], &one.faults[place], &other.faults[place]);
            let all = sum.iter().chain(one).chain(other);
            all.into_iter().all(|fault| times(fault, sum) == times(fault, one) + times(fault, other))
        };
        self.agrees_with(one) && self.agrees_with(other) && (0..self.faults.len()).all(holds)
    }
}

fn times(fault: &Instruction, faults: &[Instruction]) -> usize {
    faults.iter().filter(|other| *other == fault).count()
}
