//! Jobs with everything in them that the notes of document 02 brought, and jobs made from a seed.

use crate::damage::damaged;
use crate::inputs::lent;
use crate::jobs::{DENSE, Shape, edition, job_of};
use crate::random::Random;
use checker::calls::{Asked, Calls};
use checker::job::{Distribution, Header, Instruction, MAX_BYTES, MAX_SPREAD, Noise, usize_of};
use checker::plain::{Plain, settled};
use checker::read::read;
use reference::vectors::{Call, Input};

/// What the lines of a job have of the notes.
#[derive(Debug, Clone, Default)]
#[allow(missing_docs)]
pub struct Notes {
    /// Control and target with a qubit in common.
    pub meeting: bool,
    pub controlled_y: bool,
    pub reset_list: bool,
    pub barrier: bool,
    /// A Clifford on more than four qubits.
    pub wide: bool,
    pub noise: bool,
    pub condition: bool,
    /// An element of weight zero.
    pub zero_weight: bool,
    /// A correlation of two lines.
    pub shared_correlation: bool,
    correlations: Vec<u64>,
}

impl Notes {
    /// Those of some lines.
    pub fn of<'a>(lines: impl Iterator<Item = &'a Instruction>) -> Self {
        let mut notes = Self::default();
        lines.for_each(|line| notes.add(line));
        notes
    }

    fn add(&mut self, line: &Instruction) {
        match line {
            Instruction::Unitary { gate: 15, .. } => self.controlled_y = true,
            Instruction::Reset { qubits } => self.reset_list |= qubits.len() > 1,
            Instruction::Barrier { .. } => self.barrier = true,
            Instruction::Clifford { qubits, .. } => self.wide |= qubits.len() > 4,
            Instruction::Controlled { control, target } => {
                let target = target.support();
                self.meeting |= control.support().iter().any(|qubit| target.contains(qubit));
            }
            Instruction::Noise(noise) => self.add_noise(noise),
            _ => {}
        }
    }

    fn add_noise(&mut self, noise: &Noise) {
        self.noise = true;
        self.condition |= !noise.condition.is_empty();
        if let Distribution::Weighted(elements) = &noise.distribution {
            self.zero_weight |= elements.iter().any(|(weight, _)| f64::from_bits(*weight) == 0.0);
        }
        self.shared_correlation |=
            noise.correlation.is_some_and(|correlation| self.correlations.contains(&correlation));
        self.correlations.extend(noise.correlation);
    }

    /// Whether a job of an edition has every kind of line but noise.
    #[must_use]
    pub fn have_all_lines(&self, edition: u64) -> bool {
        self.meeting && self.wide && (edition == 1 || self.controlled_y && self.reset_list && self.barrier)
    }

    /// Whether its noise has everything.
    #[must_use]
    pub fn have_all_noise(&self) -> bool {
        self.condition && self.zero_weight && self.shared_correlation
    }
}

/// An input of a call on a job with everything in it, or made from a seed, which the input names; some are damaged.
pub fn full(random: &mut Random, call: Call) -> Input {
    let bits = random.between(8, 63);
    let seed = if random.one_in(3) { random.between(1, 1 << bits) } else { 0 };
    let mut job = if seed == 0 { everything(random, call) } else { made(random, seed) };
    if matches!(call, Call::Walk | Call::Print) {
        job = settled_text(random, &job);
    }
    let mut input = Input { seed, ..lent(random, call, &job) };
    if random.one_in(6) {
        input.job = damaged(random, &job);
    }
    input
}

/// A job with everything in it: random ones, until one has.
fn everything(random: &mut Random, call: Call) -> Vec<u8> {
    let spread = (call == Call::FaultTable).then_some(MAX_SPREAD);
    let shape = Shape { noise: 8, tables: 3, near_correlations: true, spread, ..DENSE };
    let (edition, qubits, outcomes) =
        (edition(random), random.pick(&[8, 9, 12, 40, 256]), random.pick(&[3, 12, 40, 70]));
    let header = Header { edition, qubits, outcomes, shots: shots(random) };
    loop {
        let lines = random.between(30, 90);
        let made = job_of(random, header, lines, &shape);
        let notes = Notes::of(made.instructions.iter());
        if notes.have_all_lines(header.edition()) && notes.have_all_noise() {
            return made.bytes();
        }
    }
}

/// A job made from a seed.
fn made(random: &mut Random, seed: u64) -> Vec<u8> {
    let (qubits, outcomes, lines) = (random.between(5, 12), random.between(1, 20), random.between(20, 90));
    let asked = Asked { qubits, outcomes, shots: shots(random), lines, seed };
    let mut job = vec![0; MAX_BYTES];
    let answer = Plain.make(asked, &mut job);
    job.truncate(usize_of(answer.figure));
    job
}

/// A job's settled text, by lists of draws that suffice.
fn settled_text(random: &mut Random, bytes: &[u8]) -> Vec<u8> {
    let job = read(bytes).expect("a job that the checks accept");
    loop {
        let input = lent(random, Call::Run, bytes);
        if input.noiseless.len() >= job.header.outcome_words()
            && let Ok(settled) = settled(&job, input.draws(), &input.noiseless)
        {
            return settled.text(&job);
        }
    }
}

/// Shots around the end of a word.
fn shots(random: &mut Random) -> u64 {
    random.pick(&[1, 5, 63, 64, 65])
}
