//! Jobs for measuring: large, and alike in every run.

use crate::jobs::{ANY, Made, Shape, clifford_table, job_of};
use crate::random::Random;
use checker::job::{Distribution, Header, Instruction, List, Noise, Pauli};

/// A header of the first edition for measuring, with as many outcomes as may be.
#[must_use]
pub fn header(qubits: u64, shots: u64) -> Header {
    Header { edition: None, qubits, outcomes: 1024, shots }
}

/// Gate lines alone.
#[must_use]
pub fn gates(header: Header, lines: usize) -> Made {
    let mut random = Random::new(1);
    let instructions = (0..lines).map(|_| gate(&mut random, header.qubits)).collect();
    Made { header, instructions }
}

/// Lines of Cliffords on so many qubits each, mixed by so many gates that half of the bits of a table are set.
#[must_use]
pub fn cliffords(header: Header, lines: usize, qubits: usize) -> Made {
    let mut random = Random::new(6);
    let mut line = || Instruction::Clifford {
        qubits: random.distinct(header.qubits, qubits).into_iter().collect(),
        table: clifford_table(&mut random, qubits, 40 * qubits),
    };
    let instructions = (0..lines).map(|_| line()).collect();
    Made { header, instructions }
}

/// A job with a measurement of Z on every qubit at its end, each outcome with its qubit's number.
#[must_use]
pub fn measured(mut made: Made) -> Made {
    let measure = |qubit| Instruction::Measure {
        observable: Pauli { x: List::new(), z: [qubit].into_iter().collect() },
        id: qubit,
    };
    made.instructions.extend((0..made.header.qubits).map(measure));
    made
}

/// Gate lines, each with depolarizing noise on its qubits after it, and a measurement of every qubit at the end.
#[must_use]
pub fn noisy_gates(header: Header, gates: usize, p: f64) -> Made {
    let mut random = Random::new(2);
    let mut instructions = Vec::new();
    for _ in 0..gates {
        let gate = gate(&mut random, header.qubits);
        let Instruction::Unitary { qubits, .. } = &gate else { unreachable!("a gate") };
        let noise = depolarizing(qubits.clone(), p);
        instructions.extend([gate, noise]);
    }
    measured(Made { header, instructions })
}

/// Gate lines, with depolarizing noise on the qubits of each so many.
#[must_use]
pub fn seldom_noisy(header: Header, gates: usize, every: usize, p: f64) -> Made {
    let mut random = Random::new(7);
    let mut instructions = Vec::new();
    for place in 0..gates {
        let gate = gate(&mut random, header.qubits);
        let Instruction::Unitary { qubits, .. } = &gate else { unreachable!("a gate") };
        let noise = (place % every == 0).then(|| depolarizing(qubits.clone(), p));
        instructions.push(gate);
        instructions.extend(noise);
    }
    Made { header, instructions }
}

/// Noise lines alone.
#[must_use]
pub fn noise(header: Header, lines: usize, p: f64) -> Made {
    let mut random = Random::new(3);
    let line = |random: &mut Random| {
        let count = 1 + random.index(2);
        depolarizing(random.distinct(header.qubits, count).into_iter().collect(), p)
    };
    let instructions = (0..lines).map(|_| line(&mut random)).collect();
    Made { header, instructions }
}

/// Lines of every kind. Faults are as rare as `p` says, and correlations small, so that a short second list with base 0 serves.
#[must_use]
pub fn mixed(header: Header, lines: u64, p: f64) -> Made {
    let shape = Shape { limits: header, noise: 4, ..ANY };
    let mut made = job_of(&mut Random::new(4), header, lines, &shape);
    for instruction in &mut made.instructions {
        if let Instruction::Noise(noise) = instruction {
            noise.p = p.to_bits();
            noise.correlation = noise.correlation.map(|correlation| correlation % 8);
        }
    }
    made
}

/// Noise lines with 64 weighted elements each.
#[must_use]
pub fn weighted(header: Header, lines: usize, p: f64) -> Made {
    let mut random = Random::new(8);
    let weight = (1.0_f64 / 64.0).to_bits();
    let mut element = || {
        let qubit = random.below(header.qubits);
        let next = (qubit + 1) % header.qubits;
        (weight, Pauli { x: [qubit].into_iter().collect(), z: [next].into_iter().collect() })
    };
    let mut line = || Noise::unconditional(p.to_bits(), Distribution::Weighted((0..64).map(|_| element()).collect()));
    let instructions = (0..lines).map(|_| Instruction::Noise(Box::new(line()))).collect();
    Made { header, instructions }
}

/// Depolarizing noise on so many qubits, in any order.
#[must_use]
pub fn depolarized(header: Header, lines: usize, qubits: usize, p: f64) -> Made {
    let mut random = Random::new(9);
    let mut line = || depolarizing(random.distinct(header.qubits, qubits).into_iter().collect(), p);
    let instructions = (0..lines).map(|_| line()).collect();
    Made { header, instructions }
}

/// Controlled Paulis with four lists of 31 qubits, controls on the lower half of the qubits and targets on the upper one.
#[must_use]
pub fn controlled(header: Header, lines: usize) -> Made {
    let mut random = Random::new(10);
    let half = header.qubits / 2;
    let mut list = |first: u64| -> List { random.subset(half, 31).into_iter().map(|qubit| first + qubit).collect() };
    let mut pauli = |first: u64| Pauli { x: list(first), z: list(first) };
    let mut line = || Instruction::Controlled { control: pauli(0), target: Box::new(pauli(half)) };
    let instructions = (0..lines).map(|_| line()).collect();
    Made { header, instructions }
}

/// Noise lines that never fault, each with a correlation of its own.
#[must_use]
pub fn correlated(header: Header, lines: u64) -> Made {
    let pauli = Pauli { x: [0].into_iter().collect(), z: List::new() };
    let line = |correlation| {
        let alone = Noise::unconditional(0, Distribution::Single(pauli.clone()));
        Instruction::Noise(Box::new(Noise { correlation: Some(correlation), ..alone }))
    };
    Made { header, instructions: (0..lines).map(line).collect() }
}

/// Every outcome, then flips.
#[must_use]
pub fn flips(header: Header, lines: usize) -> Made {
    let mut random = Random::new(11);
    let mut flip = || Instruction::Flip { shot: random.below(header.shots), id: random.below(header.outcomes) };
    let outcomes = (0..header.outcomes).map(|id| Instruction::Allocate { id, angle: false });
    Made { header, instructions: outcomes.chain((0..lines).map(|_| flip())).collect() }
}

/// A job cut after the last whole instruction within a length in bytes.
#[must_use]
pub fn cut(mut made: Made, length: usize) -> Made {
    loop {
        let bytes = made.bytes().len();
        if bytes <= length {
            return made;
        }
        let kept = made.instructions.len() * length / bytes;
        made.instructions.truncate(kept.min(made.instructions.len() - 1));
    }
}

fn gate(random: &mut Random, qubits: u64) -> Instruction {
    let gate = random.below(15);
    let count = if gate <= 10 { 1 } else { 2 };
    Instruction::Unitary { gate, qubits: random.distinct(qubits, count).into_iter().collect() }
}

fn depolarizing(qubits: List, p: f64) -> Instruction {
    Instruction::Noise(Box::new(Noise::unconditional(p.to_bits(), Distribution::Depolarizing(qubits))))
}
