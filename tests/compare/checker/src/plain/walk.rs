//! The walk back.

use crate::job::{Instruction, Job, Refusal, usize_of};
use crate::plain::frame::Frame;

/// 17 for a bad shot or set, then 16 for noise.
///
/// # Errors
///
/// The refusal.
pub fn need_walkable(job: &Job<'_>, shot: u64, set: &[u64]) -> Result<(), Refusal> {
    let rising = set.is_sorted_by(|one, next| one < next);
    let recorded = set.iter().all(|&id| id < job.recorded);
    if shot >= job.header.shots || !rising || !recorded {
        return Err(Refusal::of_call(17));
    }
    let noise = job.lines.iter().find(|line| matches!(line.instruction, Instruction::Noise(_)));
    noise.map_or(Ok(()), |line| Err(Refusal::at(16, line.number)))
}

/// How many injections and flips of a shot the set of outcomes notices.
///
/// # Errors
///
/// 17 or 16.
pub fn walk(job: &Job<'_>, shot: u64, set: &[u64]) -> Result<u64, Refusal> {
    need_walkable(job, shot, set)?;
    let mut back = Carried { observable: Frame::default(), set: vec![false; usize_of(job.recorded)], count: 0 };
    for &id in set {
        back.set[usize_of(id)] = true;
    }
    for line in job.lines.iter().rev() {
        back.through(&line.instruction, shot);
    }
    Ok(back.count)
}

/// What is carried back, and what it has noticed.
struct Carried {
    observable: Frame,
    set: Vec<bool>,
    count: u64,
}

impl Carried {
    fn through(&mut self, instruction: &Instruction, shot: u64) {
        match instruction {
            Instruction::Unitary { gate, qubits } => self.observable.gate(*gate, qubits, Frame::prepare_bell_back),
            Instruction::Clifford { qubits, table } => self.observable.clifford_back(table, qubits),
            Instruction::Exponential(pauli) => self.observable.exponential(pauli),
            Instruction::Controlled { control, target } => self.observable.controlled(control, target),
            Instruction::Permute { places, qubits } => self.observable.permute_back(places, qubits),
            Instruction::Measure { observable, id } => {
                if self.set[usize_of(*id)] {
                    self.observable.add(observable);
                }
            }
            Instruction::Conditional { pauli, ids, .. } => {
                if self.observable.anticommutes(pauli) {
                    ids.iter().for_each(|&id| self.set[usize_of(id)] ^= true);
                }
            }
            Instruction::Reset { qubits } => self.observable.clear(qubits),
            Instruction::Inject { shot: injected, pauli } if *injected == shot => {
                self.count += u64::from(self.observable.anticommutes(pauli));
            }
            Instruction::Flip { shot: flipped, id } if *flipped == shot => {
                self.count += u64::from(self.set[usize_of(*id)]);
            }
            Instruction::Pauli(_)
            | Instruction::Barrier { .. }
            | Instruction::Allocate { .. }
            | Instruction::Inject { .. }
            | Instruction::Flip { .. }
            | Instruction::Noise(_) => {}
        }
    }
}
