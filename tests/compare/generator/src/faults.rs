//! Jobs without noise that differ in injections and flips alone: pairs that are apart but for some shots, and triples of which one is the sum.

use crate::jobs::{Shape, job};
use crate::random::Random;
use checker::gaps::{Gaps, fault_shot};
use checker::job::{Instruction, Pauli, usize_of};

/// A random job without noise, with injections and flips of few shots between its other lines.
pub fn scattered(random: &mut Random, shape: &Shape) -> Gaps {
    let made = job(random, &Shape { noise: 0, ..*shape });
    let gaps = Gaps::of(made.header, made.instructions);
    let count = 1 + random.index(6);
    let shots = random.distinct(gaps.header.shots, count);
    let faults = faults(random, &gaps, &shots);
    gaps.with(faults)
}

/// A job that differs from another in injections and flips of shots outside a set, and in their order between the same two other lines.
pub fn apart(random: &mut Random, job: &Gaps, shots: &[bool]) -> Gaps {
    let in_set = |fault: &&Instruction| fault_shot(fault).is_some_and(|shot| shots[usize_of(shot)]);
    let outside: Vec<u64> = (0..job.header.shots).filter(|shot| !shots[usize_of(*shot)]).collect();
    let new = faults(random, job, &outside);
    let gaps = job.faults.iter().zip(new).map(|(old, new)| {
        let all = old.iter().filter(in_set).cloned().chain(new).collect();
        shuffled(random, all)
    });
    let faults = gaps.collect();
    job.with(faults)
}

/// A job with injections and flips of its own, and with some of another's among the same lines.
pub fn beside(random: &mut Random, job: &Gaps) -> Gaps {
    let shots: Vec<u64> = (0..job.header.shots).collect();
    let busy: Vec<u64> = job.faults.iter().flatten().filter_map(fault_shot).collect();
    let own = faults(random, job, if busy.is_empty() { &shots } else { &busy });
    let gaps = job.faults.iter().zip(own).map(|(theirs, own)| {
        let shared = theirs.iter().filter(|_| random.one_in(3)).cloned().collect::<Vec<_>>();
        shuffled(random, shared.into_iter().chain(own).collect())
    });
    let faults = gaps.collect();
    job.with(faults)
}

/// The job that holds the injections and flips of two, in any order between the same two other lines.
pub fn sum(random: &mut Random, one: &Gaps, other: &Gaps) -> Gaps {
    let both = one.faults.iter().zip(&other.faults);
    let faults = both.map(|(one, other)| shuffled(random, [one.as_slice(), other].concat())).collect();
    one.with(faults)
}

/// Injections and flips in some of these shots, for each gap of a job.
fn faults(random: &mut Random, job: &Gaps, shots: &[u64]) -> Vec<Vec<Instruction>> {
    let mut recorded = 0;
    let mut all = Vec::new();
    for place in 0..job.faults.len() {
        let count = if shots.is_empty() || random.one_in(2) { 0 } else { random.index(4) };
        all.push((0..count).map(|_| fault(random, job.header.qubits, recorded, shots)).collect());
        let line = job.others.get(place);
        recorded += u64::from(matches!(line, Some(Instruction::Measure { .. } | Instruction::Allocate { .. })));
    }
    all
}

fn fault(random: &mut Random, qubits: u64, recorded: u64, shots: &[u64]) -> Instruction {
    let shot = random.pick(shots);
    if recorded > 0 && random.one_in(3) {
        return Instruction::Flip { shot, id: random.below(recorded) };
    }
    let mut list = || {
        let count = random.index(3);
        random.subset(qubits, count).into_iter().collect()
    };
    Instruction::Inject { shot, pauli: Pauli { x: list(), z: list() } }
}

fn shuffled(random: &mut Random, faults: Vec<Instruction>) -> Vec<Instruction> {
    let order = random.distinct(faults.len() as u64, faults.len());
    order.into_iter().map(|place| faults[usize_of(place)].clone()).collect()
}

#[cfg(test)]
mod tests {
    use super::{apart, beside, scattered, sum};
    use crate::jobs::{ANY, DENSE};
    use crate::random::Random;
    use checker::gaps::Gaps;
    use checker::job::usize_of;
    use checker::read::read;

    #[test]
    fn jobs_are_accepted_and_as_they_are_called() {
        let mut random = Random::new(1);
        for count in 0..500 {
            let random = &mut random;
            let first = scattered(random, if count % 2 == 0 { &ANY } else { &DENSE });
            let shots: Vec<bool> = (0..first.header.shots).map(|_| random.one_in(2)).collect();
            let in_set = |shot| shots[usize_of(shot)];
            let other = apart(random, &first, &shots);
            let second = beside(random, &first);
            let both = sum(random, &first, &second);
            assert!(first.is_apart(&other, in_set) && both.is_sum(&first, &second));
            for job in [first, other, second, both] {
                let bytes = job.bytes();
                assert_eq!(read(&bytes).map(Gaps::of_job), Ok(job));
            }
        }
    }
}
