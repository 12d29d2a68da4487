//! Clifford tables of five to eight qubits beside the published code (note 12 of document 02): runs of jobs with several of them, and walks back through
//! them.

use crate::differences::{Counts, report};
use checker::calls::Calls;
use checker::job::{Header, Instruction};
use checker::read::read;
use generator::inputs::lent;
use generator::jobs::{DENSE, Made, Shape, job_of};
use generator::random::Random;
use reference::Reference;
use reference::vectors::{Call, Input};

/// Compare `count` jobs with tables of five qubits or more, and print what was found, and how many tables of each width were run to the job's end.
pub fn passes(under_test: &dyn Calls, count: u64, seed: u64) -> bool {
    let (mut walks, mut differences) = (0, 0);
    let mut widths = Counts::default();
    for seed in (0..count).map(|k| seed.wrapping_add(k)) {
        let random = &mut Random::new(seed);
        let made = job(random, seed % 2);
        let calls = if seed % 2 == 0 { [Call::Run, Call::Walk] } else { [Call::Run, Call::Settle] };
        for call in calls {
            let input = lent(random, call, &made.bytes());
            let (expected, actual) = (input.make(call, &Reference), input.make(call, under_test));
            if expected != actual {
                differences += 1;
                if differences == 1 {
                    report(under_test, call, seed, &input);
                }
            }
            if expected.is_some_and(|output| output.answer.number == 0) {
                match call {
                    Call::Run => widths.extend(table_widths(&input)),
                    Call::Walk => walks += 1,
                    _ => {}
                }
            }
        }
    }
    println!("tables: {count} jobs, tables by qubits {widths}, {walks} walks, {differences} differences");
    differences == 0
}

/// A job with tables of every width; with noise or without, which a walk asks for.
fn job(random: &mut Random, noise: u64) -> Made {
    let qubits = random.pick(&[8, 8, 9, 12, 40]);
    let header = Header { edition: None, qubits, outcomes: 12, shots: random.pick(&[1, 5, 64, 65, 200]) };
    let lines = random.between(8, 40);
    job_of(random, header, lines, &Shape { noise, tables: 6, ..DENSE })
}

/// How many qubits each table of a job has.
fn table_widths(input: &Input) -> impl Iterator<Item = usize> {
    let job = read(&input.job).expect("a job that was run");
    let width = |instruction: &Instruction| match instruction {
        Instruction::Clifford { qubits, .. } => Some(qubits.len()),
        _ => None,
    };
    job.lines.iter().filter_map(|line| width(&line.instruction)).collect::<Vec<_>>().into_iter()
}

#[cfg(test)]
mod tests {
    use checker::plain::Plain;

    #[test]
    fn the_plain_calls_agree_with_the_published_code() {
        assert!(super::passes(&Plain, 300, 1));
    }
}
