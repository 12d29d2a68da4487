//! Settling: noise instructions replaced by injections.

use crate::calls::Draws;
use crate::job::{Instruction, Job, Pauli, Refusal};
use crate::plain::draws::{Words, faults};
use crate::write;

/// What draws make of a job.
pub struct Settled {
    /// For each instruction the faults that fall, by rising shots; empty for all but noise.
    pub faults: Vec<Vec<(u64, Pauli)>>,
    /// How many words of the main list were read.
    pub words_read: u64,
}

/// Draw every noise instruction's faults.
///
/// # Errors
///
/// 14 at the first noise line that needs a draw past its list.
pub fn settled(job: &Job<'_>, draws: Draws<'_>, noiseless: &[u64]) -> Result<Settled, Refusal> {
    settled_and_read(job, draws, noiseless).0
}

/// The same, and how many words of the main list were read, also where draws are spent.
pub fn settled_and_read(job: &Job<'_>, draws: Draws<'_>, noiseless: &[u64]) -> (Result<Settled, Refusal>, u64) {
    let mut main = Words::from(draws.main, 0);
    let mut all = Vec::with_capacity(job.lines.len());
    for line in &job.lines {
        all.push(match &line.instruction {
            Instruction::Noise(noise) => match faults(noise, &job.header, &draws, noiseless, &mut main) {
                Some(faults) => faults,
                None => return (Err(Refusal::at(14, line.number)), main.place()),
            },
            _ => Vec::new(),
        });
    }
    (Ok(Settled { faults: all, words_read: main.place() }), main.place())
}

impl Settled {
    /// The settled list as text.
    #[must_use]
    pub fn text(&self, job: &Job<'_>) -> Vec<u8> {
        let mut text = job.header_text.to_vec();
        for (line, faults) in job.lines.iter().zip(&self.faults) {
            match line.instruction {
                Instruction::Noise(_) => {
                    for (shot, pauli) in faults {
                        text.extend_from_slice(write::inject(*shot, pauli).as_bytes());
                    }
                }
                _ => text.extend_from_slice(line.text),
            }
        }
        text
    }
}
