//! What a job asks of its caller.

use crate::refusal::result_of;
use crate::{Refusal, sys, walk};

/// The numbers of an accepted job, which say how many words a run needs. The default, all zero, is that of no job.
///
/// ```
/// use kundatrezo::examine;
///
/// let job = examine(b"op=job qubits=2 outcomes=5 shots=100\nop=o x=- z=0 id=0\n")?;
/// assert_eq!((job.qubits, job.outcomes, job.shots, job.recorded, job.lines), (2, 5, 100, 1, 2));
/// assert_eq!((job.words_per_row(), job.frame_words(), job.outcome_words()), (2, 4, 10));
/// # Ok::<(), kundatrezo::Refusal>(())
/// ```
#[derive(Debug, Clone, Copy, Default, PartialEq, Eq, Hash)]
#[non_exhaustive]
pub struct Examination {
    /// The header's qubits, from 1 to [`MAX_QUBITS`](crate::MAX_QUBITS).
    pub qubits: usize,
    /// The header's outcomes, from 0 to [`MAX_OUTCOMES`](crate::MAX_OUTCOMES).
    pub outcomes: usize,
    /// The header's shots, from 1 to [`MAX_SHOTS`](crate::MAX_SHOTS).
    pub shots: usize,
    /// The outcomes that the job records: those whose ids are below this number.
    pub recorded: usize,
    /// The job's lines, its header's included.
    pub lines: usize,
}

impl Examination {
    /// Words of a row, a bit for each shot.
    #[must_use]
    pub fn words_per_row(&self) -> usize {
        self.shots.div_ceil(64)
    }

    /// Words that a run needs for the X part of the frames, and as many for the Z part.
    #[must_use]
    pub fn frame_words(&self) -> usize {
        self.qubits * self.words_per_row()
    }

    /// Words that a run needs for the deltas, and as many for the noiseless bits.
    #[must_use]
    pub fn outcome_words(&self) -> usize {
        self.outcomes * self.words_per_row()
    }

    /// What a list of outcomes that [`check_set`](Self::check_set) refuses must be; `what` names the list.
    #[must_use]
    pub fn outcomes_hint(&self, what: &str) -> String {
        match self.recorded {
            0 => "the job records no outcome".into(),
            some => format!("{what}: it names recorded outcomes, 0 to {}, each once", some - 1),
        }
    }

    /// Which shots there are, for a walk that is refused by its shot.
    #[must_use]
    pub fn shot_hint(&self) -> String {
        format!("the job's shots are 0 to {}", self.shots.saturating_sub(1))
    }

    /// Whether a set of outcomes rises strictly and names those alone that the job records. The walk judges it, on a job that records as many.
    ///
    /// # Errors
    ///
    /// The refusal by 17.
    ///
    /// ```
    /// use kundatrezo::{Number, examine};
    ///
    /// let job = examine(b"op=job qubits=2 outcomes=5 shots=100\nop=o x=- z=0 id=0\nop=o x=- z=1 id=1\n")?;
    /// assert_eq!(job.check_set(&[0, 1]), Ok(()));
    /// assert!([vec![1, 0], vec![0, 0], vec![2]].iter().all(|set| job.check_set(set).unwrap_err().number == Number::WALK));
    /// # Ok::<(), kundatrezo::Refusal>(())
    /// ```
    pub fn check_set(&self, set: &[u64]) -> Result<(), Refusal> {
        let lines: String = (0..self.recorded).map(|id| format!("op=r id={id} angle=0\n")).collect();
        let recording = format!("op=job qubits=1 outcomes={} shots=1\n{lines}", self.recorded);
        walk(recording.as_bytes(), 0, set).map(drop)
    }
}

/// Make the tests of a job, as [`check`](crate::check) does, and say what it asks of its caller.
///
/// # Errors
///
/// The refusal, at the first bad line and with its lowest number.
pub fn examine(job: &[u8]) -> Result<Examination, Refusal> {
    let reply = sys::examine(job);
    result_of(&reply.answer, 0)?;
    let [qubits, outcomes, shots, recorded, lines] =
        [reply.qubits, reply.outcomes, reply.shots, reply.recorded, reply.lines].map(crate::size);
    Ok(Examination { qubits, outcomes, shots, recorded, lines })
}

#[cfg(test)]
mod tests {
    use super::*;

    #[test]
    fn rows_round_up_to_whole_words() {
        let words = |shots| Examination { qubits: 3, outcomes: 2, shots, ..Examination::default() }.words_per_row();
        assert_eq!([1, 63, 64, 65, 4096].map(words), [1, 1, 1, 2, 64]);
    }
}
