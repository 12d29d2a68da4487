//! Frames and deltas in memory of their own.

use crate::{DrawSource, Examination, Number, Refusal, Rows, examine, run};
use std::error::Error;
use std::fmt;
use std::ops::BitXorAssign;

/// The frames and outcome deltas that a run leaves, in memory of their own, which a further run uses again.
///
/// ```
/// use kundatrezo::{Draws, Frames, bit};
///
/// // X on both qubits with probability 1, then a measurement of Z on qubit 1
/// let job = b"op=job qubits=2 outcomes=1 shots=70
/// op=n p=3ff0000000000000 corr=- cond=- parity=0 d=1 x=0,1 z=- size=1
/// op=o x=- z=1 id=0
/// ";
/// let words = [0; 70];
/// let noiseless = [0; 2];
/// let frames = Frames::from_run(job, &noiseless, Draws::new(&words))?;
/// assert_eq!(frames.delta_row(0), [u64::MAX, 0x3f]);
/// assert_eq!(frames.totals(), [70]);
/// assert!(bit(frames.x_row(0), 69) && !bit(frames.z_row(0), 69));
/// # Ok::<(), kundatrezo::Refusal>(())
/// ```
#[derive(Debug, Clone, Default, PartialEq, Eq)]
pub struct Frames {
    job: Examination,
    x: Vec<u64>,
    z: Vec<u64>,
    deltas: Vec<u64>,
    totals: Vec<u64>,
}

impl Frames {
    /// Frames without rows, for a run to come.
    #[must_use]
    pub fn new() -> Self {
        Self::default()
    }

    /// The frames and deltas of a run.
    ///
    /// # Errors
    ///
    /// The refusal by a test of the job, 13 (too few noiseless words), 26 or 14.
    pub fn from_run(job: &[u8], noiseless: &[u64], draws: impl DrawSource) -> Result<Self, Refusal> {
        let mut frames = Self::new();
        frames.run(job, noiseless, draws)?;
        Ok(frames)
    }

    /// Run a job in this memory, which grows as the job's header asks. After a refusal by 13, 14 or 26 every row and total is zero, and after one by a test of
    /// the job there are none.
    ///
    /// # Errors
    ///
    /// The refusal by a test of the job, 13 (too few noiseless words), 26 or 14.
    pub fn run(&mut self, job: &[u8], noiseless: &[u64], draws: impl DrawSource) -> Result<(), Refusal> {
        let examined = examine(job);
        self.lend(examined.unwrap_or_default());
        examined?;
        self.run_in(job, noiseless, draws)
    }

    /// The same for a job of which these numbers are known.
    pub(crate) fn run_examined(
        &mut self,
        numbers: Examination,
        job: &[u8],
        noiseless: &[u64],
        draws: impl DrawSource,
    ) -> Result<(), Refusal> {
        self.lend(numbers);
        self.run_in(job, noiseless, draws)
    }

    /// Cleared memory for a job of these numbers.
    fn lend(&mut self, job: Examination) {
        self.job = job;
        for (list, need) in [
            (&mut self.x, self.job.frame_words()),
            (&mut self.z, self.job.frame_words()),
            (&mut self.deltas, self.job.outcome_words()),
            (&mut self.totals, self.job.outcomes),
        ] {
            list.clear();
            list.resize(need, 0);
        }
    }

    fn run_in(&mut self, job: &[u8], noiseless: &[u64], draws: impl DrawSource) -> Result<(), Refusal> {
        let rows = Rows::new(&mut self.x, &mut self.z, &mut self.deltas).with_totals(&mut self.totals);
        run(job, rows, noiseless, draws)
    }

    /// The numbers of the job that the rows lie by; all zero where the last job did not pass the checks.
    #[must_use]
    pub fn job(&self) -> Examination {
        self.job
    }

    /// The X part of the frames, a row for each qubit.
    #[must_use]
    pub fn x(&self) -> &[u64] {
        &self.x
    }

    /// The Z part of the frames, a row for each qubit.
    #[must_use]
    pub fn z(&self) -> &[u64] {
        &self.z
    }

    /// The deltas, a row for each outcome of the header; rows of outcomes that no line records are zero.
    #[must_use]
    pub fn deltas(&self) -> &[u64] {
        &self.deltas
    }

    /// How many shots flip each outcome of the header: the ones in its delta row. That of an outcome which no line records is 0.
    #[must_use]
    pub fn totals(&self) -> &[u64] {
        &self.totals
    }

    /// The X row of a qubit.
    ///
    /// # Panics
    ///
    /// Panics if the qubit is not below the header's qubits.
    #[must_use]
    pub fn x_row(&self, qubit: usize) -> &[u64] {
        self.row(&self.x, qubit)
    }

    /// The Z row of a qubit.
    ///
    /// # Panics
    ///
    /// Panics if the qubit is not below the header's qubits.
    #[must_use]
    pub fn z_row(&self, qubit: usize) -> &[u64] {
        self.row(&self.z, qubit)
    }

    /// The delta row of an outcome.
    ///
    /// # Panics
    ///
    /// Panics if the outcome is not below the header's outcomes.
    #[must_use]
    pub fn delta_row(&self, id: usize) -> &[u64] {
        self.row(&self.deltas, id)
    }

    /// Add the rows of another run, as `^=` does.
    ///
    /// # Errors
    ///
    /// The headers of the two jobs differ. Nothing is added then.
    pub fn try_add(&mut self, other: &Self) -> Result<(), FrameSizeError> {
        if self.job == Examination::default() {
            self.clone_from(other);
            return Ok(());
        }
        let header = |job: Examination| [job.qubits, job.outcomes, job.shots];
        if header(self.job) != header(other.job) {
            return Err(FrameSizeError { own: header(self.job), other: header(other.job) });
        }
        for (rows, others) in [(&mut self.x, &other.x), (&mut self.z, &other.z), (&mut self.deltas, &other.deltas)] {
            for (word, other) in rows.iter_mut().zip(others) {
                *word ^= other;
            }
        }
        for (id, total) in self.totals.iter_mut().enumerate() {
            let words = self.job.words_per_row();
            *total = self.deltas[id * words..][..words].iter().map(|word| u64::from(word.count_ones())).sum();
        }
        Ok(())
    }

    /// The parity row of each set of outcomes: the sum of its delta rows, modulo 2. The rows replace what `out` held.
    ///
    /// # Errors
    ///
    /// The refusal by 17 if a set has an outcome that is not below the header's outcomes.
    pub fn parities(&self, sets: &[Vec<u64>], out: &mut Vec<u64>) -> Result<(), Refusal> {
        self.require_outcomes(sets)?;
        let words = self.job.words_per_row();
        out.clear();
        out.resize(sets.len() * words, 0);
        for (row, set) in out.chunks_exact_mut(words.max(1)).zip(sets) {
            for id in set {
                row.iter_mut().zip(self.delta_row(crate::size(*id))).for_each(|(word, delta)| *word ^= delta);
            }
        }
        Ok(())
    }

    /// Refuse sets with an outcome that has no row.
    pub(crate) fn require_outcomes(&self, sets: &[Vec<u64>]) -> Result<(), Refusal> {
        if sets.iter().flatten().any(|id| *id >= self.job.outcomes as u64) {
            return Err(Refusal { number: Number::WALK, line: 0, bytes_needed: 0 });
        }
        Ok(())
    }

    fn row<'a>(&self, list: &'a [u64], place: usize) -> &'a [u64] {
        let words = self.job.words_per_row();
        &list[place * words..][..words]
    }
}

/// Frames of jobs with different headers, which can't be added.
#[derive(Debug, Clone, Copy, PartialEq, Eq)]
pub struct FrameSizeError {
    /// The qubits, outcomes and shots of each job.
    own: [usize; 3],
    other: [usize; 3],
}

impl fmt::Display for FrameSizeError {
    fn fmt(&self, f: &mut fmt::Formatter<'_>) -> fmt::Result {
        let header =
            |[qubits, outcomes, shots]: [usize; 3]| format!("qubits={qubits} outcomes={outcomes} shots={shots}");
        write!(f, "frames of {} can't be added to those of {}", header(self.other), header(self.own))
    }
}

impl Error for FrameSizeError {}

/// Adds the rows of another run, by exclusive or, and counts the totals of the sum; frames without rows take the other's.
///
/// Let the two jobs be without noise and have the same header and the same lines but for injections and flips. The sum is then what a job leaves that
/// holds the injections and flips of both, each among the same lines, and twice where both hold it there (`faults-add-calls` in
/// crates/backward/specs/ShotTheorems.antt of the repository).
///
/// # Panics
///
/// Panics if the headers of the two jobs differ; [`Frames::try_add`] returns an error then.
///
/// ```
/// use kundatrezo::{Draws, Frames};
///
/// let run = |faults: [&str; 2]| {
///     let [first, second] = faults;
///     let job = format!("op=job qubits=1 outcomes=2 shots=2\n{first}op=o x=- z=0 id=0\nop=z q=0\n{second}op=o x=- z=0 id=1\n");
///     Frames::from_run(job.as_bytes(), &[0, 0], Draws::default())
/// };
/// let (x, y) = ("op=i shot=0 x=0 z=-\n", "op=i shot=1 x=0 z=0\n");
/// let mut sum = run([x, y])?;
/// sum ^= &run([x, ""])?;
/// // both hold the X of shot 0 before the first measurement: there it stands twice, and cancels
/// let both = run([&format!("{x}{x}"), y])?;
/// assert_eq!((sum.x(), sum.z(), sum.deltas()), (both.x(), both.z(), both.deltas()));
/// assert_eq!((sum.deltas(), sum.totals()), (&[0b00, 0b10][..], &[0, 1][..]));
/// # Ok::<(), kundatrezo::Refusal>(())
/// ```
impl BitXorAssign<&Frames> for Frames {
    fn bitxor_assign(&mut self, other: &Frames) {
        if let Err(error) = self.try_add(other) {
            panic!("{error}");
        }
    }
}

/// The bit of a shot in a row.
///
/// # Panics
///
/// Panics if the row has no such bit.
#[must_use]
pub fn bit(row: &[u64], shot: usize) -> bool {
    row[shot / 64] >> (shot % 64) & 1 == 1
}

#[cfg(test)]
mod tests {
    use super::*;
    use crate::Draws;

    #[test]
    fn frames_of_other_sizes_are_not_added() {
        let run = |header: &str| Frames::from_run(header.as_bytes(), &[0; 9], Draws::default()).expect("it runs");
        let own = run("op=job qubits=1 outcomes=2 shots=3\n");
        let mut sum = own.clone();
        for header in ["qubits=2 outcomes=2 shots=3", "qubits=1 outcomes=1 shots=3", "qubits=1 outcomes=2 shots=4"] {
            let error = sum.try_add(&run(&format!("op=job {header}\n"))).unwrap_err();
            let said = format!("frames of {header} can't be added to those of qubits=1 outcomes=2 shots=3");
            assert_eq!((error.to_string(), sum.deltas()), (said, own.deltas()));
        }
        assert_eq!(sum.try_add(&own), Ok(()));
    }
}
