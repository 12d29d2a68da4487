//! Outcomes by shot: a row for each shot, as decoders read them.

use crate::refusal::result_of;
use crate::{Frames, Refusal, sys};

/// Write deltas, a row of ceil(shots / 64) words for each outcome, as rows by shot at the front of `out`: a row of ceil(outcomes / 64) words for each shot,
/// in order. Outcome o is bit o mod 64 of word o / 64; bits past the last outcome are zero, and words beyond the rows stay.
///
/// # Errors
///
/// The refusal by 3 (counts that a header may not hold) or 13 (too few words on either side), with line 0. Nothing is written then.
///
/// ```
/// use kundatrezo::{by_outcome, by_shot};
///
/// // outcome 0 differs in shots 0 and 2, outcome 1 in shot 2
/// let deltas = [0b101, 0b100];
/// let mut rows = [0; 3];
/// by_shot(2, 3, &deltas, &mut rows)?;
/// assert_eq!(rows, [0b01, 0b00, 0b11]);
///
/// let mut back = [0; 2];
/// by_outcome(2, 3, &rows, &mut back)?;
/// assert_eq!(back, deltas);
/// # Ok::<(), kundatrezo::Refusal>(())
/// ```
pub fn by_shot(outcomes: u64, shots: u64, deltas: &[u64], out: &mut [u64]) -> Result<(), Refusal> {
    result_of(&sys::by_shot(outcomes, shots, deltas, out), 0).map(drop)
}

/// The way back: write rows by shot as deltas at the front of `out`. Bits of a row past the last outcome go nowhere.
///
/// # Errors
///
/// As [`by_shot`].
pub fn by_outcome(outcomes: u64, shots: u64, rows: &[u64], out: &mut [u64]) -> Result<(), Refusal> {
    result_of(&sys::by_outcome(outcomes, shots, rows, out), 0).map(drop)
}

/// Deltas by shot, in memory of their own: a row for each shot.
///
/// ```
/// use kundatrezo::{Draws, Frames, Shots, bit};
///
/// let job = b"op=job qubits=1 outcomes=2 shots=3\nop=i shot=1 x=0 z=-\nop=o x=- z=0 id=0\nop=r id=1 angle=0\n";
/// let shots = Shots::from_frames(&Frames::from_run(job, &[0; 2], Draws::default())?);
/// let flipped: Vec<Vec<bool>> = shots.iter().map(|row| (0..2).map(|id| bit(row, id)).collect()).collect();
/// assert_eq!(flipped, [[false, false], [true, false], [false, false]]);
/// # Ok::<(), kundatrezo::Refusal>(())
/// ```
#[derive(Debug, Clone, Default, PartialEq, Eq)]
pub struct Shots {
    outcomes: usize,
    shots: usize,
    words: Vec<u64>,
}

impl Shots {
    /// The deltas of `outcomes` outcomes in `shots` shots, by shot.
    ///
    /// # Errors
    ///
    /// The refusal by 3 (counts that a header may not hold) or 13 (too few deltas).
    pub fn new(outcomes: usize, shots: usize, deltas: &[u64]) -> Result<Self, Refusal> {
        let most = crate::MAX_SHOTS * crate::MAX_OUTCOMES.div_ceil(64);
        let mut words = vec![0; shots.saturating_mul(outcomes.div_ceil(64)).min(most)];
        by_shot(outcomes as u64, shots as u64, deltas, &mut words)?;
        Ok(Self { outcomes, shots, words })
    }

    /// The deltas that a run left, by shot; no rows where there was no run.
    #[must_use]
    pub fn from_frames(frames: &Frames) -> Self {
        let job = frames.job();
        Self::new(job.outcomes, job.shots, frames.deltas()).unwrap_or_default()
    }

    /// How many outcomes a row has a bit for.
    #[must_use]
    pub fn outcomes(&self) -> usize {
        self.outcomes
    }

    /// How many shots there are, a row for each.
    #[must_use]
    pub fn shots(&self) -> usize {
        self.shots
    }

    /// All rows, one after the other.
    #[must_use]
    pub fn words(&self) -> &[u64] {
        &self.words
    }

    /// The row of a shot.
    ///
    /// # Panics
    ///
    /// Panics if there is no such shot.
    #[must_use]
    pub fn row(&self, shot: usize) -> &[u64] {
        assert!(shot < self.shots, "there is no shot {shot}");
        let words = self.outcomes.div_ceil(64);
        &self.words[shot * words..][..words]
    }

    /// The rows, shot 0 first.
    pub fn iter(&self) -> impl ExactSizeIterator<Item = &[u64]> {
        (0..self.shots).map(|shot| self.row(shot))
    }
}
