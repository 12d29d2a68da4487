//! Outcomes by shot, and the way back, a bit at a time (note 8).

use super::need_words;
use crate::job::{MAX_OUTCOMES, MAX_SHOTS, Refusal, usize_of};

/// Rows of bits and as many columns, in words.
#[derive(Debug, Clone, Copy)]
pub struct Shape {
    /// How many rows there are.
    pub rows: usize,
    /// How many bits a row has.
    pub columns: usize,
}

impl Shape {
    /// Outcomes as rows, shots as columns.
    ///
    /// # Errors
    ///
    /// 3, where a header may not hold the counts.
    pub fn of_counts(outcomes: u64, shots: u64) -> Result<Self, Refusal> {
        if outcomes > MAX_OUTCOMES || shots == 0 || shots > MAX_SHOTS {
            return Err(Refusal::of_call(3));
        }
        Ok(Self { rows: usize_of(outcomes), columns: usize_of(shots) })
    }

    /// Rows and columns exchanged.
    #[must_use]
    pub fn turned(self) -> Self {
        Self { rows: self.columns, columns: self.rows }
    }

    /// The words of a row.
    #[must_use]
    pub fn row_words(self) -> usize {
        self.columns.div_ceil(64)
    }

    /// The words of all rows.
    #[must_use]
    pub fn words(self) -> usize {
        self.rows * self.row_words()
    }

    /// 13: whether both sides have the words that they need.
    ///
    /// # Errors
    ///
    /// The refusal, where one is too short.
    pub fn need(self, source: &[u64], target: &[u64]) -> Result<(), Refusal> {
        need_words(&[(source, self.words()), (target, self.turned().words())])
    }
}

/// Write the source with rows and columns exchanged over the front of the target, whose padding is 0.
///
/// # Errors
///
/// 13, where a side is too short.
pub fn transpose(shape: Shape, source: &[u64], target: &mut [u64]) -> Result<(), Refusal> {
    shape.need(source, target)?;
    let (words, turned) = (shape.row_words(), shape.turned().row_words());
    target[..shape.turned().words()].fill(0);
    for row in 0..shape.rows {
        for column in 0..shape.columns {
            let bit = source[row * words + column / 64] >> (column % 64) & 1;
            target[column * turned + row / 64] |= bit << (row % 64);
        }
    }
    Ok(())
}
