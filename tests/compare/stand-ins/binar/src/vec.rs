//! Vectors of bits.

use crate::{Bitwise, BitwiseMut, Words, WordsMut, ones, place_of, words_for};

/// A vector of bits.
#[derive(Debug, Clone, PartialEq, Eq)]
pub struct AlignedBitVec {
    words: Vec<u64>,
}

impl AlignedBitVec {
    /// `length` bits, all 0.
    #[must_use]
    pub fn zeros(length: usize) -> Self {
        Self { words: vec![0; words_for(length)] }
    }

    /// A copy of a row.
    #[must_use]
    pub fn from_view<Row: Words>(row: &Row) -> Self {
        Self { words: row.words().to_vec() }
    }

    /// Set every bit to 0.
    pub fn clear(&mut self) {
        self.clear_bits();
    }
}

impl Words for AlignedBitVec {
    #[inline]
    fn words(&self) -> &[u64] {
        &self.words
    }
}

impl WordsMut for AlignedBitVec {
    #[inline]
    fn words_mut(&mut self) -> &mut [u64] {
        &mut self.words
    }
}

impl Bitwise for AlignedBitVec {
    fn index(&self, index: usize) -> bool {
        let (word, mask) = place_of(index);
        self.words[word] & mask != 0
    }

    fn support(&self) -> impl Iterator<Item = usize> {
        ones(&self.words)
    }
}

impl BitwiseMut for AlignedBitVec {
    fn assign_index(&mut self, index: usize, value: bool) {
        let (word, mask) = place_of(index);
        if value {
            self.words[word] |= mask;
        } else {
            self.words[word] &= !mask;
        }
    }

    fn clear_bits(&mut self) {
        self.words.fill(0);
    }
}
