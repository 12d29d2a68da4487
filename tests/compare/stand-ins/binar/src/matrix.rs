//! Matrices of bits, row after row.

use crate::{Bitwise, BitwiseMut, Words, WordsMut, ones, place_of, words_for};

/// A matrix of bits. Every row starts with a word of its own.
#[derive(Debug, Clone, PartialEq, Eq)]
pub struct AlignedBitMatrix {
    words: Vec<u64>,
    rows: usize,
    columns: usize,
    stride: usize,
}

/// A row to look at.
#[derive(Clone, Copy)]
pub struct Row<'a>(&'a [u64]);

/// A row to write to.
pub struct RowMut<'a>(&'a mut [u64]);

impl AlignedBitMatrix {
    /// A matrix of zeros.
    #[must_use]
    pub fn with_shape(rows: usize, columns: usize) -> Self {
        let stride = words_for(columns);
        Self { words: vec![0; rows * stride], rows, columns, stride }
    }

    /// Rows and columns.
    #[must_use]
    pub fn shape(&self) -> (usize, usize) {
        (self.rows, self.columns)
    }

    /// How many rows there are.
    #[must_use]
    pub fn row_count(&self) -> usize {
        self.rows
    }

    /// A row to look at.
    #[inline]
    #[must_use]
    pub fn row(&self, row: usize) -> Row<'_> {
        Row(&self.words[row * self.stride..][..self.stride])
    }

    /// A row to write to.
    #[inline]
    pub fn row_mut(&mut self, row: usize) -> RowMut<'_> {
        RowMut(&mut self.words[row * self.stride..][..self.stride])
    }

    /// Two different rows to write to.
    #[inline]
    pub fn rows_mut(&mut self, first: usize, second: usize) -> (RowMut<'_>, RowMut<'_>) {
        let stride = self.stride;
        let (low, high) = (first.min(second), first.max(second));
        let (front, back) = self.words.split_at_mut(high * stride);
        let low_row = RowMut(&mut front[low * stride..][..stride]);
        let high_row = RowMut(&mut back[..stride]);
        if first < second { (low_row, high_row) } else { (high_row, low_row) }
    }

    /// Exchange two rows.
    pub fn swap_rows(&mut self, first: usize, second: usize) {
        if first != second {
            let (one, other) = self.rows_mut(first, second);
            one.0.swap_with_slice(other.0);
        }
    }

    /// Change the bit at a row and column.
    pub fn negate(&mut self, (row, column): (usize, usize)) {
        assert!(row < self.rows && column < self.columns, "bit out of range");
        let (word, mask) = place_of(column);
        self.words[row * self.stride + word] ^= mask;
    }

    /// Change the bit at a row and column.
    ///
    /// # Safety
    ///
    /// Row and column must be in range.
    #[inline]
    pub unsafe fn negate_unchecked(&mut self, (row, column): (usize, usize)) {
        let (word, mask) = place_of(column);
        // SAFETY: the caller promises that the bit is in range, and so its word is.
        unsafe { *self.words.get_unchecked_mut(row * self.stride + word) ^= mask };
    }

    /// Rows and columns exchanged.
    #[must_use]
    pub fn transposed(&self) -> Self {
        let mut turned = Self::with_shape(self.columns, self.rows);
        for row in 0..self.rows {
            for column in ones(self.row(row).0).filter(|&column| column < self.columns) {
                turned.negate((column, row));
            }
        }
        turned
    }

    /// Change the shape; new bits are 0.
    pub fn resize(&mut self, rows: usize, columns: usize) {
        let old = std::mem::replace(self, Self::with_shape(rows, columns));
        let kept = old.stride.min(self.stride);
        for row in 0..old.rows.min(rows) {
            self.row_mut(row).0[..kept].copy_from_slice(&old.row(row).0[..kept]);
        }
    }
}

impl Words for Row<'_> {
    #[inline]
    fn words(&self) -> &[u64] {
        self.0
    }
}

impl Bitwise for Row<'_> {
    #[inline]
    fn index(&self, index: usize) -> bool {
        let (word, mask) = place_of(index);
        self.0[word] & mask != 0
    }

    fn support(&self) -> impl Iterator<Item = usize> {
        ones(self.0)
    }
}

impl Words for RowMut<'_> {
    #[inline]
    fn words(&self) -> &[u64] {
        self.0
    }
}

impl WordsMut for RowMut<'_> {
    #[inline]
    fn words_mut(&mut self) -> &mut [u64] {
        self.0
    }
}

impl BitwiseMut for RowMut<'_> {
    fn assign_index(&mut self, index: usize, value: bool) {
        let (word, mask) = place_of(index);
        if value {
            self.0[word] |= mask;
        } else {
            self.0[word] &= !mask;
        }
    }

    fn clear_bits(&mut self) {
        self.0.fill(0);
    }
}

#[cfg(test)]
mod tests {
    use super::AlignedBitMatrix;
    use crate::{Bitwise, BitwiseMut, BitwisePairMut};

    fn support(matrix: &AlignedBitMatrix, row: usize) -> Vec<usize> {
        matrix.row(row).support().collect()
    }

    #[test]
    fn rows_are_apart() {
        for columns in [1, 63, 64, 65, 128, 4096] {
            let mut matrix = AlignedBitMatrix::with_shape(3, columns);
            matrix.negate((1, columns - 1));
            matrix.negate((2, 0));
            {
                let (target, source) = matrix.rows_mut(1, 2);
                let mut target = target;
                target.bitxor_assign(&source);
            }
            let expected = if columns == 1 { vec![] } else { vec![0, columns - 1] };
            assert_eq!(support(&matrix, 1), expected);
            matrix.swap_rows(0, 2);
            assert_eq!(support(&matrix, 0), [0]);
            assert_eq!(support(&matrix, 2), []);
            matrix.row_mut(0).clear_bits();
            assert_eq!(support(&matrix, 0), []);
        }
    }

    #[test]
    fn rows_become_columns() {
        let mut matrix = AlignedBitMatrix::with_shape(3, 70);
        matrix.negate((2, 69));
        let turned = matrix.transposed();
        assert_eq!(turned.shape(), (70, 3));
        assert_eq!((support(&turned, 69), support(&turned, 2)), (vec![2], vec![]));
        assert_eq!(turned.transposed(), matrix);
    }

    #[test]
    fn growing_keeps_the_rows() {
        let mut matrix = AlignedBitMatrix::with_shape(1, 70);
        matrix.negate((0, 69));
        matrix.resize(4, 70);
        assert_eq!(matrix.shape(), (4, 70));
        assert_eq!(support(&matrix, 0), [69]);
        assert_eq!(support(&matrix, 3), []);
    }
}
