//! Rows and columns exchanged in blocks of 64 by 64, in plain Rust, to measure the engine beside.

use checker::plain::by_shot::Shape;

/// Write the source with rows and columns exchanged over the target.
pub fn transpose(shape: Shape, source: &[u64], target: &mut [u64]) {
    let (words, turned) = (shape.row_words(), shape.turned().row_words());
    for columns in 0..words {
        for rows in 0..turned {
            let mut block = [0; 64];
            for (row, word) in block.iter_mut().enumerate().take(shape.rows - 64 * rows) {
                *word = source[(64 * rows + row) * words + columns];
            }
            exchange(&mut block);
            for (column, word) in block.iter().enumerate().take(shape.columns - 64 * columns) {
                target[(64 * columns + column) * turned + rows] = *word;
            }
        }
    }
}

/// The loop of Hacker's Delight, section 7-3, at 64 bits.
fn exchange(block: &mut [u64; 64]) {
    let (mut width, mut mask) = (32, u64::MAX >> 32);
    while width != 0 {
        let mut row = 0;
        while row < 64 {
            let moved = (block[row] >> width ^ block[row + width]) & mask;
            block[row] ^= moved << width;
            block[row + width] ^= moved;
            row = (row + width + 1) & !width;
        }
        width /= 2;
        mask ^= mask << width;
    }
}

#[cfg(test)]
mod tests {
    use super::transpose;
    use checker::plain::by_shot::{self, Shape};
    use generator::random::Random;

    #[test]
    fn blocks_are_exchanged_as_bits_are() {
        let mut random = Random::new(1);
        for (rows, columns) in [(1, 1), (64, 64), (65, 127), (130, 63), (0, 5), (3, 0)] {
            let shape = Shape { rows, columns };
            let source: Vec<u64> = (0..shape.words()).map(|_| random.word()).collect();
            let (mut blocks, mut bits) = (vec![7; shape.turned().words()], vec![7; shape.turned().words()]);
            transpose(shape, &source, &mut blocks);
            by_shot::transpose(shape, &source, &mut bits).expect("enough words");
            assert_eq!(blocks, bits);
        }
    }
}
