//! Stand-in for `rand`: lent words in place of random numbers, by the rules of document 01, 'Draws'.
//!
//! - The generator that a caller hands to the published sources is [`LentWords`], the main list, read on from draw to draw.
//! - `SmallRng::seed_from_u64` opens the second list, lent by [`lend_second`], at the seed's place.
//! - A draw past its list unwinds with [`Spent`], the only way out of the sources' loops; whoever runs them catches it.

use std::cell::RefCell;
use std::ops::Range;
use std::rc::Rc;

/// What a draw past its list unwinds with.
pub struct Spent;

/// Unwind without the panic's message: running out of words is an answer, not a fault of the program.
#[cold]
fn spent() -> ! {
    std::panic::resume_unwind(Box::new(Spent))
}

/// A source of words.
pub trait Rng {
    /// The next word.
    fn next_u64(&mut self) -> u64;
}

/// A value made from one word.
pub trait Random {
    /// The value of a word.
    fn from_word(word: u64) -> Self;
}

impl Random for u64 {
    #[inline]
    fn from_word(word: u64) -> u64 {
        word
    }
}

impl Random for f64 {
    /// u = floor(w / 2048) / 2^53, exact in binary64.
    #[inline]
    #[allow(clippy::cast_precision_loss)]
    fn from_word(word: u64) -> f64 {
        const SCALE: f64 = 1.0 / (1_u64 << 53) as f64;
        (word >> 11) as f64 * SCALE
    }
}

/// The draws that the published sources make.
pub trait RngExt: Rng {
    /// A value of the next word.
    #[inline]
    fn random<T: Random>(&mut self) -> T {
        T::from_word(self.next_u64())
    }

    /// A place below `range.end`, by rejection: the second of document 01's two replacements.
    #[inline]
    fn random_range(&mut self, range: Range<usize>) -> usize {
        let count = (range.end - range.start) as u64;
        let limit = u64::MAX - u64::MAX % count;
        loop {
            let word = self.next_u64();
            if word < limit {
                return range.start + usize::try_from(word % count).expect("below a usize");
            }
        }
    }
}

impl<R: Rng + ?Sized> RngExt for R {}

/// A generator that starts from a number.
pub trait SeedableRng {
    /// The generator of `seed`.
    fn seed_from_u64(seed: u64) -> Self;
}

/// The main list, read on from draw to draw.
pub struct LentWords<'a> {
    words: &'a [u64],
    read: usize,
}

impl<'a> LentWords<'a> {
    /// The list from its front.
    #[must_use]
    pub fn new(words: &'a [u64]) -> Self {
        Self { words, read: 0 }
    }

    /// How many words have been read.
    #[must_use]
    pub fn read(&self) -> usize {
        self.read
    }
}

impl Rng for LentWords<'_> {
    #[inline]
    fn next_u64(&mut self) -> u64 {
        let Some(&word) = self.words.get(self.read) else { spent() };
        self.read += 1;
        word
    }
}

thread_local! {
    static SECOND: RefCell<Rc<[u64]>> = RefCell::new(Rc::new([]));
}

/// Lend the second list to this thread, for every `SmallRng` made from here on.
pub fn lend_second(words: &[u64]) {
    SECOND.set(words.into());
}

/// Generators by name.
pub mod rngs {
    use super::{Rc, Rng, SECOND, SeedableRng, spent};

    /// The second list, read on from a place.
    pub struct SmallRng {
        words: Rc<[u64]>,
        place: usize,
    }

    impl SeedableRng for SmallRng {
        /// The seed is base + corr, wrapping at 2^64: a place of the second list, counted from 0.
        fn seed_from_u64(seed: u64) -> Self {
            SmallRng { words: SECOND.with_borrow(Rc::clone), place: usize::try_from(seed).unwrap_or(usize::MAX) }
        }
    }

    impl Rng for SmallRng {
        #[inline]
        fn next_u64(&mut self) -> u64 {
            let Some(&word) = self.words.get(self.place) else { spent() };
            self.place += 1;
            word
        }
    }
}

#[cfg(test)]
mod tests {
    use super::rngs::SmallRng;
    use super::{LentWords, RngExt, SeedableRng, Spent, lend_second};

    fn is_spent(draw: impl FnOnce()) -> bool {
        let unwound = std::panic::catch_unwind(std::panic::AssertUnwindSafe(draw));
        unwound.is_err_and(|payload| payload.is::<Spent>())
    }

    #[test]
    fn words_are_read_in_order_and_run_out() {
        let words = [7, u64::MAX, 1 << 63];
        let mut rng = LentWords::new(&words);
        assert_eq!(rng.random::<u64>(), 7);
        assert_eq!(rng.random::<f64>(), 1.0 - f64::EPSILON / 2.0);
        assert_eq!(rng.random::<f64>(), 0.5);
        assert!(is_spent(|| {
            rng.random::<u64>();
        }));
        assert_eq!(rng.read(), 3);
    }

    #[test]
    fn the_largest_word_is_rejected_for_every_count() {
        for count in 1..=64 {
            let words = [u64::MAX, 0];
            let mut rng = LentWords::new(&words);
            assert_eq!(rng.random_range(0..count), 0);
            assert_eq!(rng.read(), 2);
        }
    }

    #[test]
    fn a_seed_is_a_place_of_the_second_list() {
        lend_second(&[10, 11, 12]);
        let mut rng = SmallRng::seed_from_u64(1);
        assert_eq!(rng.random::<u64>(), 11);
        assert_eq!(rng.random::<u64>(), 12);
        assert!(is_spent(|| {
            rng.random::<u64>();
        }));
        assert!(is_spent(|| {
            SmallRng::seed_from_u64(u64::MAX).random::<u64>();
        }));
    }
}
