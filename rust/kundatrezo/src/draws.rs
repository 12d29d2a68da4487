//! The lists of words that a call draws from.

use crate::{Rows, sys};

/// Where noise lines take their words from in a run or settling: lists of the caller's own ([`Draws`]), or a share of a list from which others draw too
/// ([`Caller`](crate::Caller)).
pub trait DrawSource: sealed::DrawSource {}

pub(crate) mod sealed {
    use super::{Rows, sys};

    /// The calls that draw.
    pub trait DrawSource {
        fn run(&mut self, job: &[u8], rows: Rows<'_>, noiseless: &[u64]) -> sys::Answer;
        fn settle(&mut self, job: &[u8], noiseless: &[u64], out: &mut [u8]) -> sys::TextAnswer;
    }
}

impl<S: DrawSource + ?Sized> DrawSource for &mut S {}

impl<S: DrawSource + ?Sized> sealed::DrawSource for &mut S {
    fn run(&mut self, job: &[u8], rows: Rows<'_>, noiseless: &[u64]) -> sys::Answer {
        S::run(self, job, rows, noiseless)
    }

    fn settle(&mut self, job: &[u8], noiseless: &[u64], out: &mut [u8]) -> sys::TextAnswer {
        S::settle(self, job, noiseless, out)
    }
}

/// The words that noise lines draw from. The default has none, which is enough for a job without noise.
///
/// A noise line without a correlation reads the main list on from where the last one stopped. One with `corr=c` reads the second list from place
/// `base + c` on, afresh at each line; the sum wraps at 2^64. Each shot reads a word, and a fault reads one more for its choice (none with d=1, further
/// ones where a word is rejected). Neighbouring correlations read words in common; give them numbers that are twice the shots apart.
///
/// ```
/// use kundatrezo::Draws;
///
/// let (main, second) = ([1, 2, 3], [4, 5, 6]);
/// let draws = Draws::new(&main).with_second(&second, 0);
/// assert_eq!((draws.main, draws.second, draws.base), (&main[..], &second[..], 0));
/// ```
#[derive(Debug, Clone, Copy, Default)]
#[non_exhaustive]
pub struct Draws<'a> {
    /// Read on from line to line.
    pub main: &'a [u64],
    /// Read afresh by each line with a correlation.
    pub second: &'a [u64],
    /// Added to a line's correlation for its place in the second list.
    pub base: u64,
}

impl<'a> Draws<'a> {
    /// A main list alone.
    #[must_use]
    pub fn new(main: &'a [u64]) -> Self {
        Self { main, ..Self::default() }
    }

    /// The same main list, with a second list and its base.
    #[must_use]
    pub fn with_second(self, second: &'a [u64], base: u64) -> Self {
        Self { second, base, ..self }
    }
}

impl DrawSource for Draws<'_> {}

impl sealed::DrawSource for Draws<'_> {
    fn run(&mut self, job: &[u8], rows: Rows<'_>, noiseless: &[u64]) -> sys::Answer {
        sys::run(job, rows, noiseless, *self)
    }

    fn settle(&mut self, job: &[u8], noiseless: &[u64], out: &mut [u8]) -> sys::TextAnswer {
        sys::settle(job, noiseless, *self, out)
    }
}
