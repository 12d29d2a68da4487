//! Random numbers from a seed: Steele, Lea and Flood's SplitMix64.

/// A generator of numbers.
#[derive(Debug, Clone)]
pub struct Random(u64);

impl Random {
    /// The generator of a seed.
    #[must_use]
    pub fn new(seed: u64) -> Self {
        Self(seed)
    }

    /// A generator of its own, so that what one job draws doesn't move the next one.
    pub fn fork(&mut self) -> Self {
        Self(self.word())
    }

    /// 64 random bits.
    pub fn word(&mut self) -> u64 {
        self.0 = self.0.wrapping_add(0x9e37_79b9_7f4a_7c15);
        let mixed = (self.0 ^ self.0 >> 30).wrapping_mul(0xbf58_476d_1ce4_e5b9);
        let mixed = (mixed ^ mixed >> 27).wrapping_mul(0x94d0_49bb_1331_11eb);
        mixed ^ mixed >> 31
    }

    /// A number below `end`, which isn't 0.
    pub fn below(&mut self, end: u64) -> u64 {
        self.word() % end
    }

    /// An index below `end`, which isn't 0.
    pub fn index(&mut self, end: usize) -> usize {
        usize::try_from(self.below(end as u64)).expect("below a usize")
    }

    /// A number from `first` to `last`.
    pub fn between(&mut self, first: u64, last: u64) -> u64 {
        first + self.below(last - first + 1)
    }

    /// True once in `count` times.
    pub fn one_in(&mut self, count: u64) -> bool {
        self.below(count) == 0
    }

    /// One of some values.
    pub fn pick<T: Copy>(&mut self, values: &[T]) -> T {
        values[self.index(values.len())]
    }

    /// A number from 0 to below 1.
    #[allow(clippy::cast_precision_loss)]
    pub fn unit(&mut self) -> f64 {
        (self.word() >> 11) as f64 / (1_u64 << 53) as f64
    }

    /// Some of the numbers below `end`, rising.
    pub fn subset(&mut self, end: u64, count: usize) -> Vec<u64> {
        let mut chosen = self.distinct(end, count);
        chosen.sort_unstable();
        chosen
    }

    /// `count` different numbers below `end`, fewer where there aren't as many.
    pub fn distinct(&mut self, end: u64, count: usize) -> Vec<u64> {
        let mut all: Vec<u64> = (0..end).collect();
        let count = count.min(all.len());
        for place in 0..count {
            let other = place + self.index(all.len() - place);
            all.swap(place, other);
        }
        all.truncate(count);
        all
    }
}
