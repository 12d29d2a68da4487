//! Replaces the published `sampling.rs`: a word for each shot in place of geometric skips.

use rand::RngExt;
use std::cell::Cell;

thread_local! {
    static SHOTS: Cell<usize> = const { Cell::new(0) };
}

/// Set how many shots this thread's samplers have, so that no word is read past the last one.
///
/// The published sampler has no end and so is never told.
pub fn set_shots(shots: usize) {
    SHOTS.set(shots);
}

/// Reads a word for each shot in rising order; a fault falls if its u is below the probability.
pub struct GeometricSampler {
    probability: f64,
    shots_left: usize,
}

impl GeometricSampler {
    /// The sampler of a noise line, from shot 0.
    #[must_use]
    pub fn new(probability: f64) -> Self {
        Self { probability, shots_left: SHOTS.get() }
    }

    /// How many shots are passed over before the next fault; past every shot where no fault is left.
    #[inline]
    pub fn next_skip<R: RngExt>(&mut self, rng: &mut R) -> usize {
        for skip in 0..self.shots_left {
            if rng.random::<f64>() < self.probability {
                self.shots_left -= skip + 1;
                return skip;
            }
        }
        self.shots_left = 0;
        usize::MAX
    }
}

#[cfg(test)]
mod tests {
    use super::{GeometricSampler, set_shots};
    use rand::LentWords;

    #[test]
    fn reads_a_word_for_each_shot_and_none_after() {
        const HALF: u64 = 1 << 63;
        let words = [HALF, 0, HALF - 1, HALF, HALF, 0];
        let mut rng = LentWords::new(&words);
        set_shots(5);
        let mut sampler = GeometricSampler::new(0.5);
        assert_eq!(sampler.next_skip(&mut rng), 1);
        assert_eq!(sampler.next_skip(&mut rng), 0);
        assert_eq!(sampler.next_skip(&mut rng), usize::MAX);
        assert_eq!(sampler.next_skip(&mut rng), usize::MAX);
        assert_eq!(rng.read(), 5);
    }
}
