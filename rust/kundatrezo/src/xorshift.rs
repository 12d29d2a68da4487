//! Words made from a seed.

use crate::refusal::result_of;
use crate::{Refusal, sys};

/// Fill a list with the words of a seed, by Marsaglia's 64-bit xorshift: each step changes the state, at first the seed, by exclusive or with itself shifted
/// left 13, then right 7, then left 17, and the new state is the word. [`Xorshift`] has these words as a stream.
///
/// # Errors
///
/// The refusal by 22: the seed is zero. Nothing is written then.
///
/// ```
/// use kundatrezo::{Number, fill};
///
/// let mut words = [0; 2];
/// fill(1, &mut words)?;
/// assert_eq!(words, [1_082_269_761, 1_152_992_998_833_853_505]);
/// assert_eq!(fill(0, &mut words).unwrap_err().number, Number::SEED);
/// # Ok::<(), kundatrezo::Refusal>(())
/// ```
pub fn fill(seed: u64, words: &mut [u64]) -> Result<(), Refusal> {
    result_of(&sys::fill(seed, words), 0).map(drop)
}

/// Words for callers who have none of their own: the stream of [`fill`], Marsaglia's 64-bit xorshift ("Xorshift RNGs", Journal of Statistical Software 8(14),
/// 2003). The engine makes them.
///
/// [`new`](Self::new) makes a first state from a seed, so that every seed is a good one, 0 and small ones too. [`from_state`](Self::from_state) takes
/// the state itself, which is the seed of [`fill`]. All states lie on one cycle of 2^64 - 1 words, and no word is zero. For the next run of a series
/// read the same words on, by the number that [`Draws::words_read`](crate::Draws::words_read) returns. To [`fill`](Self::fill) a list is faster than
/// to take its words one by one.
///
/// ```
/// use kundatrezo::Xorshift;
///
/// let mut lent = [0; 100];
/// Xorshift::new(0).fill(&mut lent);
/// assert_eq!(Xorshift::from_state(1)?.next(), Some(1_082_269_761));
/// # Ok::<(), kundatrezo::Refusal>(())
/// ```
#[derive(Debug, Clone, PartialEq, Eq)]
pub struct Xorshift {
    state: u64,
}

impl Xorshift {
    /// The words of a seed: the state is the first word of Vigna's SplitMix64 from the seed, or the second where the first is zero.
    ///
    /// SplitMix64 takes each seed to another word, so no two seeds have a state in common, but for 7,046,029,254,386,353,131, whose first word is zero
    /// and whose second one is the first of seed 0.
    #[must_use]
    pub fn new(seed: u64) -> Self {
        let second = seed.wrapping_add(GOLDEN);
        let state = match mixed(second) {
            0 => mixed(second.wrapping_add(GOLDEN)),
            state => state,
        };
        Self { state }
    }

    /// The words of a block of a sample of this seed, for its main list (0) or its second (1): a stream for each block and list. The state is word
    /// 2 `block` + `list` + 1 of SplitMix64 from the state that [`new`](Self::new) makes of the seed, or the next where it is zero.
    ///
    /// A block reads so few words of the cycle that two streams seldom meet: docs/SAMPLING.md of the repository says how seldom.
    ///
    /// ```
    /// use kundatrezo::Xorshift;
    ///
    /// let first = Xorshift::of_block(1, 0, 0).next();
    /// assert_eq!(first, Some(11_708_912_154_547_754_076));
    /// assert!([(1, 0, 1), (1, 1, 0), (2, 0, 0)].iter().all(|(seed, block, list)| Xorshift::of_block(*seed, *block, *list).next() != first));
    /// ```
    #[must_use]
    pub fn of_block(seed: u64, block: u64, list: u64) -> Self {
        let place = block.wrapping_mul(2).wrapping_add(list);
        let mixed = Self::new(seed).state.wrapping_add(GOLDEN.wrapping_mul(place));
        Self::new(mixed)
    }

    /// The words from a state on; the state itself is not among the first of them.
    ///
    /// # Errors
    ///
    /// The refusal by 22: the state is zero, which every step leaves zero.
    ///
    /// Streams of small states begin alike: the first words from 1 are small, and those from 2 are their doubles. A series of runs from states 1, 2, 3
    /// and so on would fault far too often in its first shots; [`new`](Self::new) is free of this.
    pub fn from_state(state: u64) -> Result<Self, Refusal> {
        fill(state, &mut []).map(|()| Self { state })
    }

    /// The state before the next word: [`from_state`](Self::from_state) goes on from it.
    #[must_use]
    pub fn state(&self) -> u64 {
        self.state
    }

    /// The next words, in the place of what the list held.
    pub fn fill(&mut self, list: &mut [u64]) {
        fill(self.state, list).expect("no state is zero");
        self.state = list.last().copied().unwrap_or(self.state);
    }

    /// Leave out as many words as this, however many they are.
    ///
    /// ```
    /// use kundatrezo::Xorshift;
    ///
    /// let mut words = Xorshift::new(1);
    /// let mut later = words.clone();
    /// later.advance(1_000_000);
    /// assert_eq!(later.next(), words.nth(1_000_000));
    /// ```
    pub fn advance(&mut self, words: u64) {
        // A step takes exclusive ors to exclusive ors, so what many steps do is known by what they do to single bits.
        let mut steps: [u64; 64] = std::array::from_fn(|place| Self { state: 1 << place }.step());
        let after = |steps: &[u64; 64], state: u64| {
            (0..64).filter(|place| state >> place & 1 == 1).fold(0, |sum, place| sum ^ steps[place])
        };
        let mut left = words;
        while left > 0 {
            if left & 1 == 1 {
                self.state = after(&steps, self.state);
            }
            steps = steps.map(|state| after(&steps, state));
            left >>= 1;
        }
    }

    fn step(&mut self) -> u64 {
        self.fill(&mut [0]);
        self.state
    }
}

/// The words, without end.
impl Iterator for Xorshift {
    type Item = u64;

    fn next(&mut self) -> Option<u64> {
        Some(self.step())
    }
}

/// What SplitMix64 adds to its state at each step: 2^64 divided by the golden ratio, made odd.
const GOLDEN: u64 = 0x9e37_79b9_7f4a_7c15;

/// The word of a state of SplitMix64 (Vigna, 2015, after Steele, Lea and Flood, "Fast splittable pseudorandom number generators", OOPSLA 2014).
fn mixed(state: u64) -> u64 {
    let word = (state ^ state >> 30).wrapping_mul(0xbf58_476d_1ce4_e5b9);
    let word = (word ^ word >> 27).wrapping_mul(0x94d0_49bb_1331_11eb);
    word ^ word >> 31
}

#[cfg(test)]
mod tests {
    use super::*;

    /// The published first words of SplitMix64 from 1234567, and a state for the seed whose first word is zero.
    #[test]
    fn seeds_are_mixed_by_splitmix64() {
        let words: Vec<u64> =
            (1..=5).map(|step| mixed(1_234_567_u64.wrapping_add(GOLDEN.wrapping_mul(step)))).collect();
        let published = [
            6_457_827_717_110_365_317,
            3_203_168_211_198_807_973,
            9_817_491_932_198_370_423,
            4_593_380_528_125_082_431,
            16_408_922_859_458_223_821,
        ];
        assert_eq!(words, published);
        assert_eq!(Xorshift::new(1_234_567), Xorshift { state: published[0] });
        assert_eq!(Xorshift::new(0), Xorshift { state: 0xe220_a839_7b1d_cdaf });
        assert_eq!(Xorshift::new(7_046_029_254_386_353_131), Xorshift::new(0));
    }

    #[test]
    fn states_are_marsaglias() {
        let words: Vec<u64> = Xorshift::from_state(1).expect("not zero").take(2).collect();
        assert_eq!(words, [1_082_269_761, 1_152_992_998_833_853_505]);
        assert_eq!(Xorshift::from_state(0).expect_err("zero").number, crate::Number::SEED);
        assert_eq!(fill(0, &mut []).expect_err("zero").number, crate::Number::SEED);
    }

    /// The rule, in the words of Marsaglia's paper, beside the engine's, which fills 4,096 words at a time: 9,000 have two such parts, their pieces
    /// none and one.
    #[test]
    fn words_are_those_of_the_rule() {
        for seed in [1, 2, 3, 0x8000_0000_0000_0000, u64::MAX, 88_172_645_463_325_252] {
            let mut state: u64 = seed;
            let mut words = [0; 9000];
            fill(seed, &mut words).expect("not zero");
            for word in words {
                state ^= state << 13;
                state ^= state >> 7;
                state ^= state << 17;
                assert_eq!(word, state);
            }
            let (mut one_by_one, mut at_once) = (Xorshift { state: seed }, Xorshift { state: seed });
            let mut parts = [0; 9000];
            let (first, second) = parts.split_at_mut(4095);
            at_once.fill(first);
            at_once.fill(second);
            assert_eq!((parts, at_once), (words, Xorshift { state }));
            assert!(words.iter().all(|word| one_by_one.next() == Some(*word)));
        }
    }

    #[test]
    fn words_are_left_out_as_if_read() {
        let start = Xorshift::new(3);
        let mut read = start.clone();
        for words in 0..200 {
            let mut advanced = start.clone();
            advanced.advance(words);
            assert_eq!(advanced, read);
            read.next();
        }
    }

    /// The words come again after 2^64 - 1 of them and, by its prime factors, not before.
    #[test]
    fn all_states_lie_on_one_cycle() {
        let start = Xorshift::new(1);
        let after = |words: u64| {
            let mut words_after = start.clone();
            words_after.advance(words);
            words_after
        };
        assert_eq!(after(u64::MAX), start);
        let factors = [3, 5, 17, 257, 641, 65_537, 6_700_417];
        assert_eq!(factors.iter().product::<u64>(), u64::MAX);
        assert!(factors.iter().all(|factor| after(u64::MAX / factor) != start));
    }
}
