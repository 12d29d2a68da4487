//! How many words of the lists a call reads.

use crate::{
    Circuit, Draws, Examination, Frames, Noise, Number, PauliDistribution, Refusal, SharedDraws, bit, settle, size,
};

/// How many words a run or settling reads.
#[derive(Debug, Clone, Copy, Default, PartialEq, Eq, Hash)]
#[non_exhaustive]
pub struct WordsRead {
    /// The first words of the main list that are read. A series of runs goes on with the words after them.
    pub main: usize,
    /// The second list is read at no place from this one on.
    pub second: usize,
}

impl Draws<'_> {
    /// How many words a run of this job, or its settling, reads.
    ///
    /// For the main list the engine counts: a run by one caller, for whom all words are common, leaves the number in its mark. For the second list it
    /// is the shortest length that is enough: [`settle`] accepts that length, and refuses one word less by 14. This takes the time of a run, and of
    /// about three settlings if there is a second list.
    ///
    /// # Errors
    ///
    /// The refusal of the run or of settling: by a test of the job, 13 or 14.
    ///
    /// ```
    /// use kundatrezo::Draws;
    ///
    /// // two shots read a word each, and the fault in shot 0 another for the choice of its Pauli
    /// let job = b"op=job qubits=1 outcomes=0 shots=2\nop=n p=3fe0000000000000 corr=- cond=- parity=0 d=2 q=0 size=3\n";
    /// let draws = Draws::new(&[0, 1, u64::MAX, 8, 9]);
    /// assert_eq!(draws.words_read(job, &[])?.main, 3);
    /// # Ok::<(), kundatrezo::Refusal>(())
    /// ```
    pub fn words_read(&self, job: &[u8], noiseless: &[u64]) -> Result<WordsRead, Refusal> {
        let mut common = SharedDraws::new(self.main, &[0])?;
        let frames = Frames::from_run(job, noiseless, common.caller(0).with_second(self.second, self.base))?;
        let second_is = |words: usize| enough(job, noiseless, Draws { second: &self.second[..words], ..*self }).is_ok();
        let guess = guess(job, frames.job(), noiseless, self).unwrap_or_default();
        let second = if self.second.is_empty() { 0 } else { least(self.second.len(), guess, second_is) };
        Ok(WordsRead { main: size(common.marks()[1]), second })
    }
}

/// Settling with no room for the text: where it refuses by 15 alone, the words were enough.
fn enough(job: &[u8], noiseless: &[u64], draws: Draws<'_>) -> Result<(), Refusal> {
    match settle(job, noiseless, draws, &mut []) {
        Err(refusal) if refusal.number != Number::ROOM => Err(refusal),
        _ => Ok(()),
    }
}

/// The least number with a property that larger ones have too, as `most` has it: two looks where the guess is right, else by halving.
fn least(most: usize, guess: usize, has: impl Fn(usize) -> bool) -> usize {
    let (mut low, mut high) = (0, most);
    let mut next = guess.min(most);
    while low < high {
        if has(next) {
            high = next;
        } else {
            low = next + 1;
        }
        next = if next == guess && high == guess && low < guess { guess - 1 } else { low.midpoint(high) };
    }
    high
}

/// From which place on the noise lines of an accepted job read no word of the second list, as far as can be told from their text. The calls judge it.
fn guess(job: &[u8], numbers: Examination, noiseless: &[u64], draws: &Draws<'_>) -> Option<usize> {
    let circuit = Circuit::read_accepted(job);
    let mut used = 0;
    for (_, noise) in circuit.noise().filter(|(_, noise)| noise.probability > 0.0) {
        let Some(correlation) = noise.correlation else {
            continue;
        };
        let holds = |shot: usize| {
            let words = numbers.words_per_row();
            let noiseless_bit = |id: &usize| bit(&noiseless[id * words..][..words], shot);
            noise.condition.as_ref().is_none_or(|condition| {
                condition.outcomes.iter().fold(false, |sum, id| sum ^ noiseless_bit(id)) == condition.parity
            })
        };
        let place = usize::try_from(draws.base.wrapping_add(correlation)).ok()?;
        used = used.max(place + noise.words(draws.second.get(place..)?, numbers.shots, holds)?);
    }
    Some(used)
}

impl Noise {
    /// The words that this line reads from the front of a list, by the shots in which its condition holds.
    fn words(&self, list: &[u64], shots: usize, holds: impl Fn(usize) -> bool) -> Option<usize> {
        let mut next = 0;
        for shot in 0..shots {
            let word = list.get(next)?;
            next += 1;
            #[allow(clippy::cast_precision_loss)]
            let falls = ((word >> 11) as f64) < self.probability * (1_u64 << 53) as f64;
            if falls && holds(shot) {
                next += match &self.distribution {
                    PauliDistribution::Single(_) => 0,
                    PauliDistribution::Weighted(_) => 1,
                    other => {
                        let bound = u64::MAX - u64::MAX.checked_rem(other.size())?;
                        1 + list.get(next..)?.iter().position(|word| *word < bound)?
                    }
                };
            }
        }
        Some(next)
    }
}

#[cfg(test)]
mod tests {
    use super::*;
    use crate::examine;
    use std::cell::Cell;

    /// Looks for the least number from a value on, and counts the looks.
    fn looks(most: usize, guess: usize, value: usize) -> usize {
        let looks = Cell::new(0);
        let has = |number| {
            looks.set(looks.get() + 1);
            number >= value
        };
        assert_eq!(least(most, guess, has), value);
        looks.get()
    }

    #[test]
    fn a_right_guess_is_seen_by_two_looks() {
        for most in 0..20 {
            for value in 0..=most {
                assert!(looks(most, value, value) <= 2);
                for guess in 0..25 {
                    assert!(looks(most, guess, value) <= 7, "{most} {guess} {value}");
                }
            }
        }
        assert!(looks(1 << 28, 5, 1 << 27) <= 30);
    }

    /// Every kind of noise line, with and without a condition and a correlation, and words that a choice rejects.
    #[test]
    fn guesses_are_right() {
        let job = b"op=job qubits=2 outcomes=2 shots=70
op=r id=0 angle=0
op=r id=1 angle=0
op=n p=3fe0000000000000 corr=- cond=- parity=0 d=1 x=0 z=- size=1
op=n p=3fe0000000000000 corr=- cond=0,1 parity=1 d=2 q=0,1 size=15
op=n p=3fd0000000000000 corr=- cond=- parity=0 d=3 n=3 size=3
x=0 z=-
x=1 z=-
x=- z=0
op=n p=0000000000000000 corr=- cond=- parity=0 d=2 q=0 size=3
op=n p=3fe0000000000000 corr=7 cond=1 parity=0 d=4 n=2 size=2
w=3ff0000000000000 x=0 z=-
w=3ff0000000000000 x=1 z=-
op=n p=3ff0000000000000 corr=150 cond=- parity=0 d=2 q=1 size=3
";
        let noiseless = [0x5555_5555_5555_5555, 3, 0xffff_0000_0f0f_3333, 1];
        for seed in 0..20 {
            let mut words: Vec<u64> = crate::Xorshift::new(seed).take(1000).collect();
            // one word in 16 is the last one, which d=2 rejects
            words.iter_mut().filter(|word| **word % 16 == 0).for_each(|word| *word = u64::MAX);
            let draws = Draws::new(&words).with_second(&words, 3);
            let numbers = examine(job).expect("the job is accepted");
            let read = draws.words_read(job, &noiseless).expect("the job runs");
            assert_eq!(guess(job, numbers, &noiseless, &draws), Some(read.second));
            // of either list one word less is not enough
            let cut = |main: usize, second: usize| {
                enough(job, &noiseless, Draws::new(&words[..main]).with_second(&words[..second], 3)).is_ok()
            };
            let WordsRead { main, second } = read;
            assert_eq!((cut(main, second), cut(main - 1, second), cut(main, second - 1)), (true, false, false));
        }
    }
}
