//! Lists of words that grow as far as a call needs them.

use crate::sampler::{List, MOST_WORDS};
use crate::{Circuit, Draws, MAX_SHOTS, Number, Refusal, Xorshift, examine};

/// Where a list takes its words from.
#[derive(Debug, Clone, Copy)]
pub enum WordSource<'a> {
    /// A list of the caller's.
    Slice(&'a [u64]),
    /// The words of [`Xorshift::new`] of a seed, as many as are needed.
    Seed(u64),
}

/// The main and the second list of a run or of settling. Those from a seed grow until the call has enough words. The words before stay the same, so
/// the result is that of lists which were long enough from the start.
///
/// ```
/// use kundatrezo::{Draws, GrowingDraws, WordSource, Xorshift, settled};
///
/// let job = b"op=job qubits=1 outcomes=0 shots=9\nop=n p=3fe0000000000000 corr=- cond=- parity=0 d=2 q=0 size=3\n";
/// let mut draws = GrowingDraws::new(WordSource::Seed(1), WordSource::Slice(&[]), 0);
/// let words: Vec<u64> = Xorshift::new(1).take(100).collect();
/// assert_eq!(draws.call(job, |draws| settled(job, &[], draws))?, settled(job, &[], Draws::new(&words))?);
/// # Ok::<(), kundatrezo::Refusal>(())
/// ```
#[derive(Debug)]
pub struct GrowingDraws<'a> {
    main: Growing<'a>,
    second: Growing<'a>,
    base: u64,
}

#[derive(Debug)]
enum Growing<'a> {
    Slice(&'a [u64]),
    Seeded(List),
}

impl<'a> Growing<'a> {
    fn new(source: WordSource<'a>) -> Self {
        match source {
            WordSource::Slice(words) => Self::Slice(words),
            WordSource::Seed(seed) => {
                let mut list = List::default();
                list.begin(Xorshift::new(seed), 0);
                Self::Seeded(list)
            }
        }
    }

    fn words(&self) -> &[u64] {
        match self {
            Self::Slice(words) => words,
            Self::Seeded(list) => &list.words,
        }
    }

    /// Make the list as long as this, or twice as long if that is more; whether it has grown.
    fn grow(&mut self, words: usize) -> bool {
        match self {
            Self::Slice(_) => false,
            Self::Seeded(list) => list.grow(words.max(2 * list.words.len())),
        }
    }
}

impl<'a> GrowingDraws<'a> {
    /// A main list, a second one and its base.
    #[must_use]
    pub fn new(main: WordSource<'a>, second: WordSource<'a>, base: u64) -> Self {
        Self { main: Growing::new(main), second: Growing::new(second), base }
    }

    /// Make a call that draws.
    ///
    /// # Errors
    ///
    /// The refusal of the call; 14 if the list is the caller's, or if the line reads past 2^28 words.
    pub fn call<T>(&mut self, job: &[u8], mut call: impl FnMut(Draws<'_>) -> Result<T, Refusal>) -> Result<T, Refusal> {
        loop {
            match call(Draws::new(self.main.words()).with_second(self.second.words(), self.base)) {
                Err(refusal) if refusal.number == Number::DRAWS && self.grow(&refusal, job) => {}
                answer => return answer,
            }
        }
    }

    /// More words for the list that the refused noise line reads, two for each shot; whether there are any.
    fn grow(&mut self, refusal: &Refusal, job: &[u8]) -> bool {
        let for_line = 2 * examine(job).map_or(MAX_SHOTS, |job| job.shots);
        match self.place(refusal, job) {
            None => {
                let lines = Circuit::read(job).map_or(0, |circuit| circuit.noise().count());
                self.main.grow(lines * for_line)
            }
            Some(place) => place.is_some_and(|place| self.second.grow(place + for_line)),
        }
    }

    /// From which place on the refused noise line reads the second list, if it does: none if that place lies past the most of a list.
    fn place(&self, refusal: &Refusal, job: &[u8]) -> Option<Option<usize>> {
        let circuit = Circuit::read(job).ok()?;
        let place = self.base.wrapping_add(circuit.noise_at(crate::size(refusal.line))?.correlation?);
        Some(usize::try_from(place).ok().filter(|place| *place < MOST_WORDS))
    }

    /// What to do about a refusal by 14; `main` and `second` are the ways to write the option of a seed for each list.
    #[must_use]
    pub fn hint(&self, refusal: &Refusal, job: &[u8], main: &str, second: &str) -> String {
        let (list, option) = match self.place(refusal, job) {
            None => (&self.main, main),
            Some(_) => (&self.second, second),
        };
        match (list, self.place(refusal, job)) {
            (Growing::Slice(words), _) if !words.is_empty() => {
                format!("the list has {} words and this line needs more", words.len())
            }
            (Growing::Seeded(_), _) | (_, Some(None)) => {
                format!("a list has at most {MOST_WORDS} words, and place base + corr of this line lies past it")
            }
            _ => format!("{option} makes as many words as are needed"),
        }
    }
}
