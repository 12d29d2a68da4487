//! The words that a run or settling draws from: read from files as far as they are needed, or made from seeds.

use crate::arguments::{Arguments, FILE, Flag};
use crate::commands::room_hint;
use crate::shares::Share;
use crate::{Failure, files};
use kundatrezo::{Caller, Circuit, DrawSource, Draws, Examination, Number, Refusal, WordsRead, Xorshift};
use std::ffi::OsString;
use std::io::Read;

const MAIN: Flag = Flag {
    name: "--main",
    value: FILE,
    text: "read the words of the main list from this file, or - for standard input",
};
const SEED: Flag = Flag {
    name: "--seed",
    value: "N",
    text: "make the words of the main list from a seed, any number, which is mixed",
};
const STATE: Flag = Flag { name: "--state", value: "N", text: "make them from a bare state of the xorshift, not 0" };
const FILL_STATE: Flag = Flag {
    name: "--state",
    value: "N",
    text: "words from this state, not 0: the seed that kundatrezo_fill and 'make' take",
};
const RUN_SEED: Flag =
    Flag { name: "--run-seed", value: "N", text: "the words that a run makes by --seed N, any number, which is mixed" };
const SKIP: Flag = Flag { name: "--skip", value: "N", text: "leave out the first N words of the main list" };
const WORDS: Flag = Flag { name: "--words", value: "N", text: "read or make at most N words for the main list" };
const SECOND: Flag = Flag { name: "--second", value: FILE, text: "read the words of the second list from this file" };
const SECOND_SEED: Flag =
    Flag { name: "--second-seed", value: "N", text: "make the words of the second list from a seed, which is mixed" };
const SECOND_STATE: Flag = Flag { name: "--second-state", value: "N", text: "make them from a bare state" };
const SECOND_WORDS: Flag = Flag {
    name: "--second-words",
    value: "N",
    text: "read or make at most N words for the second list; without it 33554432, 256 MiB",
};
const BASE: Flag = Flag { name: "--base", value: "N", text: "the base of the second list; without it 0" };
const NOISELESS: Flag =
    Flag { name: "--noiseless", value: FILE, text: "rows of the noiseless bits of the outcomes; without it, zeros" };

/// The options of a main list, of the words that `fill` writes, and of all that is lent.
pub const MAIN_FLAGS: &[Flag] = &[MAIN, SEED, STATE, SKIP, WORDS];
pub const FILL_FLAGS: &[Flag] = &[FILL_STATE, RUN_SEED, SKIP, WORDS];
pub const FLAGS: &[Flag] =
    &[MAIN, SEED, STATE, SKIP, WORDS, SECOND, SECOND_SEED, SECOND_STATE, SECOND_WORDS, BASE, NOISELESS];

/// What the help says of the options above.
pub const DETAILS: &str = "\
Noise draws words. A shot of a noise line reads one, and a fault another to choose its Pauli (d=2, 3, 4).
Lines without a corr read the main list on from line to line; a line with corr=c reads the second list
from place base + c on. Without --main, --seed and --state the main list is empty. A file of words may
hold any random bytes, a multiple of eight, and is read no further than the job needs, so that it may be
endless, as /dev/urandom is.

A seed is mixed: the words are those of Marsaglia's 64-bit xorshift (left 13, right 7, left 17) from the
state that SplitMix64 makes of the seed. Every seed is good, 0 and small ones too. 'kundatrezo fill
--run-seed N' writes these words. A bare state is the state of the xorshift itself, as kundatrezo_fill and
'kundatrezo make' take their seeds: from 1 the first word is 1082269761. The streams of small states begin
alike; take seeds for a series.

A list has at most 268435456 words. The second list is held from its front to the last place that the job
reads, 8 bytes a word; a corr that asks for more than --second-words is refused by 14.";

/// What the help of a run says of a series.
pub const SERIES: &str = "\
Where a main list is given, the last line is 'words=' with the number of its words that the run has read,
and 'skip=' with the value of --skip for the next run of a series. 'second=' says from which place on the
second list, if one is given, was not read: that is a --base for the next run.";

/// Most words of a list: no job of main-list noise needs as many, and they are 2 GiB.
pub const MOST: usize = 1 << 28;

/// Most words of the second list unless an option says otherwise, 256 MiB: a short job may name a far place.
const MOST_SECOND: usize = 1 << 25;

/// Where a list takes its words from.
enum ListSource {
    None,
    Made(Xorshift),
    File(OsString, Box<dyn Read>),
}

/// A list of words, as long as it has been needed so far.
pub struct List {
    pub words: Vec<u64>,
    source: ListSource,
    most: usize,
    /// The option that a user who has no words may give.
    seed: &'static str,
}

impl List {
    /// The list that the options of a command for a file, a seed and a state give.
    fn read(arguments: &Arguments, file: Option<&Flag>, seed: &'static Flag, state: &Flag) -> Result<Self, Failure> {
        let path = file.and_then(|file| arguments.value(file.name));
        let by_seed = arguments.number(seed.name)?;
        let by_state = arguments.number(state.name)?;
        let source = match (path, by_seed, by_state) {
            (None, None, None) => ListSource::None,
            (Some(path), None, None) => ListSource::File(path.to_owned(), files::open(path)?),
            (None, Some(number), None) => ListSource::Made(Xorshift::new(number)),
            (None, None, Some(number)) => {
                ListSource::Made(Xorshift::from_state(number).map_err(|refusal| Failure::refused(&refusal, b"", None))?)
            }
            _ => {
                let names: Vec<&str> = file.into_iter().chain([seed, state]).map(|flag| flag.name).collect();
                let names = names.join(", ");
                return Err(Failure::Other(format!("of {names} one at most can be given")));
            }
        };
        Ok(Self { words: Vec::new(), source, most: MOST, seed: seed.name })
    }

    /// The main list, as far as options give it.
    fn main(arguments: &Arguments) -> Result<Self, Failure> {
        Self::first(arguments, Some(&MAIN), &SEED)
    }

    fn first(arguments: &Arguments, file: Option<&Flag>, seed: &'static Flag) -> Result<Self, Failure> {
        let mut main = Self::read(arguments, file, seed, &STATE)?;
        main.most = most(arguments, &WORDS, MOST)?;
        arguments.number(SKIP.name)?.map(|words| main.skip(words)).transpose()?;
        Ok(main)
    }

    /// The second list, as far as options give it.
    fn second(arguments: &Arguments) -> Result<Self, Failure> {
        let mut second = Self::read(arguments, Some(&SECOND), &SECOND_SEED, &SECOND_STATE)?;
        second.most = most(arguments, &SECOND_WORDS, MOST_SECOND)?;
        Ok(second)
    }

    /// The main list to its end, or as long as options say.
    pub fn whole(arguments: &Arguments) -> Result<Self, Failure> {
        Self::main(arguments)?.grown_to_end(arguments)
    }

    /// The words that `fill` writes.
    pub fn filled(arguments: &Arguments) -> Result<Self, Failure> {
        if [FILL_STATE, RUN_SEED].iter().all(|flag| arguments.value(flag.name).is_none()) {
            return Err(Failure::Other(format!("{} or {} is wanted", FILL_STATE.name, RUN_SEED.name)));
        }
        Self::first(arguments, None, &RUN_SEED)?.grown_to_end(arguments)
    }

    fn grown_to_end(mut self, arguments: &Arguments) -> Result<Self, Failure> {
        if matches!(self.source, ListSource::Made(_)) && arguments.value(WORDS.name).is_none() {
            return Err(Failure::Other(format!("{} is wanted for words that are made", WORDS.name)));
        }
        if arguments.number(WORDS.name)?.is_some_and(|words| words > MOST as u64) {
            return Err(Failure::Other(format!("a list has at most {MOST} words")));
        }
        self.grow(self.most)?;
        Ok(self)
    }

    pub fn is_given(&self) -> bool {
        !matches!(self.source, ListSource::None) || !self.words.is_empty()
    }

    /// Leave out the first words.
    fn skip(&mut self, words: u64) -> Result<(), Failure> {
        match &mut self.source {
            ListSource::Made(made) => made.advance(words),
            ListSource::File(path, file) => files::skip_words(path, file, words)?,
            ListSource::None => {
                let text = format!("{} wants {}, {} or {}", SKIP.name, MAIN.name, SEED.name, STATE.name);
                return Err(Failure::Other(text));
            }
        }
        Ok(())
    }

    /// Make the list as long as this, or as long as it can be; whether it has grown.
    fn grow(&mut self, length: usize) -> Result<bool, Failure> {
        let missing = length.min(self.most).saturating_sub(self.words.len());
        let before = self.words.len();
        match &mut self.source {
            ListSource::None => {}
            ListSource::Made(made) => {
                self.words.resize(before + missing, 0);
                made.fill(&mut self.words[before..]);
            }
            ListSource::File(path, file) => files::append_words(path, file, missing, &mut self.words)?,
        }
        Ok(self.words.len() > before)
    }

    /// What to do if the list is too short. A line that reads the second list does so from `place` on.
    fn hint(&self, name: &str, place: Option<u64>) -> String {
        let (words, seed, most) = (self.words.len(), self.seed, self.most);
        match (&self.source, place) {
            (ListSource::None, _) => format!("there is no {name} list: {seed} N makes as many words as are needed"),
            (_, Some(place)) if place >= MOST as u64 || words == MOST => {
                format!("a list has at most {MOST} words, and this line, from place base + corr on, reads past them")
            }
            (_, Some(place)) if place >= most as u64 || words == most => format!(
                "this line reads the second list from place {place} on, and the list may have {most} words ({} MiB); {} N \
                 allows up to {MOST}, 8 bytes each",
                (8 * most).div_ceil(1 << 20),
                SECOND_WORDS.name
            ),
            (_, None) if words == most && most < MOST => format!("{} allows no more than {words} words", WORDS.name),
            _ => format!("the {name} list has {words} words and this line needs more: lend a longer one, or {seed} N"),
        }
    }
}

/// How many words a list may have.
fn most(arguments: &Arguments, flag: &Flag, default: usize) -> Result<usize, Failure> {
    Ok(arguments.number(flag.name)?.map_or(default, |words| usize::try_from(words).unwrap_or(MOST).min(MOST)))
}

/// What a run or settling reads beside its job: noiseless bits, and lists of words.
pub struct CallInputs<'a> {
    job: &'a [u8],
    examined: Examination,
    pub noiseless: Vec<u64>,
    main: List,
    second: List,
    base: u64,
    skipped: u64,
    share: Option<Share>,
}

impl<'a> CallInputs<'a> {
    /// The inputs that a command's options give for an accepted job.
    pub fn read(arguments: &Arguments, job: &'a [u8], examined: Examination) -> Result<Self, Failure> {
        let files = [MAIN, SECOND, NOISELESS].map(|flag| arguments.value(flag.name));
        let inputs = files.into_iter().flatten().chain([arguments.operand()]).filter(|path| *path == "-").count();
        if inputs > 1 {
            return Err(Failure::Other("standard input can be read for one thing only".into()));
        }
        let need = examined.outcome_words();
        let noiseless = match arguments.value(NOISELESS.name) {
            Some(path) => files::words(path, &mut files::open(path)?, need)?,
            None => vec![0; need],
        };
        let mut main = List::main(arguments)?;
        let second = List::second(arguments)?;
        if let (ListSource::Made(main), ListSource::Made(second)) = (&main.source, &second.source)
            && main == second
        {
            return Err(Failure::Other("the words of the two lists are to differ: give another seed".into()));
        }
        let share = Share::read(arguments)?;
        if let Some(share) = &share {
            if arguments.value(WORDS.name).is_some() {
                return Err(Failure::Other(format!("the account says how many words there are, not {}", WORDS.name)));
            }
            main.most = share.length()?;
            main.grow(main.most)?;
        }
        let [skipped, base] = [&SKIP, &BASE].map(|flag| arguments.number(flag.name));
        let (skipped, base) = (skipped?.unwrap_or(0), base?.unwrap_or(0));
        Ok(Self { job, examined, noiseless, main, second, base, skipped, share })
    }

    fn draws(&self) -> Draws<'_> {
        Draws::new(&self.main.words).with_second(&self.second.words, self.base)
    }

    /// Make a call. If it needs more words than the lists have so far, read or make more and call again. The words before stay the same, so the result
    /// is that of a list which was long enough from the start.
    pub fn call<T>(
        &mut self,
        mut call: impl FnMut(&[u64], &mut dyn DrawSource) -> Result<T, Refusal>,
    ) -> Result<T, Failure> {
        loop {
            let (answer, left) = match &self.share {
                None => (call(&self.noiseless, &mut self.draws()), None),
                Some(share) => {
                    let drawn = |caller: Caller<'_>| {
                        call(&self.noiseless, &mut caller.with_second(&self.second.words, self.base))
                    };
                    let (answer, left) = share.call(&self.main.words, drawn)?;
                    (answer, Some(left))
                }
            };
            match answer {
                Err(refusal) if refusal.number == Number::DRAWS && self.make_more(&refusal)? => {}
                answer => {
                    self.share.as_mut().zip(left).map(|(share, left)| share.keep(left)).transpose()?;
                    return answer.map_err(|refusal| Failure::refused(&refusal, self.job, self.hint(&refusal)));
                }
            }
        }
    }

    /// More words for the list that the refused noise line reads; whether there are any.
    fn make_more(&mut self, refusal: &Refusal) -> Result<bool, Failure> {
        // Two words for each shot of a line, seldom more where words are rejected.
        let for_line = 2 * self.examined.shots;
        match self.correlation(refusal) {
            None => {
                let lines = Circuit::read(self.job).map_or(0, |circuit| circuit.noise().count());
                self.main.grow((lines * for_line).max(2 * self.main.words.len()))
            }
            Some(correlation) => {
                let place = usize::try_from(self.place(correlation)).ok();
                let Some(place) = place.filter(|place| *place < self.second.most) else {
                    return Ok(false);
                };
                self.second.grow((place + for_line).max(2 * self.second.words.len()))
            }
        }
    }

    /// The correlation of the refused noise line.
    fn correlation(&self, refusal: &Refusal) -> Option<u64> {
        Circuit::read(self.job).ok()?.noise_at(usize::try_from(refusal.line).ok()?)?.correlation
    }

    /// The place from which a line with this correlation reads the second list.
    fn place(&self, correlation: u64) -> u64 {
        self.base.wrapping_add(correlation)
    }

    /// What to do about a refusal by 13, 14, 15 or 26.
    fn hint(&self, refusal: &Refusal) -> Option<String> {
        let correlation = self.correlation(refusal).filter(|_| refusal.number == Number::DRAWS);
        let reads_main = correlation.is_none();
        let of_share = self.share.as_ref().filter(|_| reads_main).and_then(|share| share.hint(refusal));
        if of_share.is_some() {
            return of_share;
        }
        match refusal.number {
            Number::WORDS => Some(format!(
                "{} has {} words, and needs {}: ceil(shots / 64) for each outcome of the header",
                NOISELESS.name,
                self.noiseless.len(),
                self.examined.outcome_words()
            )),
            Number::DRAWS if reads_main => Some(self.main.hint("main", None)),
            Number::DRAWS => Some(self.second.hint("second", correlation.map(|own| self.place(own)))),
            _ => room_hint(refusal),
        }
    }

    /// The line that says how many words a run has read, if lists were given.
    pub fn report(&self) -> Result<String, Failure> {
        let given = [self.main.is_given(), self.second.is_given()];
        if given == [false; 2] {
            return Ok(String::new());
        }
        let main = self.share.as_ref().map_or(&self.main.words, |share| &share.available);
        let draws = Draws::new(main).with_second(&self.second.words, self.base);
        let read = draws.words_read(self.job, &self.noiseless);
        let WordsRead { main, second, .. } = read.map_err(|refusal| Failure::refused(&refusal, self.job, None))?;
        let skip = self.skipped.saturating_add(main as u64);
        let words = match &self.share {
            Some(share) => share.report.clone(),
            None => format!("words={main} skip={skip}"),
        };
        let parts = [words, format!("second={second}")];
        let parts: Vec<String> =
            parts.into_iter().zip(given).filter(|(_, given)| *given).map(|(part, _)| part).collect();
        Ok(format!("{}\n", parts.join(" ")))
    }
}
