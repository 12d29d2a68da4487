//! Any number of shots of a job, in blocks that have words of their own.

use crate::counts::{DRAWS, Sample, crc32, fault};
use crate::instructions::write_job;
use crate::threads::for_each_block;
use crate::{
    Circuit, Counts, CountsError, Draws, Examination, Frames, Header, Instruction, MAX_BYTES, MAX_SHOTS, Noise, Number,
    PauliDistribution, Refusal, SamplerError, SavedCounts, SparsePauli, Xorshift, bit, by_outcome, examine, size,
};
use std::collections::BTreeSet;
use std::error::Error;
use std::fmt;
use std::ops::Range;

/// Most words of a list of a block, 2 GiB: no job of main-list noise needs as many.
pub(crate) const MOST_WORDS: usize = 1 << 28;

/// Where the shots are that injections and flips name: how a sample of more shots than the job's header has counts them.
#[derive(Debug, Clone, Copy, Default, PartialEq, Eq, Hash)]
pub enum NamedShots {
    /// In the whole sample: such a line acts once, in the first block.
    #[default]
    InSample,
    /// In each block: such a line acts once in each block that has this shot.
    InEachBlock,
}

impl NamedShots {
    /// Its name in a text of counts and in the program's option.
    #[must_use]
    pub const fn name(self) -> &'static str {
        match self {
            Self::InSample => "whole",
            Self::InEachBlock => "block",
        }
    }

    /// The one with this name.
    #[must_use]
    pub fn from_name(name: &str) -> Option<Self> {
        [Self::InSample, Self::InEachBlock].into_iter().find(|named| named.name() == name)
    }
}

/// Noiseless bits of another size than those of a job: they are for another number of shots, or for other outcomes.
#[derive(Debug, Clone, Copy, PartialEq, Eq)]
#[non_exhaustive]
pub struct NoiselessSizeError {
    /// The words that were given.
    pub words: usize,
    /// The words that the job has: [`Examination::outcome_words`].
    pub needed: usize,
    /// The outcomes of its header.
    pub outcomes: usize,
    /// The shots of its header.
    pub shots: usize,
}

impl fmt::Display for NoiselessSizeError {
    fn fmt(&self, f: &mut fmt::Formatter<'_>) -> fmt::Result {
        let Self { words, needed, outcomes, shots } = self;
        write!(
            f,
            "noiseless bits of {words} words, but the header's outcomes={outcomes} and shots={shots} need exactly {needed}"
        )
    }
}

impl Error for NoiselessSizeError {}

/// Any number of shots of a job, in *blocks*: runs of [`MAX_SHOTS`] shots each, and a last one of the rest. The header's number of shots is replaced.
///
/// Each block has a main and a second list of its own, the words of [`Xorshift::of_block`], and the base of its second list is 0. So the result of a
/// block depends on the job, the seed, the block's number and the number of its shots alone, and the result of a sample does not depend on how its
/// blocks are shared among threads, processes or machines. This loop is tested, not proved. Each run is a call of the library, which is proved.
///
/// ```
/// use kundatrezo::Sampler;
///
/// // X with probability 1/4 on each of two qubits: outcomes 0 and 1, and their parity
/// let job = b"op=job qubits=2 outcomes=2 shots=1
/// op=n p=3fd0000000000000 corr=- cond=- parity=0 d=1 x=0 z=- size=1
/// op=n p=3fd0000000000000 corr=- cond=- parity=0 d=1 x=1 z=- size=1
/// op=o x=- z=0 id=0
/// op=o x=- z=1 id=1
/// ";
/// let sampler = Sampler::new(job, 100_000, 2026)?;
/// let counts = sampler.counts(&[vec![0, 1]], 2)?;
/// assert_eq!(counts, sampler.counts(&[vec![0, 1]], 1)?);
/// let rate = |total: u64| total as f64 / counts.shots as f64;
/// assert!((rate(counts.totals[0]) - 0.25).abs() < 0.01);
/// assert!((rate(counts.sets[0]) - 2.0 * 0.25 * 0.75).abs() < 0.01);
/// # Ok::<(), kundatrezo::SamplerError>(())
/// ```
#[derive(Debug, Clone)]
pub struct Sampler {
    /// The job as the first, a middle and the last block run it.
    first: Vec<u8>,
    middle: Vec<u8>,
    last: Vec<u8>,
    job: Examination,
    /// The shots of the job's own header.
    own_shots: usize,
    /// The CRC-32 of the job.
    sum: u32,
    shots: u64,
    seed: u64,
    named: Option<NamedShots>,
    /// Noiseless bits of the job's own shots, repeated cyclically; empty if all are zero.
    noiseless: Vec<u64>,
    /// The CRC-32 of these, if they were given.
    noiseless_sum: Option<u32>,
    need: Need,
}

impl Sampler {
    /// A sampler of this number of shots of a job, with the words of a seed.
    ///
    /// # Errors
    ///
    /// The refusal by a test of the job, or the first line that names a shot, an injection or a flip. Such a job needs
    /// [`with_named_shots`](Self::with_named_shots).
    ///
    /// ```
    /// use kundatrezo::{NamedShots, Sampler, SamplerError};
    ///
    /// let job = b"op=job qubits=1 outcomes=1 shots=9\nop=i shot=4 x=0 z=-\nop=o x=- z=0 id=0\n";
    /// let error = Sampler::new(job, 100_000, 1).map(drop).unwrap_err();
    /// assert_eq!(error, SamplerError::NamedShot { line: 2 });
    /// let sampler = Sampler::with_named_shots(job, 100_000, 1, NamedShots::InSample)?;
    /// assert_eq!(sampler.counts(&[], 1)?.totals, [1]);
    /// # Ok::<(), kundatrezo::Refusal>(())
    /// ```
    pub fn new(job: &[u8], shots: u64, seed: u64) -> Result<Self, SamplerError> {
        match first_named_shot(job) {
            Some(line) => Err(SamplerError::NamedShot { line }),
            None => Ok(Self { named: None, ..Self::with_named_shots(job, shots, seed, NamedShots::InSample)? }),
        }
    }

    /// The same for a job with injections or flips; `named` says where the shots are that these name.
    ///
    /// # Errors
    ///
    /// The refusal by a test of the job.
    pub fn with_named_shots(job: &[u8], shots: u64, seed: u64, named: NamedShots) -> Result<Self, Refusal> {
        let examined = examine(job)?;
        let circuit = Circuit::read_accepted(job);
        let blocks = shots.div_ceil(BLOCK);
        let text = |block: u64| {
            let shots = shots_of(shots, block);
            let stands = |shot: u64| match named {
                NamedShots::InSample => block == 0,
                NamedShots::InEachBlock => shot < shots.end - shots.start,
            };
            block_text(&circuit, shots.end - shots.start, stands)
        };
        Ok(Self {
            first: text(0),
            middle: text(1),
            last: text(blocks.saturating_sub(1)),
            job: Examination { shots: MAX_SHOTS, ..examined },
            own_shots: examined.shots,
            sum: crc32(job.iter().copied()),
            shots,
            seed,
            named: Some(named),
            noiseless: Vec::new(),
            noiseless_sum: None,
            need: Need::of(&circuit),
        })
    }

    /// The same with noiseless bits, in the layout of a run, for the shots of the job's own header. They are repeated cyclically: shot s of the
    /// sample has those of s mod the header's shots. Without this all are zero.
    ///
    /// # Errors
    ///
    /// The number of words is not that of the header's outcomes and shots, [`Examination::outcome_words`].
    pub fn with_noiseless(self, rows: &[u64]) -> Result<Self, NoiselessSizeError> {
        let (shots, outcomes) = (self.own_shots, self.job.outcomes);
        let period = shots.div_ceil(64);
        if rows.len() != outcomes * period {
            return Err(NoiselessSizeError { words: rows.len(), needed: outcomes * period, outcomes, shots });
        }
        // Rows that are repeated until they have whole words: each block reads 64 shots of them at a time.
        let repeated = shots * 64 / gcd(shots, 64);
        let mut noiseless = vec![0; self.job.outcomes * repeated / 64];
        for (id, row) in noiseless.chunks_exact_mut(repeated / 64).enumerate() {
            let given = &rows[id * period..][..period];
            for shot in (0..repeated).filter(|shot| bit(given, shot % shots)) {
                row[shot / 64] |= 1 << (shot % 64);
            }
        }
        let noiseless_sum = Some(crc32(rows.iter().flat_map(|word| word.to_le_bytes())));
        Ok(Self { noiseless, noiseless_sum, ..self })
    }

    /// The job's numbers, with the shots of a full block.
    #[must_use]
    pub fn job(&self) -> Examination {
        self.job
    }

    /// The number of shots in the sample.
    #[must_use]
    pub fn shots(&self) -> u64 {
        self.shots
    }

    /// The number of blocks in the sample.
    #[must_use]
    pub fn blocks(&self) -> u64 {
        self.shots.div_ceil(BLOCK)
    }

    /// The shots of a block.
    #[must_use]
    pub fn shots_of(&self, block: u64) -> Range<u64> {
        shots_of(self.shots, block)
    }

    /// The blocks of one of `parts` parts of the sample, which differ by one block at most. `place` counts from 0; the range is empty if there is no
    /// such part.
    #[must_use]
    pub fn part(&self, place: u64, parts: u64) -> Range<u64> {
        part_blocks(self.blocks(), place, parts)
    }

    /// The job as a block runs it.
    fn block_job(&self, block: u64) -> &[u8] {
        match block {
            _ if block.checked_add(1) == Some(self.blocks()) => &self.last,
            0 => &self.first,
            _ => &self.middle,
        }
    }

    /// Run a block in a workspace, with the noiseless bits of this sampler. Returns its frames, deltas and totals.
    ///
    /// # Errors
    ///
    /// The refusal of the run: by a test of the job (10 if a line names a shot that the sample does not have), or by 14 for a correlation past 2^28
    /// words.
    pub fn run<'a>(&self, block: u64, workspace: &'a mut Workspace) -> Result<&'a Frames, Refusal> {
        let words = self.row_words(block);
        workspace.noiseless.clear();
        workspace.noiseless.resize(self.job.outcomes * words, 0);
        let period = self.noiseless.len() / self.job.outcomes.max(1);
        if period > 0 && words > 0 {
            let start = size(block % period as u64) * (MAX_SHOTS / 64) % period;
            for (row, given) in workspace.noiseless.chunks_exact_mut(words).zip(self.noiseless.chunks_exact(period)) {
                row.iter_mut().zip(given.iter().cycle().skip(start)).for_each(|(word, given)| *word = *given);
            }
        }
        self.run_in(block, workspace)
    }

    /// Run a block with the noiseless bits of the workspace.
    fn run_in<'a>(&self, block: u64, workspace: &'a mut Workspace) -> Result<&'a Frames, Refusal> {
        let Range { start, end } = self.shots_of(block);
        let shots = usize::try_from(end - start).unwrap_or(MAX_SHOTS);
        let text = self.block_job(block);
        workspace.main.begin(Xorshift::of_block(self.seed, block, 0), self.need.main(shots));
        workspace.second.begin(Xorshift::of_block(self.seed, block, 1), self.need.second(shots));
        let job = Examination { shots, ..self.job };
        loop {
            let draws = Draws::new(&workspace.main.words).with_second(&workspace.second.words, 0);
            match workspace.frames.run_examined(job, text, &workspace.noiseless, draws) {
                Err(refusal) if refusal.number == Number::DRAWS && workspace.grow(&refusal, text, shots) => {}
                answer => return answer.map(|()| &workspace.frames),
            }
        }
    }

    /// Run a block with noiseless bits for each of its shots: a row of ceil(outcomes / 8) bytes each, eight outcomes to a byte, the lowest first.
    ///
    /// # Errors
    ///
    /// As [`run`](Self::run), and 13 if there are too few bytes.
    pub fn run_packed<'a>(
        &self,
        block: u64,
        bytes: &[u8],
        workspace: &'a mut Workspace,
    ) -> Result<&'a Frames, Refusal> {
        let Range { start, end } = self.shots_of(block);
        let outcomes = self.job.outcomes;
        let word = |bytes: &[u8]| bytes.iter().rev().fold(0, |word, byte| word << 8 | u64::from(*byte));
        let rows: Vec<u64> =
            bytes.chunks_exact(outcomes.div_ceil(8).max(1)).flat_map(|row| row.chunks(8).map(word)).collect();
        workspace.noiseless.resize(outcomes * self.row_words(block), 0);
        by_outcome(outcomes as u64, end - start, &rows, &mut workspace.noiseless)?;
        self.run_in(block, workspace)
    }

    /// What a user may do about the refusal of a block, if that can be said.
    #[must_use]
    pub fn hint(&self, refusal: &Refusal) -> Option<String> {
        match refusal.number {
            Number::LENGTH => {
                Some(format!("with {MAX_SHOTS} shots in its header the job has more than {MAX_BYTES} bytes"))
            }
            Number::SHOT => Some(format!("the whole has {} shots", self.shots)),
            Number::DRAWS => Some(format!("place corr of this line lies past {MOST_WORDS} words, the most of a list")),
            _ => None,
        }
    }

    /// The words that a full block's lists are expected to have: most of the memory of a [`Workspace`].
    #[must_use]
    pub fn list_words(&self) -> usize {
        self.need.main(MAX_SHOTS) + self.need.second(MAX_SHOTS)
    }

    /// The words of a row of a block.
    fn row_words(&self, block: u64) -> usize {
        let Range { start, end } = self.shots_of(block);
        usize::try_from((end - start).div_ceil(64)).unwrap_or_default()
    }

    /// The totals of all outcomes of the header and of the parities of sets of outcomes, over the whole sample, on `threads` threads.
    ///
    /// # Errors
    ///
    /// The refusal by 17 of a set that does not rise strictly or has an outcome that is not recorded; else as [`run`](Self::run).
    pub fn counts(&self, sets: &[Vec<u64>], threads: usize) -> Result<Counts, Refusal> {
        self.counts_of(0..self.blocks(), sets, threads)
    }

    fn counts_of(&self, blocks: Range<u64>, sets: &[Vec<u64>], threads: usize) -> Result<Counts, Refusal> {
        sets.iter().try_for_each(|set| self.job.check_set(set))?;
        let start = || (Workspace::new(), Counts::default());
        let made = for_each_block(blocks, threads, start, |(workspace, counts), block| {
            counts.add(self.run(block, workspace)?, sets)
        })?;
        let mut sum = self.zero_counts(sets);
        made.iter().for_each(|(_, counts)| sum += counts);
        Ok(sum)
    }

    /// The counts of no shots, with a zero for each outcome of the header and each set.
    #[must_use]
    pub fn zero_counts(&self, sets: &[Vec<u64>]) -> Counts {
        Counts { totals: vec![0; self.job.outcomes], sets: vec![0; sets.len()], ..Counts::default() }
    }

    /// The counts of a part of the whole, from 1, of how many, in the form in which they are saved and added: (1, 1) is the whole.
    ///
    /// # Errors
    ///
    /// As [`counts`](Self::counts), and if there is no such part.
    pub fn sample(&self, sets: &[Vec<u64>], part: (u64, u64), threads: usize) -> Result<SavedCounts, SamplerError> {
        part_of(part)?;
        let counts = self.counts_of(self.part(part.0 - 1, part.1), sets, threads)?;
        Ok(self.saved(counts, sets, part)?)
    }

    /// The counts of all shots of a part, from 1, of how many, which were made by this sampler's runs, in the form in which they are saved and added.
    ///
    /// # Errors
    ///
    /// There is no such part, or the counts are not those of its shots, of the job's outcomes and of the sets.
    pub fn saved(&self, counts: Counts, sets: &[Vec<u64>], part: (u64, u64)) -> Result<SavedCounts, CountsError> {
        part_of(part)?;
        let sample = Sample::part(self.seed, part, self.shots);
        let numbers =
            |shots: u64, outcomes: usize, sets: usize| format!("shots={shots} outcomes={outcomes} sets={sets}");
        let given = numbers(counts.shots, counts.totals.len(), counts.sets.len());
        let needed = numbers(sample.shots(), self.job.outcomes, sets.len());
        if given != needed {
            return fault(format!("counts of {given}, but part {}/{} has {needed}", part.0, part.1));
        }
        Ok(SavedCounts {
            qubits: self.job.qubits,
            outcomes: self.job.outcomes,
            recorded: self.job.recorded,
            job: self.sum,
            draws: DRAWS.into(),
            samples: vec![sample],
            named: self.named,
            noiseless: self.noiseless_sum.map(|sum| format!("{sum:08x}")),
            sets: sets.to_vec(),
            counts,
        })
    }
}

/// Whether there is a part of this number, from 1, of how many.
fn part_of((place, parts): (u64, u64)) -> Result<(), CountsError> {
    if (1..=parts).contains(&place) {
        return Ok(());
    }
    fault(format!("there is no part {place} of {parts}: parts are numbered from 1"))
}

const BLOCK: u64 = MAX_SHOTS as u64;

fn shots_of(shots: u64, block: u64) -> Range<u64> {
    let start = block.saturating_mul(BLOCK).min(shots);
    start..start.saturating_add(BLOCK).min(shots)
}

/// The blocks of one of `parts` parts, which are numbered from 0.
pub(crate) fn part_blocks(blocks: u64, place: u64, parts: u64) -> Range<u64> {
    let until = |place: u64| u128::from(blocks) * u128::from(place.min(parts)) / u128::from(parts.max(1));
    let number = |until: u128| u64::try_from(until).unwrap_or(blocks);
    number(until(place))..number(until(place.saturating_add(1)))
}

fn gcd(a: usize, b: usize) -> usize {
    if b == 0 { a } else { gcd(b, a % b) }
}

/// The job of a circuit with another number of shots, at least 1, in its header, and with the injections and flips of those shots alone in which they
/// stand. In the place of others is the identity as a gate, which changes nothing, so that lines keep their numbers.
fn block_text(circuit: &Circuit, shots: u64, stands: impl Fn(u64) -> bool) -> Vec<u8> {
    let header = Header { shots: size(shots.max(1)), ..circuit.header };
    let identity = Instruction::Pauli(SparsePauli::default());
    let kept = |instruction: &Instruction| instruction.shot().is_none_or(|shot| stands(shot as u64));
    let lines = circuit.instructions.iter().map(|line| if kept(line) { line } else { &identity });
    write_job(&header, lines)
}

/// The first line of an accepted job, from 1, that names a shot: an injection or a flip.
fn first_named_shot(job: &[u8]) -> Option<u64> {
    let circuit = Circuit::read(job).ok()?;
    circuit.numbered().find(|(_, instruction)| instruction.shot().is_some()).map(|(line, _)| line as u64)
}

/// The message of [`SamplerError::NamedShot`] for an interface of its own; `whole` and `block` are its ways to write the two values of
/// [`NamedShots`].
#[must_use]
pub fn named_shot_message(line: u64, whole: &str, block: &str) -> String {
    format!(
        "line {line} stands in a shot that it names. With {whole} it stands in that shot of the whole sample, with {block} in that shot of each \
         block of {MAX_SHOTS}; for a fault in every shot write noise of p = 1"
    )
}

/// Notes on noise whose condition looks at noiseless bits that are not given, or at those of a random outcome, which are the same in all shots, or
/// repeat if bits are given for the job's own shots. `own` and `each` name the options by which bits are given for these and for each shot.
#[must_use]
pub fn condition_notes(job: &[u8], is_given: bool, own: &str, each: &str) -> Vec<String> {
    let conditions = conditions(job);
    let first = conditions.first().filter(|_| !is_given);
    let no_bits = first.map(|(line, _)| {
        format!("line {line} has noise with a condition, and without {own} or {each} all noiseless bits are 0")
    });
    let random = conditions.iter().find_map(|(line, random)| Some((line, (*random)?))).map(|(line, outcome)| {
        let shots = examine(job).unwrap_or_default().shots;
        let same = if is_given { format!("comes again every {shots} shots") } else { "is 0 in every shot".into() };
        format!(
            "the condition of line {line} looks at outcome {outcome}, which op=r records at random, and its noiseless bit {same}: {each} \
             gives it for each shot"
        )
    });
    no_bits.into_iter().chain(random).collect()
}

/// The noise lines of an accepted job that look at noiseless bits and can fall: the number of each, from 1, and the first outcome of its condition that
/// an `op=r` line records, if there is one. The noiseless bit of that is random in every shot.
fn conditions(job: &[u8]) -> Vec<(u64, Option<usize>)> {
    let Ok(circuit) = Circuit::read(job) else {
        return Vec::new();
    };
    let random_outcome = |instruction: &Instruction| match instruction {
        Instruction::Allocate { outcome, .. } => Some(*outcome),
        _ => None,
    };
    let random: BTreeSet<usize> = circuit.instructions.iter().filter_map(random_outcome).collect();
    let condition = |(line, noise): (usize, &Noise)| {
        let outcomes = &noise.condition.as_ref().filter(|_| noise.probability > 0.0)?.outcomes;
        Some((line as u64, outcomes.iter().find(|outcome| random.contains(outcome)).copied()))
    };
    circuit.noise().filter_map(condition).collect()
}

/// How many words the noise lines of a job read, a shot on average: a guess, which the calls judge.
#[derive(Debug, Clone, Default)]
struct Need {
    mean: f64,
    variance: f64,
    /// The second list is read from no later place on than this.
    place: Option<u64>,
}

impl Need {
    fn of(circuit: &Circuit) -> Self {
        let mut need = Self::default();
        for (_, noise) in circuit.noise().filter(|(_, noise)| noise.probability > 0.0) {
            let p = noise.probability;
            match (noise.correlation, &noise.distribution) {
                (Some(place), _) => need.place = need.place.max(Some(place)),
                (None, PauliDistribution::Single(_)) => need.mean += 1.0,
                (None, _) => {
                    need.mean += 1.0 + p;
                    need.variance += p * (1.0 - p);
                }
            }
        }
        need
    }

    /// Eight standard deviations above the mean, and some words more for those that a choice rejects.
    #[allow(clippy::cast_precision_loss, clippy::cast_possible_truncation, clippy::cast_sign_loss)]
    fn main(&self, shots: usize) -> usize {
        let shots = shots as f64;
        let words = self.mean * shots + 8.0 * (self.variance * shots).sqrt();
        if self.mean > 0.0 { (words as usize + 64).min(MOST_WORDS) } else { 0 }
    }

    fn second(&self, shots: usize) -> usize {
        let place = self.place.map(|place| usize::try_from(place).unwrap_or(MOST_WORDS));
        place.filter(|place| *place < MOST_WORDS).map_or(0, |place| (place + 2 * shots + 64).min(MOST_WORDS))
    }
}

/// The memory in which a thread runs blocks, one after the other: rows and words.
#[derive(Debug, Clone, Default)]
pub struct Workspace {
    frames: Frames,
    main: List,
    second: List,
    /// The noiseless bits of the next block, in the layout of a run.
    noiseless: Vec<u64>,
}

impl Workspace {
    /// An empty workspace, which grows as blocks need it.
    #[must_use]
    pub fn new() -> Self {
        Self::default()
    }

    /// The frames of the last run.
    #[must_use]
    pub fn frames(&self) -> &Frames {
        &self.frames
    }

    /// More words for the list that the refused noise line reads; whether there are any.
    fn grow(&mut self, refusal: &Refusal, text: &[u8], shots: usize) -> bool {
        let circuit = Circuit::read_accepted(text);
        match circuit.noise_at(size(refusal.line)).and_then(|noise| noise.correlation) {
            None => self.main.grow(2 * self.main.words.len() + shots),
            Some(place) => usize::try_from(place)
                .is_ok_and(|place| place < MOST_WORDS && self.second.grow(2 * self.second.words.len() + place + shots)),
        }
    }
}

/// The first words of a stream, as many as are needed.
#[derive(Debug, Clone, Default)]
pub(crate) struct List {
    pub(crate) words: Vec<u64>,
    stream: Option<Xorshift>,
}

impl List {
    pub(crate) fn begin(&mut self, stream: Xorshift, words: usize) {
        self.stream = Some(stream);
        self.words.resize(words, 0);
        self.fill(0);
    }

    fn fill(&mut self, from: usize) {
        if let Some(stream) = &mut self.stream {
            stream.fill(&mut self.words[from..]);
        }
    }

    /// Make the list longer, by the next words; whether that could be.
    pub(crate) fn grow(&mut self, words: usize) -> bool {
        let before = self.words.len();
        self.words.resize(words.clamp(before, MOST_WORDS.max(before)), 0);
        self.fill(before);
        self.words.len() > before
    }
}

#[cfg(test)]
mod tests {
    use super::*;

    const JOB: &str = "op=job qubits=2 outcomes=2 shots=5
op=r id=0 angle=0
op=n p=3fd0000000000000 corr=- cond=0 parity=1 d=2 q=0,1 size=15
op=i shot=4 x=1 z=-
op=n p=3fe0000000000000 corr=9000 cond=- parity=0 d=1 x=1 z=- size=1
op=o x=- z=1 id=1
op=t shot=0 id=1
";

    fn sampler(job: &str, shots: u64, seed: u64) -> Sampler {
        Sampler::with_named_shots(job.as_bytes(), shots, seed, NamedShots::InSample).expect("it is accepted")
    }

    /// Blocks are runs of the job with other shots and the words of the block.
    #[test]
    fn blocks_are_runs() {
        let sampler = sampler(JOB, 10_000, 3);
        let sampler = sampler.with_noiseless(&[0b10110, 0]).expect("a row for each outcome");
        let mut workspace = Workspace::new();
        for block in [2, 0, 1] {
            let shots = if block == 2 { 10_000 - 2 * 4096 } else { 4096 };
            let mut text = JOB.replace("shots=5", &format!("shots={shots}"));
            if block > 0 {
                let named = |line: &&str| !line.starts_with("op=i") && !line.starts_with("op=t");
                text = text.lines().filter(named).map(|line| format!("{line}\n")).collect();
            }
            let words = |list| Xorshift::of_block(3, block, list).take(20_000).collect::<Vec<u64>>();
            let (main, second) = (words(0), words(1));
            let mut noiseless = vec![0; 2 * 64];
            for shot in (0..4096).filter(|shot| 0b10110 >> ((block * 4096 + shot) % 5) & 1 == 1) {
                noiseless[usize::try_from(shot / 64).expect("small")] |= 1 << (shot % 64);
            }
            let row = usize::try_from(shots).expect("small").div_ceil(64);
            let noiseless: Vec<u64> = noiseless.chunks(64).flat_map(|words| words[..row].to_vec()).collect();
            let draws = Draws::new(&main).with_second(&second, 0);
            let frames = Frames::from_run(text.as_bytes(), &noiseless, draws).expect("the words are enough");
            let sampled = sampler.run(block, &mut workspace).expect("it runs");
            assert_eq!((sampled.deltas(), sampled.totals()), (frames.deltas(), frames.totals()), "{block}");
            assert_eq!(sampler.block_job(block).split(|byte| *byte == b'\n').count(), 8);
        }
    }

    /// Noiseless bits for another number of shots would be read in a wrong shape: the job has two outcomes and five shots.
    #[test]
    fn noiseless_bits_of_another_size_are_refused() {
        let sampler = sampler(JOB, 9_000, 1);
        for words in [0, 1, 3, 128] {
            let error = sampler.clone().with_noiseless(&vec![0; words]).expect_err("another size");
            let header = "the header's outcomes=2 and shots=5 need exactly 2";
            assert_eq!(error.to_string(), format!("noiseless bits of {words} words, but {header}"));
        }
        assert!(sampler.with_noiseless(&[0, 0]).is_ok());
        let most = self::sampler(&JOB.replace("shots=5", "shots=4096"), 9_000, 1);
        assert!(most.clone().with_noiseless(&[0; 2 * 64]).is_ok() && most.with_noiseless(&[0, 0]).is_err());
    }

    #[test]
    fn conditions_that_can_fall() {
        assert_eq!(conditions(JOB.as_bytes()), [(3, Some(0))]);
        let measured = JOB.replace("op=r id=0 angle=0", "op=o x=- z=0 id=0");
        assert_eq!(conditions(measured.as_bytes()), [(3, None)]);
        for p in ["0000000000000000", "8000000000000000", "bfe0000000000000"] {
            assert_eq!(conditions(JOB.replace("3fd0000000000000", p).as_bytes()), []);
        }
    }

    /// Guesses that are too small are made good, and change nothing.
    #[test]
    fn more_words_are_made_where_they_are_needed() {
        let sampler = sampler(JOB, 9_000, 1);
        let starved = Sampler { need: Need::default(), ..sampler.clone() };
        assert_eq!((starved.list_words(), sampler.list_words() > 4096 + 9000 + 4096), (0, true));
        assert_eq!(starved.counts(&[vec![0, 1]], 2), sampler.counts(&[vec![0, 1]], 3));
        let far = JOB.replace("corr=9000", "corr=18446744073709551615");
        let refusal = self::sampler(&far, 5, 1).counts(&[], 1).unwrap_err();
        assert_eq!((refusal.number, refusal.line), (Number::DRAWS, 5));
    }

    #[test]
    fn sets_parts_and_blocks_that_there_are_not() {
        let sampler = sampler(JOB, 9_000, 1);
        for wrong in [vec![1, 0], vec![0, 0], vec![u64::MAX]] {
            assert_eq!(sampler.counts(&[vec![0], wrong], 2).unwrap_err().number, Number::WALK);
        }
        assert!([(3, 3), (u64::MAX, 3), (0, 0)].iter().all(|(place, parts)| sampler.part(*place, *parts).is_empty()));
        let lent = sampler.clone().with_noiseless(&[0b10110, 0]).expect("a row for each outcome");
        for block in [sampler.blocks(), u64::MAX - 1, u64::MAX] {
            for sampler in [&sampler, &lent] {
                let refusal = sampler.run(block, &mut Workspace::new()).map(drop).unwrap_err();
                assert_eq!(refusal.number, Number::WORDS, "{block}");
            }
        }
    }

    /// What the program refuses, the crate refuses.
    #[test]
    fn named_shots_are_not_guessed() {
        let error = Sampler::new(JOB.as_bytes(), 9_000, 1).map(drop).unwrap_err();
        assert_eq!(error, SamplerError::NamedShot { line: 4 });
        let sentence = "line 4 stands in a shot that it names. With NamedShots::InSample it stands in that shot of the whole sample, with \
                        NamedShots::InEachBlock in that shot of each block of 4096; for a fault in every shot write noise of p = 1";
        assert_eq!(error.to_string(), sentence);
        let error = Sampler::new(b"op=job\n", 9_000, 1).map(drop).unwrap_err();
        assert_eq!(error.to_string(), format!("refused: {} at line 1", Number::FORM));
    }

    #[test]
    fn named_shots_stand_where_they_are_said_to() {
        let job = b"op=job qubits=1 outcomes=1 shots=70\nop=i shot=69 x=0 z=-\nop=o x=- z=0 id=0\n";
        assert_eq!(first_named_shot(job), Some(2));
        let count = |shots, named| {
            Sampler::with_named_shots(job, shots, 0, named)
                .and_then(|sampler| sampler.counts(&[], 2))
                .map(|counts| counts.totals[0])
        };
        assert_eq!(count(3 * 4096 + 70, NamedShots::InSample), Ok(1));
        assert_eq!(count(3 * 4096 + 70, NamedShots::InEachBlock), Ok(4));
        assert_eq!(count(3 * 4096 + 69, NamedShots::InEachBlock), Ok(3));
        assert_eq!(count(69, NamedShots::InEachBlock), Ok(0));
        assert_eq!(
            count(69, NamedShots::InSample).map_err(|refusal| (refusal.number, refusal.line)),
            Err((Number::SHOT, 2))
        );
        assert_eq!(first_named_shot(b"op=job qubits=1 outcomes=1 shots=70\n"), None);
    }

    #[test]
    fn parts_share_the_blocks() {
        for shots in [0, 1, 4096, 4097, 1_000_000, u64::MAX] {
            let sampler = sampler(JOB, shots, 1);
            for parts in [1, 2, 7, 300] {
                let shares: Vec<Range<u64>> = (0..parts).map(|place| sampler.part(place, parts)).collect();
                assert_eq!((shares[0].start, shares[shares.len() - 1].end), (0, sampler.blocks()));
                assert!(shares.windows(2).all(|two| two[0].end == two[1].start));
            }
            let last = sampler.blocks().saturating_sub(1);
            assert_eq!(sampler.shots_of(last).end, shots);
        }
    }
}
