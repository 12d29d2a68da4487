//! Counts of shots, and the text by which they are saved, read again and added.

use crate::sampler::part_blocks;
use crate::{Frames, MAX_OUTCOMES, MAX_SHOTS, NamedShots, Refusal, examine, size};
use std::error::Error;
use std::fmt;
use std::ops::{AddAssign, RangeInclusive};

/// The rule by which [`Sampler`](crate::Sampler) draws, as a text of counts names it (docs/SAMPLING.md, 'Blocks and streams').
pub const DRAWS: &str = "xorshift";

/// The place of the normal distribution that 97.5 percent lie below.
const QUANTILE: f64 = 1.959_963_984_540_054;

/// Wilson's score interval, at 95 percent, of a rate of `total` shots in `shots`. Of no shots nothing is known: 0 to 1.
///
/// ```
/// let rounded = kundatrezo::wilson(10, 100).map(|end| format!("{end:.4}"));
/// assert_eq!(rounded, ["0.0552", "0.1744"]);
/// ```
#[must_use]
#[allow(clippy::cast_precision_loss)]
pub fn wilson(total: u64, shots: u64) -> [f64; 2] {
    if shots == 0 {
        return [0.0, 1.0];
    }
    let (rate, shots) = (rate(total, shots), shots as f64);
    let square = QUANTILE * QUANTILE / shots;
    let middle = (rate + square / 2.0) / (1.0 + square);
    let half = (rate * (1.0 - rate) * square + square * square / 4.0).sqrt() / (1.0 + square);
    [(middle - half).max(0.0), (middle + half).min(1.0)]
}

/// The part of the shots, 0 where there are none. Both numbers are exact up to 2^53.
#[allow(clippy::cast_precision_loss)]
pub(crate) fn rate(total: u64, shots: u64) -> f64 {
    if shots == 0 { 0.0 } else { total as f64 / shots as f64 }
}

/// How many shots flip the outcomes of a job, and the parities of sets of them.
#[derive(Debug, Clone, Default, PartialEq, Eq, Hash)]
pub struct Counts {
    /// The shots that are counted.
    pub shots: u64,
    /// For each outcome of the header, the shots that flip it.
    pub totals: Vec<u64>,
    /// For each set, the shots that flip an odd number of its outcomes.
    pub sets: Vec<u64>,
    /// The shots that a caller's own function counts, such as those that a decoder gets wrong; none if there is no such function.
    pub counted: Option<u64>,
}

impl Counts {
    /// The part of the shots that a total among them is: 0 of no shots.
    #[must_use]
    pub fn rate(&self, total: u64) -> f64 {
        rate(total, self.shots)
    }

    /// Wilson's interval of that rate, at 95 percent.
    #[must_use]
    pub fn interval(&self, total: u64) -> [f64; 2] {
        wilson(total, self.shots)
    }

    /// Add what a run left: the totals that the library has counted, and for each set the ones in the sum of its rows.
    ///
    /// # Errors
    ///
    /// The refusal by 17 if a set has an outcome that is not below the header's outcomes. Nothing is added then.
    pub fn add(&mut self, frames: &Frames, sets: &[Vec<u64>]) -> Result<(), Refusal> {
        frames.require_outcomes(sets)?;
        let parity = |set: &Vec<u64>| {
            let word = |place: usize| set.iter().fold(0, |sum, id| sum ^ frames.delta_row(size(*id))[place]);
            (0..frames.job().words_per_row()).map(|place| u64::from(word(place).count_ones())).sum()
        };
        let sets = sets.iter().map(parity).collect();
        *self += &Self { shots: frames.job().shots as u64, totals: frames.totals().to_vec(), sets, counted: None };
        Ok(())
    }
}

/// Counts of other shots of the same job and sets; counts without lists take the other's.
impl AddAssign<&Counts> for Counts {
    fn add_assign(&mut self, other: &Counts) {
        self.shots += other.shots;
        for (own, others) in [(&mut self.totals, &other.totals), (&mut self.sets, &other.sets)] {
            own.resize(own.len().max(others.len()), 0);
            own.iter_mut().zip(others).for_each(|(own, other)| *own += other);
        }
        if let Some(others) = other.counted {
            self.counted = Some(self.counted.unwrap_or_default() + others);
        }
    }
}

/// Why a text of counts is not read, or two counts are not added.
#[derive(Debug, Clone, PartialEq, Eq)]
pub struct CountsError(String);

impl fmt::Display for CountsError {
    fn fmt(&self, f: &mut fmt::Formatter<'_>) -> fmt::Result {
        f.write_str(&self.0)
    }
}

impl Error for CountsError {}

pub(crate) fn fault<T>(text: impl Into<String>) -> Result<T, CountsError> {
    Err(CountsError(text.into()))
}

/// The counts of a sample, or of some of its parts, with all that says what they are counts of: the one form in which counts are saved. The program's
/// `sample` and [`Sampler::sample`](crate::Sampler::sample) make it, and so does the Python package, with the same text.
///
/// ```
/// use kundatrezo::{Sampler, SavedCounts};
///
/// let job = include_bytes!(concat!(env!("CARGO_MANIFEST_DIR"), "/../../examples/syndrome.job"));
/// let sampler = Sampler::new(job, 10_000, 1)?;
/// let part = |place| sampler.sample(&[vec![4, 5, 6]], (place, 2), 2);
/// let sum = part(1)?.checked_add(&part(2)?).expect("two parts of one sample");
/// assert_eq!(sum, sampler.sample(&[vec![4, 5, 6]], (1, 1), 2)?);
/// assert_eq!(SavedCounts::read(&sum.text()), Ok(sum.clone()));
/// // a sample is not twice the shots
/// assert!(sum.checked_add(&sum).is_err());
/// # Ok::<(), kundatrezo::SamplerError>(())
/// ```
#[derive(Debug, Clone, PartialEq, Eq, Hash)]
pub struct SavedCounts {
    pub(crate) qubits: usize,
    pub(crate) outcomes: usize,
    pub(crate) recorded: usize,
    /// The CRC-32 of the job's bytes.
    pub(crate) job: u32,
    pub(crate) draws: String,
    /// Complete samples, which are one entry, then those with missing parts, by their seeds.
    pub(crate) samples: Vec<Sample>,
    pub(crate) named: Option<NamedShots>,
    pub(crate) noiseless: Option<String>,
    pub(crate) sets: Vec<Vec<u64>>,
    pub(crate) counts: Counts,
}

impl SavedCounts {
    /// How often each outcome, each set, and the caller's own function counted a shot.
    #[must_use]
    pub fn counts(&self) -> &Counts {
        &self.counts
    }

    /// The sets of outcomes whose parities are counted.
    #[must_use]
    pub fn sets(&self) -> &[Vec<u64>] {
        &self.sets
    }

    /// The seeds of all samples, whole ones first.
    pub fn seeds(&self) -> impl Iterator<Item = u64> {
        self.samples.iter().flat_map(|sample| sample.seeds.iter().copied())
    }

    /// Whether the counts are for this job.
    #[must_use]
    pub fn is_for(&self, job: &[u8]) -> bool {
        let numbers = (self.qubits, self.outcomes, self.recorded);
        self.job == crc32(job.iter().copied())
            && examine(job).is_ok_and(|job| (job.qubits, job.outcomes, job.recorded) == numbers)
    }

    /// The shots that a caller's own function counts, in the place of those that the counts have.
    ///
    /// # Errors
    ///
    /// They are more than the counts have shots.
    pub fn with_counted(mut self, counted: u64) -> Result<Self, CountsError> {
        let shots = self.counts.shots;
        if counted > shots {
            return fault(format!("{counted} shots are counted, and there are {shots}"));
        }
        self.counts.counted = Some(counted);
        Ok(self)
    }

    /// The same counts, marked as made with noiseless bits for each shot.
    #[must_use]
    pub fn with_noiseless_per_shot(self) -> Self {
        Self { noiseless: Some(LENT.into()), ..self }
    }

    /// The text: a line for the job, one for the sample, and one for each recorded outcome, each set, and the shots that a function of the caller's
    /// counts.
    #[must_use]
    pub fn text(&self) -> String {
        let Counts { shots, counted, .. } = self.counts;
        let samples: String = self.samples.iter().map(|sample| format!(" {sample}")).collect();
        let option =
            |name: &str, value: Option<&str>| value.map_or_else(String::new, |value| format!(" {name}={value}"));
        let mut text = format!(
            "ok=1 qubits={} outcomes={} shots={shots} recorded={} sets={} counted={}\njob={:08x} draws={}{samples}{}{}\n",
            self.qubits,
            self.outcomes,
            self.recorded,
            self.sets.len(),
            u8::from(counted.is_some()),
            self.job,
            self.draws,
            option("named", self.named.map(NamedShots::name)),
            option("noiseless", self.noiseless.as_deref()),
        );
        for (name, total) in self.rows() {
            let (rate, [low, high]) = (self.counts.rate(total), self.counts.interval(total));
            text += &format!("{name} total={total} rate={rate:.6e} low={low:.6e} high={high:.6e}\n");
        }
        text
    }

    /// The name and total of each line of counts.
    fn rows(&self) -> impl Iterator<Item = (String, u64)> {
        let members = |set: &[u64]| set.iter().map(u64::to_string).collect::<Vec<String>>().join(",");
        let set = move |set: &Vec<u64>| if set.is_empty() { "set=-".into() } else { format!("set={}", members(set)) };
        let ids = (0..self.recorded).map(|id| format!("id={id}")).zip(self.counts.totals.iter().copied());
        let sets = self.sets.iter().map(set).zip(self.counts.sets.iter().copied());
        ids.chain(sets).chain(self.counts.counted.map(|total| (COUNTED.into(), total)))
    }

    /// Read a text.
    ///
    /// # Errors
    ///
    /// Says what is wrong with a text that is cut off, was changed, or is no text of counts.
    pub fn read(text: &str) -> Result<Self, CountsError> {
        let lines: Vec<&str> = text.split('\n').collect();
        let [header, second, _, ..] = lines[..] else {
            return fault(NO_COUNTS);
        };
        if !header.starts_with("ok=1 qubits=") || !second.starts_with("job=") {
            return fault(NO_COUNTS);
        }
        if field(header, "recorded").is_none() || field(second, "draws").is_none() {
            return Err(earlier(&lines));
        }
        let read = Self::parse(&lines)?;
        match read.text().split('\n').zip(&lines).position(|(written, given)| written != *given) {
            Some(place) => Err(changed(place + 1)),
            None => Ok(read),
        }
    }

    /// The counts of lines, of which the last is empty if all are whole. That the others are as they were written, the caller tests.
    fn parse(lines: &[&str]) -> Result<Self, CountsError> {
        let header = Header::read(lines[0]).ok_or(changed(1))?;
        let (second, rest) = (lines[1], header.lines_of_counts(&lines[2..])?);
        let samples = samples(second).ok_or(changed(2))?;
        let sampled = samples.iter().try_fold(0_u64, |sum, sample| sum.checked_add(sample.shots()));
        if sampled != Some(header.shots) {
            return fault("the shots of its first line do not match its parts");
        }
        let named = field(second, "named").map(|name| NamedShots::from_name(name).ok_or(changed(2))).transpose()?;
        Ok(Self {
            qubits: header.qubits,
            outcomes: header.outcomes,
            recorded: header.recorded,
            job: field(second, "job").and_then(|sum| u32::from_str_radix(sum, 16).ok()).ok_or(changed(2))?,
            draws: field(second, "draws").ok_or(changed(2))?.to_owned(),
            samples,
            named,
            noiseless: field(second, "noiseless").map(str::to_owned),
            sets: header.sets_of(rest)?,
            counts: header.counts(rest)?,
        })
    }

    /// The sum with the counts of other shots of the same job and sets: other parts of a sample, or samples of other seeds.
    ///
    /// # Errors
    ///
    /// Says what is not the same, or which shots are in both.
    pub fn checked_add(&self, other: &Self) -> Result<Self, CountsError> {
        if self.draws != other.draws {
            return fault(format!(
                "sampled by the rule of draws '{}', others by '{}': counts of different rules can't be added",
                other.draws, self.draws
            ));
        }
        if (self.qubits, self.outcomes, self.recorded, self.job)
            != (other.qubits, other.outcomes, other.recorded, other.job)
        {
            return fault("these are counts of another job");
        }
        if (self.named, &self.noiseless) != (other.named, &other.noiseless) {
            return fault("sampled with other options: named= or noiseless= differs");
        }
        if self.sets != other.sets {
            return fault("these are counts of other sets");
        }
        if self.counts.counted.is_some() != other.counts.counted.is_some() {
            return fault("only one of the two has a line of counted shots");
        }
        if self.counts.shots.checked_add(other.counts.shots).is_none() {
            return fault("the sum has 2^64 shots or more");
        }
        let mut samples = self.samples.clone();
        for sample in &other.samples {
            match samples.iter_mut().find(|own| own.shares_seed(sample)) {
                Some(own) => own.add(sample)?,
                None => samples.push(sample.clone()),
            }
        }
        let mut counts = self.counts.clone();
        counts += &other.counts;
        let samples = ordered(samples).ok_or_else(|| CountsError("the sum has 2^64 shots or more".into()))?;
        Ok(Self { samples, counts, ..self.clone() })
    }

    /// Check that no part of a sample is missing.
    ///
    /// # Errors
    ///
    /// Says which parts are.
    pub fn check_complete(&self) -> Result<(), CountsError> {
        let Some(sample) = self.samples.iter().find(|sample| !sample.is_whole()) else {
            return Ok(());
        };
        // wide enough for the place after the last
        let starts = [1].into_iter().chain(sample.places.iter().map(|places| u128::from(*places.end()) + 1));
        let ends = sample.places.iter().map(|places| u128::from(*places.start()) - 1).chain([u128::from(sample.parts)]);
        let mut missing = starts.zip(ends).flat_map(|(start, end)| start..=end).map(|place| place.to_string());
        let named: Vec<String> = missing.by_ref().take(10).collect();
        let more = if missing.next().is_some() { ", .." } else { "" };
        let (parts, seed) = (sample.parts, sample.seeds[0]);
        fault(format!("of the {parts} parts of seed {seed} these are missing: {}{more}", named.join(", ")))
    }
}

const NO_COUNTS: &str = "these are no counts as 'kundatrezo sample' writes them";
const COUNTED: &str = "counted";
/// What stands for noiseless bits that were lent for each shot.
const LENT: &str = "shots";

fn changed(line: usize) -> CountsError {
    CountsError(format!("line {line} is not as 'kundatrezo sample' writes it"))
}

/// The numbers of the first line of a text.
struct Header {
    qubits: usize,
    outcomes: usize,
    shots: u64,
    recorded: usize,
    sets: usize,
    /// 1 if there is a line of counted shots.
    counted: usize,
}

impl Header {
    fn read(line: &str) -> Option<Self> {
        let number = |key: &str| field(line, key)?.parse::<u64>().ok();
        let count = |key: &str| usize::try_from(number(key)?).ok();
        let [qubits, outcomes, recorded] = [count("qubits")?, count("outcomes")?, count("recorded")?];
        let [sets, counted] = [count("sets")?, count("counted")?];
        let is_possible = outcomes <= MAX_OUTCOMES && recorded <= outcomes && counted <= 1;
        is_possible.then_some(Self { qubits, outcomes, shots: number("shots")?, recorded, sets, counted })
    }

    /// The lines of counts: as many as the header says. What follows the last line end is no line.
    fn lines_of_counts<'a, 'b>(&self, lines: &'a [&'b str]) -> Result<&'a [&'b str], CountsError> {
        let wanted = self.recorded.saturating_add(self.sets).saturating_add(self.counted);
        let (last, whole) = lines.split_last().ok_or(CountsError(NO_COUNTS.into()))?;
        let (there, end) = match *last {
            "" => (whole.len(), ""),
            _ => (lines.len(), ", the last without its line end"),
        };
        if there < wanted || !end.is_empty() {
            return fault(format!(
                "the text is cut off: its first line says {wanted} lines of counts, and there are {there}{end}"
            ));
        }
        if there > wanted {
            return fault(format!("its first line says {wanted} lines of counts, and there are {there}"));
        }
        Ok(whole)
    }

    /// The sets of the lines of counts.
    fn sets_of(&self, lines: &[&str]) -> Result<Vec<Vec<u64>>, CountsError> {
        let set = |(line, place): (&&str, usize)| match field(line, "set") {
            Some("-") => Ok(Vec::new()),
            Some(list) => list.split(',').map(|member| member.parse().map_err(|_| changed(place))).collect(),
            None => Err(changed(place)),
        };
        lines[self.recorded..][..self.sets].iter().zip(self.recorded + 3..).map(set).collect()
    }

    fn counts(&self, lines: &[&str]) -> Result<Counts, CountsError> {
        let total = |(line, place): (&&str, usize)| {
            let total = field(line, "total").and_then(|total| total.parse().ok());
            total.filter(|total| *total <= self.shots).ok_or(changed(place))
        };
        let mut totals: Vec<u64> = lines.iter().zip(3..).map(total).collect::<Result<_, _>>()?;
        let counted = if self.counted == 1 { totals.pop() } else { None };
        let sets = totals.split_off(self.recorded);
        totals.resize(self.outcomes, 0);
        Ok(Counts { shots: self.shots, totals, sets, counted })
    }
}

fn field<'a>(line: &'a str, key: &str) -> Option<&'a str> {
    line.split(' ').find_map(|field| field.strip_prefix(key)?.strip_prefix('='))
}

/// What is said of a text of an earlier version, which names neither its rule nor the number of its lines. It may be cut off, so it is not read; the
/// sentence has the two lines with which it is.
fn earlier(lines: &[&str]) -> CountsError {
    let begin = |key: &str| lines.iter().filter(|line| line.starts_with(key)).count();
    let header = format!("{} recorded={} sets={} counted=0", lines[0], begin("id="), begin("set="));
    let second = lines[1].replacen(" seed=", &format!(" draws={DRAWS} seed="), 1);
    match SavedCounts::parse(&[&[header.as_str(), &second], &lines[2..]].concat()) {
        Ok(read) => {
            let text = read.text();
            let first: Vec<&str> = text.lines().take(2).collect();
            CountsError(format!(
                "counts of an earlier version, which name neither their rule of draws nor the number of their lines: they may be cut off. \
                 If they are whole, replace the first two lines by\n{}",
                first.join("\n")
            ))
        }
        Err(_) => CountsError(NO_COUNTS.into()),
    }
}

/// A sample by its seeds, which are several where whole samples were added, and those of its parts that are counted.
#[derive(Debug, Clone, PartialEq, Eq, Hash)]
pub(crate) struct Sample {
    /// Rising.
    seeds: Vec<u64>,
    /// The counted parts, from 1: rising stretches with gaps between.
    places: Vec<RangeInclusive<u64>>,
    parts: u64,
    /// The shots of all parts.
    whole: u64,
}

impl Sample {
    /// A part, numbered from 1, and the number of parts.
    pub(crate) fn part(seed: u64, (place, parts): (u64, u64), whole: u64) -> Self {
        Self { seeds: vec![seed], places: vec![place..=place], parts, whole }
    }

    fn is_whole(&self) -> bool {
        self.places == [1..=self.parts]
    }

    fn shares_seed(&self, other: &Self) -> bool {
        self.seeds.iter().any(|seed| other.seeds.contains(seed))
    }

    /// The shots of the counted parts.
    pub(crate) fn shots(&self) -> u64 {
        if self.is_whole() {
            return self.whole;
        }
        let blocks = self.whole.div_ceil(MAX_SHOTS as u64);
        let until =
            |place: u64| part_blocks(blocks, place, self.parts).start.saturating_mul(MAX_SHOTS as u64).min(self.whole);
        self.places.iter().map(|places| until(*places.end()) - until(places.start() - 1)).sum()
    }

    /// Further parts of the same sample.
    fn add(&mut self, other: &Self) -> Result<(), CountsError> {
        let seed = self.seeds.iter().find(|seed| other.seeds.contains(seed)).copied().unwrap_or_default();
        if (&self.seeds, self.parts, self.whole) != (&other.seeds, other.parts, other.whole) {
            return fault(format!("both have seed {seed}, and they are not parts of one sample"));
        }
        self.places.extend(other.places.iter().cloned());
        self.places.sort_by_key(|places| *places.start());
        if let Some(two) = self.places.windows(2).find(|two| two[0].end() >= two[1].start()) {
            return fault(format!("part {}/{} of seed {seed} is counted twice", two[1].start(), self.parts));
        }
        let mut joined: Vec<RangeInclusive<u64>> = Vec::new();
        for places in self.places.drain(..) {
            match joined.last_mut() {
                Some(last) if last.end() + 1 == *places.start() => *last = *last.start()..=*places.end(),
                _ => joined.push(places),
            }
        }
        self.places = joined;
        Ok(())
    }
}

impl Sample {
    /// For a reader: the seeds, and the parts if some are missing.
    pub(crate) fn described(&self) -> String {
        let seeds: Vec<String> = self.seeds.iter().map(u64::to_string).collect();
        let part = if self.is_whole() {
            String::new()
        } else {
            format!(" (part {}/{} of {} shots)", self.stretches(), self.parts, self.whole)
        };
        format!("seed {}{part}", seeds.join(", "))
    }

    /// The counted parts, as a text has them.
    fn stretches(&self) -> String {
        let stretch = |places: &RangeInclusive<u64>| match (places.start(), places.end()) {
            (start, end) if start == end => start.to_string(),
            (start, end) => format!("{start}-{end}"),
        };
        self.places.iter().map(stretch).collect::<Vec<String>>().join(",")
    }
}

impl fmt::Display for Sample {
    fn fmt(&self, f: &mut fmt::Formatter<'_>) -> fmt::Result {
        let seeds: Vec<String> = self.seeds.iter().map(u64::to_string).collect();
        write!(f, "seed={} part={}/{} of={}", seeds.join(","), self.stretches(), self.parts, self.whole)
    }
}

/// Samples in the order of a text, whole ones as one; `None` if these have 2^64 shots or more.
fn ordered(samples: Vec<Sample>) -> Option<Vec<Sample>> {
    let (whole, mut rest): (Vec<Sample>, Vec<Sample>) = samples.into_iter().partition(Sample::is_whole);
    rest.sort_by(|one, other| one.seeds.cmp(&other.seeds));
    if whole.is_empty() {
        return Some(rest);
    }
    let mut seeds: Vec<u64> = whole.iter().flat_map(|sample| sample.seeds.iter().copied()).collect();
    seeds.sort_unstable();
    let shots = whole.iter().try_fold(0_u64, |sum, sample| sum.checked_add(sample.whole))?;
    let one = Sample { seeds, places: vec![1..=1], parts: 1, whole: shots };
    Some([vec![one], rest].concat())
}

/// The samples of the second line of a text; `None` if it has another form.
fn samples(line: &str) -> Option<Vec<Sample>> {
    let fields: Vec<(&str, &str)> = line.split(' ').filter_map(|field| field.split_once('=')).collect();
    let start = fields.iter().position(|(key, _)| *key == "seed")?;
    let end = fields.iter().rposition(|(key, _)| *key == "of")?;
    let samples = fields.get(start..=end)?.chunks(3).map(sample).collect::<Option<Vec<Sample>>>()?;
    let mut seeds: Vec<u64> = samples.iter().flat_map(|sample| sample.seeds.iter().copied()).collect();
    seeds.sort_unstable();
    let twice = seeds.windows(2).any(|two| two[0] == two[1]);
    if twice { None } else { ordered(samples) }
}

fn sample(fields: &[(&str, &str)]) -> Option<Sample> {
    let [("seed", seeds), ("part", part), ("of", whole)] = fields else {
        return None;
    };
    let (places, parts) = part.split_once('/')?;
    let stretch = |text: &str| {
        let (start, end) = text.split_once('-').unwrap_or((text, text));
        Some(start.parse::<u64>().ok()?..=end.parse::<u64>().ok()?)
    };
    let places = places.split(',').map(stretch).collect::<Option<Vec<_>>>()?;
    let parts: u64 = parts.parse().ok()?;
    let rises = places.windows(2).all(|two| two[0].end() < two[1].start());
    let within =
        places.iter().all(|places| 1 <= *places.start() && places.start() <= places.end() && *places.end() <= parts);
    let seeds = seeds.split(',').map(|seed| seed.parse().ok()).collect::<Option<Vec<u64>>>()?;
    (rises && within).then_some(Sample { seeds, places, parts, whole: whole.parse().ok()? })
}

/// The CRC-32 of gzip and zlib: by it counts of another job are told.
pub(crate) fn crc32(bytes: impl IntoIterator<Item = u8>) -> u32 {
    let step = |sum: u32, byte: u8| {
        (0..8).fold(sum ^ u32::from(byte), |sum, _| if sum & 1 == 1 { sum >> 1 ^ 0xedb8_8320 } else { sum >> 1 })
    };
    !bytes.into_iter().fold(u32::MAX, step)
}

#[cfg(test)]
mod tests {
    use super::*;
    use crate::Sampler;

    const JOB: &[u8] = include_bytes!("../../../examples/syndrome.job");

    fn saved(seed: u64, part: (u64, u64)) -> SavedCounts {
        let sampler = Sampler::new(JOB, 20_000, seed).expect("it is accepted");
        sampler.sample(&[vec![4, 5, 6], vec![]], part, 2).expect("it runs")
    }

    fn counted(saved: SavedCounts, counted: u64) -> SavedCounts {
        saved.with_counted(counted).expect("there are more shots")
    }

    fn assert_refused<T: fmt::Debug>(answer: Result<T, CountsError>, part: &str) {
        let text = answer.expect_err("it is refused").to_string();
        assert!(text.contains(part), "{text}");
    }

    #[test]
    fn crc32_has_its_check_value() {
        assert_eq!((crc32(*b"123456789"), crc32(*b"")), (0xcbf4_3926, 0));
    }

    /// Wrong sizes are errors, and change nothing.
    #[test]
    fn wrong_sizes_are_refused() {
        let whole = saved(1, (1, 1));
        assert_refused(whole.clone().with_counted(20_001), "20001 shots are counted, and there are 20000");
        let sampler = Sampler::new(JOB, 20_000, 1).expect("it is accepted");
        for (part, text) in [((0, 1), "no part 0 of 1"), ((3, 2), "no part 3 of 2"), ((1, 0), "no part 1 of 0")] {
            assert_refused(sampler.saved(whole.counts.clone(), &whole.sets, part), text);
            let error = sampler.sample(&[], part, 1).unwrap_err();
            assert!(error.to_string().contains(text), "{error}");
        }
        let needed = "but part 1/1 has shots=20000 outcomes=7 sets=2";
        let mut few = whole.counts.clone();
        few.totals.pop();
        let given = "counts of shots=20000 outcomes=6 sets=2";
        assert_refused(sampler.saved(few, &whole.sets, (1, 1)), &format!("{given}, {needed}"));
        assert_refused(sampler.saved(Counts::default(), &whole.sets, (1, 1)), needed);
        assert_refused(sampler.saved(whole.counts.clone(), &whole.sets[..1], (1, 1)), "outcomes=7 sets=1");
        assert_refused(sampler.saved(whole.counts.clone(), &whole.sets, (1, 2)), "but part 1/2 has shots=8192 ");

        let mut counts = Counts::default();
        let refusal = counts.add(&Frames::new(), &[vec![0]]).unwrap_err();
        assert_eq!((refusal.number, counts), (crate::Number::WALK, Counts::default()));
    }

    #[test]
    fn texts_are_read_back() {
        let whole = saved(1, (1, 1));
        for saved in
            [whole.clone(), counted(whole.clone(), 7), whole.clone().with_noiseless_per_shot(), saved(3, (2, 7))]
        {
            assert_eq!(SavedCounts::read(&saved.text()), Ok(saved));
        }
        let block = Sampler::with_named_shots(JOB, 10, 1, NamedShots::InEachBlock).expect("it is accepted");
        let text = block.sample(&[], (1, 1), 1).expect("it runs").text();
        assert!(text.contains(" named=block\n") && SavedCounts::read(&text).is_ok());
    }

    #[test]
    fn texts_that_are_cut_off_or_changed_are_refused() {
        let text = counted(saved(1, (1, 1)), 7).text();
        let lines: Vec<&str> = text.split_inclusive('\n').collect();
        for count in 2..lines.len() {
            let there = format!("its first line says 10 lines of counts, and there are {}", count - 2);
            assert_refused(SavedCounts::read(&lines[..count].concat()), &there);
        }
        assert_refused(SavedCounts::read(&text[..text.len() - 1]), "cut off");
        assert_refused(SavedCounts::read(&text[..text.len() - 9]), "cut off");
        assert_refused(
            SavedCounts::read(&format!("{text}id=7 total=0\n")),
            "its first line says 10 lines of counts, and there are 11",
        );
        for nothing in ["", "ok=1\n", "op=job qubits=1 outcomes=0 shots=1\n", lines[0], "\0\0\0"] {
            assert_refused(SavedCounts::read(nothing), "no counts as");
        }
        for (from, to, part) in [
            ("seed=1 ", "seed=1,2 ", ""),
            ("id=1 total=", "id=1 total=9", "line 4 is not"),
            ("set=4,5,6", "set=4,5", ""),
            ("shots=20000", "shots=20001", "do not match its parts"),
            ("part=1/1", "part=2/1", "line 2 is not"),
            ("part=1/1", "part=1/0", "line 2 is not"),
            ("qubits=5", "qubits=05", "line 1 is not"),
            ("outcomes=7", "outcomes=1025", "line 1 is not"),
            ("counted=1", "counted=2", "line 1 is not"),
            ("recorded=7", "recorded=18446744073709551615", "line 1 is not"),
            ("set=4,5,6", "set=4,,6", "line 10 is not"),
        ] {
            let changed = text.replacen(from, to, 1);
            assert_ne!(changed, text);
            if let Ok(read) = SavedCounts::read(&changed) {
                assert_eq!((read.text(), part), (changed, ""), "another true text");
            } else {
                assert_refused(SavedCounts::read(&changed), part);
            }
        }
    }

    /// A text of an earlier version may be cut off: it is refused with the lines with which it is read.
    #[test]
    fn texts_of_earlier_versions() {
        let text = saved(1, (1, 1)).text();
        let old = text.replace(" recorded=7 sets=2 counted=0", "").replace(" draws=xorshift", "");
        let answer = SavedCounts::read(&old).expect_err("it names no rule").to_string();
        let (sentence, lines) = answer.split_once('\n').expect("a sentence and two lines");
        assert!(sentence.contains("name neither their rule of draws"));
        let rest: String = old.split_inclusive('\n').skip(2).collect();
        assert_eq!(format!("{lines}\n{rest}"), text);
    }

    #[test]
    fn parts_add_up_to_the_whole_in_any_order() {
        for parts in [1, 2, 3, 9] {
            let all: Vec<SavedCounts> = (1..=parts).map(|place| saved(5, (place, parts))).collect();
            let mut places: Vec<usize> = (0..all.len()).rev().step_by(2).collect();
            places.extend((0..all.len()).filter(|place| !places.contains(place)).collect::<Vec<usize>>());
            let mut sum = all[places[0]].clone();
            for place in &places[1..] {
                assert_refused(sum.check_complete(), "these are missing: ");
                sum = sum.checked_add(&all[*place]).expect("another part");
                assert_eq!(SavedCounts::read(&sum.text()), Ok(sum.clone()), "a sum of some parts is saved, too");
            }
            assert_eq!((sum.check_complete(), &sum), (Ok(()), &saved(5, (1, 1))));
        }
        let some = saved(5, (1, 9)).checked_add(&saved(5, (2, 9))).expect("another part");
        let some = some.checked_add(&saved(5, (5, 9))).expect("another part");
        assert!(some.text().contains(" seed=5 part=1-2,5/9 of=20000\n"), "{}", some.text());
        assert_refused(some.check_complete(), "of the 9 parts of seed 5 these are missing: 3, 4, 6, 7, 8, 9");
        let last =
            saved(5, (u64::MAX - 1, u64::MAX)).checked_add(&saved(5, (u64::MAX, u64::MAX))).expect("another part");
        assert_refused(last.check_complete(), "these are missing: 1, 2, 3, 4, 5, 6, 7, 8, 9, 10, ..");
        assert_eq!(SavedCounts::read(&last.text()), Ok(last));
        assert_refused(some.checked_add(&saved(5, (2, 9))), "part 2/9 of seed 5 is counted twice");
        assert_refused(some.checked_add(&saved(5, (3, 8))), "not parts of one sample");
        assert_refused(some.checked_add(&saved(5, (1, 1))), "not parts of one sample");
    }

    #[test]
    fn samples_of_other_seeds_are_added() {
        let (one, two, part) = (saved(1, (1, 1)), saved(2, (1, 1)), saved(3, (1, 2)));
        let both = two.checked_add(&one).expect("another seed");
        assert_eq!(Ok(&both), one.checked_add(&two).as_ref());
        assert!(both.text().contains(" seed=1,2 part=1/1 of=40000\n"), "{}", both.text());
        let sum = part.checked_add(&both).and_then(|sum| sum.checked_add(&saved(3, (2, 2)))).expect("another seed");
        assert!(sum.text().contains(" seed=1,2,3 part=1/1 of=60000\n"), "{}", sum.text());
        let some = both.checked_add(&part).expect("another seed");
        assert!(some.text().contains(" seed=1,2 part=1/1 of=40000 seed=3 part=1/2 of=20000\n"), "{}", some.text());
        assert_eq!(SavedCounts::read(&some.text()), Ok(some));
        assert_refused(both.checked_add(&one), "both have seed 1");
    }

    #[test]
    fn what_does_not_belong_together_is_not_added() {
        let one = saved(1, (1, 1));
        let other = saved(2, (1, 1));
        let with = |from: &str, to: &str| SavedCounts::read(&other.text().replacen(from, to, 1)).expect("a text");
        assert_refused(
            one.checked_add(&with("draws=xorshift", "draws=skips")),
            "sampled by the rule of draws 'skips', others by 'xorshift'",
        );
        assert_refused(one.checked_add(&with("job=1", "job=2")), "another job");
        assert_refused(one.checked_add(&with("\nid=0", " named=block\nid=0")), "other options");
        assert_refused(one.checked_add(&with("\nid=0", " noiseless=shots\nid=0")), "other options");
        assert_refused(one.checked_add(&with("set=4,5,6", "set=4,5")), "other sets");
        assert_refused(one.checked_add(&counted(other.clone(), 3)), "only one of the two");
        let sum = counted(one.clone(), 4).checked_add(&counted(other, 3)).expect("both are counted");
        assert_eq!(sum.counts().counted, Some(7));
    }

    /// Values of a table: Wilson's interval of 0, 10, 50 and 100 of 100.
    #[test]
    fn intervals_are_those_of_the_table() {
        let rounded = |total| wilson(total, 100).map(|end| format!("{end:.4}"));
        assert_eq!(rounded(0), ["0.0000", "0.0370"]);
        assert_eq!(rounded(10), ["0.0552", "0.1744"]);
        assert_eq!(rounded(50), ["0.4038", "0.5962"]);
        assert_eq!(rounded(100), ["0.9630", "1.0000"]);
        assert_eq!(wilson(0, 0).map(|end| end.to_string()), ["0", "1"]);
    }

    #[test]
    fn a_rate_lies_in_its_interval() {
        for shots in [1, 2, 63, 64, 65, 4096] {
            for total in [0, 1, shots / 3, shots - 1, shots] {
                let [low, high] = wilson(total, shots);
                let rate = rate(total, shots);
                assert!((0.0..=rate + 1e-12).contains(&low) && (rate - 1e-12..=1.0).contains(&high));
            }
        }
    }
}
