//! Any number of shots of a job: how often outcomes and parities are flipped, or the shots themselves in the forms that decoders read.

use crate::arguments::{Arguments, FILE, Flag, NEW_FILE};
use crate::commands::outcomes;
use crate::files::{self, Output, shown};
use crate::ordered_output::OrderedOutput;
use crate::progress::Progress;
use crate::{Failure, print, print_stderr, shots};
use kundatrezo::threads::for_each_block;
use kundatrezo::{
    Counts, Examination, Frames, MAX_OUTCOMES, NamedShots, Refusal, Sampler, SamplerError, Workspace, by_shot,
};
use std::ffi::OsStr;
use std::fs::File;
use std::io::{IsTerminal, stdout};
use std::ops::Range;
use std::os::unix::fs::FileExt;
use std::thread::available_parallelism;

const SHOTS: Flag = Flag { name: "--shots", value: "N", text: "the number of shots, at least 1" };
const SEED: Flag = Flag { name: "--seed", value: "N", text: "the seed of all words, any number, which is mixed" };
const SET: Flag = Flag {
    name: "--set",
    value: "L..",
    text: "outcomes, with commas between, whose parity is counted; may be given again",
};
const SETS: Flag =
    Flag { name: "--sets", value: FILE, text: "read sets from this file, a line each, after those of --set" };
const FORMAT: Flag = Flag {
    name: "--format",
    value: "FORM",
    text: "table, counts, or shots by row: 01 or b8; without it, a table at a terminal, else counts",
};
const OUTPUT: Flag = Flag {
    name: "--output",
    value: NEW_FILE,
    text: "write counts or rows to this file; without it, to standard output",
};
const THREADS: Flag = Flag {
    name: "--threads",
    value: "N",
    text: "so many threads; without it, as many as there are processors, within 4 GiB",
};
const PART: Flag = Flag {
    name: "--part",
    value: "I/K",
    text: "of K parts of the shots the I-th alone, from 1 to K; 'merge' adds counts",
};
const NAMED: Flag = Flag {
    name: "--named",
    value: "WHERE",
    text: "injections and flips stand in the shots they name of the 'whole', or of each 'block'",
};
const NOISELESS: Flag = Flag {
    name: "--noiseless",
    value: FILE,
    text: "rows of the noiseless bits of the job's own shots, which come again; without it, zeros",
};
const NOISELESS_SHOTS: Flag =
    Flag { name: "--noiseless-shots", value: FILE, text: "the noiseless bits of each shot of the whole, packed as b8" };

pub const FLAGS: &[Flag] = &[SHOTS, SEED, SET, SETS, FORMAT, OUTPUT, THREADS, PART, NAMED, NOISELESS, NOISELESS_SHOTS];

/// What the help says.
pub const DETAILS: &[&str] = &[
    "\
Runs a job in any number of shots, whatever its header has, and counts in how many of them each outcome is
flipped, and the parity of each --set. Prints the numbers of the job and of the sample, then a line for each
recorded outcome and each set: 'total=', 'rate=', and 'low=' and 'high=', Wilson's interval at 95 percent.
--shots and --seed are wanted. At a terminal, or with --format table, the same is a table with headings, the
sets first; 'merge' reads counts, which a pipe or a file gets.",
    "\
The shots are run in blocks of 4096, each with words of its own, made from the seed and the block's number. So
the same seed gives the same answer for every number of threads and parts. Give another sample of the same job
another seed: their counts can be merged.",
    "\
With --format 01 a line has a digit for each outcome of the header, outcome 0 first, or for each set where sets
are given; with b8 a shot has ceil(n / 8) bytes, with eight of these to a byte, the lowest first. Shot 0 comes
first. Where rows go to a file, counts are printed; those of parts are put together by 'cat', in their order.",
    "\
Of a job with injections or flips, which stand in named shots, --named says where these are. Noiseless bits,
at which conditions of noise look, are zero, those of a file of the job's own shots again and again (shot s of
the whole has those of s mod the header's shots; a file of another size is refused), or those of a file with bytes
for each shot of the whole. A note says where a condition looks at bits that are not given.",
];

pub fn sample(arguments: &Arguments) -> Result<(), Failure> {
    let options = SampleOptions::read(arguments)?;
    let job = files::job(arguments.operand())?;
    let run = SampleRun::read(arguments, options, &job)?;
    note_conditions(arguments, &job);
    let (mut output, counts) = run.run(arguments.value(OUTPUT.name))?;
    let text = run.text(counts)?;
    match (options.format.has_rows(), arguments.value(OUTPUT.name)) {
        (false, _) => {
            output.write(text.as_bytes())?;
            output.finish()
        }
        // what can't be printed leaves no file, as the status says
        (true, Some(_)) => {
            print(text)?;
            output.finish()
        }
        (true, None) => output.finish(),
    }
}

/// What the options say, whatever the job.
#[derive(Clone, Copy)]
struct SampleOptions {
    shots: u64,
    seed: u64,
    format: Format,
    /// Which part, from 1, of how many.
    part: (u64, u64),
    threads: Option<usize>,
}

impl SampleOptions {
    fn read(arguments: &Arguments) -> Result<Self, Failure> {
        let (Some(shots), Some(seed)) = (arguments.number(SHOTS.name)?, arguments.number(SEED.name)?) else {
            return Err(arguments.missing(&[&SHOTS, &SEED]));
        };
        if shots == 0 {
            return Err(Failure::Other(format!("the value of {} is to be at least 1", SHOTS.name)));
        }
        let threads = arguments.parsed(THREADS.name, "a number from 1 to 4096", |text| {
            text.parse().ok().filter(|threads| (1..=4096).contains(threads))
        })?;
        Ok(Self {
            shots,
            seed,
            format: match arguments.parsed(FORMAT.name, "table, counts, 01 or b8", format)? {
                Some(format) => format,
                None if arguments.value(OUTPUT.name).is_none() && stdout().is_terminal() => Format::Table,
                None => Format::Counts,
            },
            part: arguments.parsed(PART.name, "I/K, with I from 1 to K", part)?.unwrap_or((1, 1)),
            threads,
        })
    }
}

#[derive(Clone, Copy, PartialEq, Eq)]
enum Format {
    Table,
    Counts,
    Digits,
    Packed,
}

impl Format {
    fn has_rows(self) -> bool {
        matches!(self, Self::Digits | Self::Packed)
    }
}

fn format(text: &str) -> Option<Format> {
    [("table", Format::Table), ("counts", Format::Counts), ("01", Format::Digits), ("b8", Format::Packed)]
        .into_iter()
        .find_map(|(name, format)| (name == text).then_some(format))
}

/// A part, from 1, and how many there are.
fn part(text: &str) -> Option<(u64, u64)> {
    let (place, parts) = text.split_once('/')?;
    let (place, parts) = (place.parse().ok()?, parts.parse().ok()?);
    (1..=parts).contains(&place).then_some((place, parts))
}

const SET_IS: &str = "numbers with commas between, or -";

/// The sets of the options.
fn sets(arguments: &Arguments, job: Examination) -> Result<Vec<Vec<u64>>, Failure> {
    let option = arguments.all_parsed(SET.name, SET_IS, |text| Some(text.to_owned()))?;
    // each with where it stands, for what is said of it
    let mut given: Vec<(String, String)> = option.into_iter().map(|text| (String::new(), text)).collect();
    if let Some(path) = arguments.value(SETS.name) {
        let place = |line: usize| format!("{}, line {}: ", shown(path), line + 1);
        given.extend(files::text(path)?.lines().enumerate().map(|(line, text)| (place(line), text.to_owned())));
    }
    let set = |(place, text): &(String, String)| {
        let fault = || format!("{place}a set is to be {SET_IS}, not '{}'", text.escape_default());
        let set = outcomes(text).ok_or_else(|| Failure::Other(fault()))?;
        job.check_set(&set)
            .map_err(|_| Failure::refused_list(&job.outcomes_hint(&format!("{place}the set {text}"))))?;
        Ok(set)
    };
    given.iter().map(set).collect()
}

fn sampler(arguments: &Arguments, options: SampleOptions, job: &[u8]) -> Result<Sampler, Failure> {
    let sampler = match arguments.parsed(NAMED.name, "'whole' or 'block'", NamedShots::from_name)? {
        Some(named) => Sampler::with_named_shots(job, options.shots, options.seed, named).map_err(SamplerError::from),
        None => Sampler::new(job, options.shots, options.seed),
    };
    sampler.map_err(|error| match error {
        SamplerError::Refused(refusal) => Failure::refused(&refusal, job, None),
        SamplerError::NamedShot { line } => {
            let [whole, block] = ["whole", "block"].map(|value| format!("{} {value}", NAMED.name));
            Failure::Other(kundatrezo::named_shot_message(line, &whole, &block))
        }
        other => Failure::Other(other.to_string()),
    })
}

/// A file with noiseless bits for each shot of the whole, and its name.
type GivenShots = (File, String);

/// The sampler with the noiseless bits of the job's own shots, if these are given, or the file of those for each shot.
fn noiseless(
    arguments: &Arguments,
    sampler: Sampler,
    job: Examination,
) -> Result<(Sampler, Option<GivenShots>), Failure> {
    match (arguments.value(NOISELESS.name), arguments.value(NOISELESS_SHOTS.name)) {
        (None, None) => Ok((sampler, None)),
        (Some(path), None) => {
            if path == "-" && arguments.operand() == "-" {
                return Err(Failure::Other("standard input can be read for one thing only".into()));
            }
            // one word more than there may be, by which a longer file is told
            let rows = files::words(path, &mut files::open(path)?, job.outcome_words() + 1)?;
            let more = if rows.len() > job.outcome_words() { " or more" } else { "" };
            let sampler = sampler.with_noiseless(&rows).map_err(|error| {
                let (words, needed) = (error.words, error.needed);
                let header = format!("outcomes={} and shots={}", error.outcomes, error.shots);
                Failure::Other(format!("{}: {words} words{more}, but {header} need exactly {needed}", shown(path)))
            })?;
            Ok((sampler, None))
        }
        (None, Some(path)) => {
            let file = files::open_file(path)?;
            let bytes = file.metadata().map_err(|error| files::fault(path, &error))?.len();
            let row = job.outcomes.div_ceil(8) as u64;
            let needed = sampler.shots().saturating_mul(row);
            if bytes < needed || bytes.checked_rem(row).is_some_and(|rest| rest > 0) {
                let text = format!("{}: {bytes} bytes, and {needed} are needed, {row} for each shot", shown(path));
                return Err(Failure::Other(text));
            }
            Ok((sampler, Some((file, shown(path)))))
        }
        _ => Err(Failure::Other(format!("of {}, {} one at most can be given", NOISELESS.name, NOISELESS_SHOTS.name))),
    }
}

/// Say that noise with a condition looks at noiseless bits that are not given, or at those of a random outcome.
fn note_conditions(arguments: &Arguments, job: &[u8]) {
    if arguments.value(NOISELESS_SHOTS.name).is_none() {
        let is_given = arguments.value(NOISELESS.name).is_some();
        let notes = kundatrezo::condition_notes(job, is_given, NOISELESS.name, NOISELESS_SHOTS.name);
        notes.iter().for_each(|note| print_stderr(&format!("note: {note}")));
    }
}

/// A job to sample, and how.
struct SampleRun<'a> {
    options: SampleOptions,
    job: &'a [u8],
    sampler: Sampler,
    sets: Vec<Vec<u64>>,
    /// Where the noiseless bits come from, if they are given for each shot.
    given: Option<GivenShots>,
}

/// Most words of all threads if no option gives their number: 4 GiB.
const MOST_WORDS: usize = 1 << 29;

/// The memory of a thread, and what it has counted.
#[derive(Default)]
struct Memory {
    workspace: Workspace,
    counts: Counts,
    parities: Vec<u64>,
    rows: Vec<u64>,
    bytes: Vec<u8>,
}

impl SampleRun<'_> {
    fn read<'a>(arguments: &Arguments, options: SampleOptions, job: &'a [u8]) -> Result<SampleRun<'a>, Failure> {
        let refused = |refusal: Refusal| Failure::refused(&refusal, job, None);
        let examined = kundatrezo::examine(job).map_err(refused)?;
        let sets = sets(arguments, examined)?;
        if options.format.has_rows() && sets.len() > MAX_OUTCOMES {
            return Err(Failure::Other(format!("a row has at most {MAX_OUTCOMES} sets")));
        }
        let (sampler, given) = noiseless(arguments, sampler(arguments, options, job)?, examined)?;
        Ok(SampleRun { options, job, sampler, sets, given })
    }

    /// The counts as a table, or as the text that 'merge' reads. If rows go to a file, the counts are printed as if there were no rows.
    fn text(&self, counts: Counts) -> Result<String, Failure> {
        let saved = self.sampler.saved(counts, &self.sets, self.options.part);
        let saved = saved.map_err(|error| Failure::Other(error.to_string()))?;
        let saved = if self.given.is_some() { saved.with_noiseless_per_shot() } else { saved };
        let is_table = match self.options.format {
            Format::Table => true,
            Format::Counts => false,
            Format::Digits | Format::Packed => stdout().is_terminal(),
        };
        Ok(if is_table { saved.table() } else { saved.text() })
    }

    /// Run the blocks of the part. Rows go to a file or to standard output, in order.
    fn run(&self, path: Option<&OsStr>) -> Result<(Output, Counts), Failure> {
        let SampleOptions { format, part: (place, parts), .. } = self.options;
        let blocks = self.sampler.part(place - 1, parts);
        let shots: u64 = match (blocks.start, blocks.end) {
            (start, end) if start < end => self.sampler.shots_of(end - 1).end - self.sampler.shots_of(start).start,
            _ => 0,
        };
        let output = OrderedOutput::new(blocks.start, Output::create(path)?);
        let progress = Progress::new(shots, format.has_rows() && path.is_none());
        let made = for_each_block(blocks, self.threads(), Memory::default, |memory, block| {
            let done = self.block(memory, block, &output);
            match &done {
                Ok(()) => progress.add(memory.workspace.frames().job().shots as u64),
                Err(_) => output.stop(),
            }
            done
        });
        progress.end();
        let written = self.sampler.shots_of(output.next()).start;
        let made = made.map_err(|failure| match failure {
            Failure::Unread => {
                Failure::Other(format!("standard output was closed before shot {written}: the rest is not written"))
            }
            other => other,
        })?;
        let mut counts = self.sampler.zero_counts(&self.sets);
        made.iter().for_each(|memory| counts += &memory.counts);
        Ok((output.into_output(), counts))
    }

    /// The number of threads of the option, or else that of processors, but no more than have room for their words.
    fn threads(&self) -> usize {
        let processors = || available_parallelism().map_or(1, usize::from);
        self.options.threads.unwrap_or_else(|| processors().min(MOST_WORDS / self.sampler.list_words().max(1)).max(1))
    }

    fn block(&self, memory: &mut Memory, block: u64, output: &OrderedOutput) -> Result<(), Failure> {
        let Memory { workspace, counts, parities, rows, bytes } = memory;
        let frames = match &self.given {
            None => self.sampler.run(block, workspace).map_err(|refusal| self.refused(&refusal))?,
            Some(given) => self.run_given(given, block, bytes, workspace)?,
        };
        counts.add(frames, &self.sets).map_err(|refusal| self.refused(&refusal))?;
        if !self.options.format.has_rows() {
            return Ok(());
        }
        let (count, deltas) = match self.sets.as_slice() {
            [] => (frames.job().outcomes, frames.deltas()),
            sets => {
                frames.parities(sets, parities).map_err(|refusal| self.refused(&refusal))?;
                (sets.len(), parities.as_slice())
            }
        };
        let shots = frames.job().shots;
        rows.resize(shots * count.div_ceil(64), 0);
        by_shot(count as u64, shots as u64, deltas, rows).map_err(|refusal| self.refused(&refusal))?;
        bytes.clear();
        match self.options.format {
            Format::Digits => shots::write_digits(rows, shots, count, bytes),
            _ => shots::write_packed(rows, shots, count, bytes),
        }
        output.write(block, bytes)
    }

    /// Run a block with the noiseless bits that a file has for each of its shots.
    fn run_given<'a>(
        &self,
        (file, name): &GivenShots,
        block: u64,
        bytes: &mut Vec<u8>,
        workspace: &'a mut Workspace,
    ) -> Result<&'a Frames, Failure> {
        let Range { start, end } = self.sampler.shots_of(block);
        let row = self.sampler.job().outcomes.div_ceil(8);
        bytes.resize(row * usize::try_from(end - start).unwrap_or_default(), 0);
        file.read_exact_at(bytes, start * row as u64).map_err(|error| Failure::Other(format!("{name}: {error}")))?;
        self.sampler.run_packed(block, bytes, workspace).map_err(|refusal| self.refused(&refusal))
    }

    /// The refusal of a block, whose lines are those of the job.
    fn refused(&self, refusal: &Refusal) -> Failure {
        Failure::refused(refusal, self.job, self.sampler.hint(refusal))
    }
}
