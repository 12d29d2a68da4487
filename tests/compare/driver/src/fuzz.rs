//! Fuzzing: changed copies of inputs, of which those are kept and changed again that reach something new. Every input goes through every call, beside the
//! reference.

mod breakpoints;
mod counters;
mod crash;
mod guarded;
mod program;
mod signals;

use crate::differences::{Refusals, number, report};
use breakpoints::Blocks;
use checker::calls::Calls;
use checker::job::MAX_BYTES;
use checker::read::read;
use counters::Counters;
use generator::inputs::input;
use generator::mutate::{fitted, mutated, mutated_numbers};
use generator::random::Random;
use guarded::Guarded;
use reference::Reference;
use reference::stored::{cases, held};
use reference::vectors::{CALLS, Call, Input, Output, input_bytes};
use std::collections::HashSet;
use std::hash::{DefaultHasher, Hash, Hasher};
use std::panic::{AssertUnwindSafe, catch_unwind};
use std::path::Path;
use std::time::{Duration, Instant};

/// How many inputs of each call the generator makes to begin with.
const GENERATED: u64 = 60;
/// The longest job and list to begin with.
const LONGEST: usize = 40_000;
/// How long an input may take to be kept.
const SLOW: Duration = Duration::from_millis(150);
/// Of the printing program, which is a process each time, one input in so many.
const PRINTED: u64 = 100;
/// The bytes that are lent to find out how long a text is.
const TRIED: usize = 16_384;
/// How often it is said how far it is.
const SAID: Duration = Duration::from_secs(60);

/// Fuzz for some seconds and print what was found. The folder, where there is one, keeps the inputs that reach something new.
pub fn passes(under_test: &dyn Calls, seconds: u64, seed: u64, folder: Option<&Path>) -> bool {
    let mut fuzz = Fuzz::new(under_test, seed, folder);
    let end = fuzz.start + Duration::from_secs(seconds);
    fuzz.begin();
    println!("begun with {} inputs of {} in {:.1} s", fuzz.kept.len(), fuzz.inputs, fuzz.start.elapsed().as_secs_f64());
    let mut said = Instant::now();
    while Instant::now() < end {
        let next = fuzz.next();
        fuzz.attempt(next);
        if said.elapsed() > SAID {
            said = Instant::now();
            fuzz.say_progress();
        }
    }
    fuzz.say();
    fuzz.differences == 0
}

/// An input that reached something new, with its time.
struct Kept {
    input: Input,
    on_job: bool,
    time: Duration,
}

struct Fuzz<'a> {
    calls: Guarded<'a>,
    random: Random,
    seed: u64,
    folder: Option<&'a Path>,
    start: Instant,
    counters: Counters,
    blocks: Blocks,
    replies: HashSet<u64>,
    kept: Vec<Kept>,
    inputs: u64,
    made: u64,
    refusals: Refusals,
    differences: u64,
    differing: HashSet<&'static str>,
}

impl<'a> Fuzz<'a> {
    fn new(under_test: &'a dyn Calls, seed: u64, folder: Option<&'a Path>) -> Self {
        crash::watch();
        Self {
            calls: Guarded::new(under_test),
            random: Random::new(seed),
            seed,
            folder,
            start: Instant::now(),
            counters: Counters::own(),
            blocks: Blocks::watched(),
            replies: HashSet::new(),
            kept: Vec::new(),
            inputs: 0,
            made: 0,
            refusals: Refusals::default(),
            differences: 0,
            differing: HashSet::new(),
        }
    }

    /// Begin with the folder's inputs, the stored cases, those of each sentence of the tests, and the generator's.
    fn begin(&mut self) {
        let files = self.folder.and_then(|folder| std::fs::read_dir(folder).ok());
        let mut files: Vec<_> = files.into_iter().flatten().filter_map(|file| Some(file.ok()?.path())).collect();
        files.sort();
        let stored = files.iter().filter_map(|file| std::fs::read(file).ok());
        let stored: Vec<Input> = stored.flat_map(|bytes| cases(Call::Check, &bytes)).map(|case| case.input).collect();
        for input in stored {
            self.attempt(input);
        }
        let jobs = checker::cases::cases().into_iter().map(|case| case.job);
        for job in jobs.chain([many_correlations(false), many_correlations(true), long_settled()]) {
            self.begin_with(Input { job, ..Input::default() });
        }
        for call in CALLS {
            for case in held(call) {
                self.begin_with(case.input);
            }
            for seed in 0..GENERATED {
                self.begin_with(input(&mut Random::new(self.seed.wrapping_add(seed)), call));
            }
        }
    }

    /// Try an input that lends for one call alone, unless it is long.
    fn begin_with(&mut self, mut input: Input) {
        let lists = [&input.main, &input.second, &input.rows, &input.deltas, &input.frames_x];
        if input.job.len() <= LONGEST && lists.iter().all(|list| list.len() <= LONGEST) {
            input.out_len = self.random.index(8);
            fitted(&mut self.random, &mut input);
            self.attempt(input);
        }
    }

    /// A changed copy of a kept input: of some, one that is quick, often a recent one.
    fn next(&mut self) -> Input {
        let first = if self.random.one_in(3) { self.kept.len().saturating_sub(100) } else { 0 };
        let mut one = first + self.random.index(self.kept.len() - first);
        for _ in 0..2 {
            let other = self.random.index(self.kept.len());
            if self.random.one_in(3) && self.kept[other].time < self.kept[one].time {
                one = other;
            }
        }
        let other = self.random.index(self.kept.len());
        let (one, other) = (&self.kept[one], &self.kept[other]);
        if one.on_job {
            mutated(&mut self.random, &one.input, &other.input)
        } else {
            mutated_numbers(&mut self.random, &one.input, &other.input)
        }
    }

    /// Make every call of an input, and keep it if it reaches something new.
    fn attempt(&mut self, input: Input) {
        let start = Instant::now();
        self.inputs += 1;
        self.counters.clear();
        let blocks = self.blocks.hit();
        let on_job = !input.job.is_empty();
        let mut is_new = false;
        for call in CALLS {
            let asked = call.is_on_job() == on_job || self.inputs.is_multiple_of(16);
            if asked && (call != Call::Print || self.inputs.is_multiple_of(PRINTED)) {
                is_new |= self.compare(call, &input);
            }
        }
        self.compare_lines(&input);
        is_new |= self.counters.new_ones() > 0;
        is_new |= self.blocks.hit() != blocks;
        let time = start.elapsed();
        if is_new && time < SLOW {
            self.store(&input);
            self.kept.push(Kept { input, on_job, time });
        }
    }

    /// Make a call on both sides; whether its reply is of a new kind.
    fn compare(&mut self, call: Call, input: &Input) -> bool {
        let mut input = input.clone();
        if call.writes_text() && input.out_len < 8 {
            input.out_len = self.near_text(call, &input);
        }
        let expected = catch_unwind(AssertUnwindSafe(|| input.make(call, &Reference)));
        let Ok(Some(expected)) = expected else {
            println!("the reference does not answer {}:", call.name());
            print!("{}", String::from_utf8_lossy(&input_bytes(call, &input)));
            self.differences += 1;
            return false;
        };
        let Some(actual) = self.under_test(call, &input) else {
            return false;
        };
        self.made += 1;
        self.refusals.extend([number(&expected)]);
        if expected != actual {
            self.differ(call, &input);
        }
        self.replies.insert(kind(call, &input, &expected))
    }

    fn under_test(&self, call: Call, input: &Input) -> Option<Output> {
        let _watched = crash::Watched::new(call, input);
        input.make(call, &self.calls)
    }

    /// A length near that of the text that the call writes, where it is not long.
    fn near_text(&self, call: Call, input: &Input) -> usize {
        let tried = Input { out_len: TRIED, ..input.clone() };
        let answer = self.under_test(call, &tried).unwrap_or_default().answer;
        let text = usize::try_from(answer.figure).unwrap_or(TRIED).min(MAX_BYTES);
        if input.out_len == 0 { 0 } else { (text + input.out_len).saturating_sub(4) }
    }

    /// Count a difference; the first of a call is printed and its input stored, since the seed alone need not lead to it again.
    fn differ(&mut self, call: Call, input: &Input) {
        self.differences += 1;
        if self.differing.insert(call.name()) {
            self.store(input);
            println!("after {:.1} s and {} inputs:", self.start.elapsed().as_secs_f64(), self.inputs);
            report(&self.calls, call, self.seed, input);
        }
    }

    /// An examination and the finding of lines, beside the same by hand.
    fn compare_lines(&mut self, input: &Input) {
        let _watched = crash::Watched::new(Call::Check, input);
        let lines: Vec<&[u8]> = input.job.split_inclusive(|&byte| byte == b'\n').collect();
        let expected = read(&input.job).map(|job| {
            let header = job.header;
            [header.qubits, header.outcomes, header.shots, job.recorded, lines.len() as u64]
        });
        let expected = expected.map_err(|refusal| (refusal.number, refusal.line));
        let count = lines.len() as u64;
        let near = self.random.below(count + 2);
        let line_is_so = |number: u64| {
            let line = usize::try_from(number).ok().and_then(|number| lines.get(number.checked_sub(1)?));
            let start = line.map_or(input.job.len(), |line| line.as_ptr() as usize - input.job.as_ptr() as usize);
            let length = line.map_or(0, |line| line.strip_suffix(b"\n").unwrap_or(line).len());
            self.calls.with_job(&input.job, |job| crate::raw::line(job, number)) == (start, length)
        };
        let lines_are_so = [0, 1, near, count, count + 1, u64::MAX].into_iter().all(line_is_so);
        if self.calls.with_job(&input.job, crate::linked::examined) != expected || !lines_are_so {
            self.differences += 1;
            if self.differing.insert("examine") {
                println!("an examination or a line differs, lines {}, expected {expected:?}, of", !lines_are_so);
                print!("{}", String::from_utf8_lossy(&input_bytes(Call::Check, input)));
            }
        }
    }

    /// Store an input with all that it lends, as a case.
    fn store(&self, input: &Input) {
        let Some(folder) = self.folder else {
            return;
        };
        const PARTS: [Call; 9] = [
            Call::Check,
            Call::RunShared,
            Call::Settle,
            Call::Walk,
            Call::Annotate,
            Call::FaultTable,
            Call::ByShot,
            Call::Fill,
            Call::Make,
        ];
        let mut bytes = b"case 1\n".to_vec();
        bytes.extend(PARTS.into_iter().flat_map(|call| input_bytes(call, input)));
        bytes.extend(b"end\n");
        let mut hasher = DefaultHasher::new();
        bytes.hash(&mut hasher);
        let written = std::fs::create_dir_all(folder)
            .and_then(|()| std::fs::write(folder.join(format!("{:016x}", hasher.finish())), bytes));
        if let Err(error) = written {
            println!("an input is not stored: {error}");
        }
    }

    fn say_progress(&self) {
        let seconds = self.start.elapsed().as_secs_f64();
        println!("{seconds:.0} s: {} inputs, {} kept, {}", self.inputs, self.kept.len(), self.reached());
    }

    fn reached(&self) -> String {
        let (hit, all) = self.counters.hit();
        let (blocks_hit, blocks) = self.blocks.hit();
        let replies = self.replies.len();
        format!(
            "{blocks_hit} of {blocks} blocks of the library, {hit} of {all} counters of the Rust code, {replies} kinds of replies"
        )
    }

    #[allow(clippy::cast_precision_loss)]
    fn say(&self) {
        let seconds = self.start.elapsed().as_secs_f64();
        let speed = self.inputs as f64 / seconds;
        println!(
            "seed {}, {seconds:.0} s, {} inputs, {speed:.0} a second, {} calls",
            self.seed, self.inputs, self.made
        );
        println!("{} inputs kept, reached: {}", self.kept.len(), self.reached());
        println!("blocks of the library not reached:{}", self.blocks.missed());
        println!("refusals {}", self.refusals);
        println!("fuzz: {} differences", self.differences);
    }
}

/// A job with more correlations than the library's table holds at a time; if they differ, in size too, one of the first and one of the last.
fn many_correlations(differ: bool) -> Vec<u8> {
    let line = |corr: u64, list: &str| format!("op=n p=0000000000000000 corr={corr} cond=- parity=0 d=2 {list}\n");
    let few: String = (0..262).map(|corr| line(corr, "q=0 size=3")).collect();
    let again: String = [258, 1].map(|corr| line(corr, if differ { "q=0,1 size=15" } else { "q=1 size=3" })).concat();
    format!("op=job qubits=2 outcomes=0 shots=1\n{few}{again}").into_bytes()
}

/// A short job whose settled text is longer than a text may be.
fn long_settled() -> Vec<u8> {
    let list = checker::cases::numbers(0..31);
    let line = format!("op=n p=3ff0000000000000 corr=0 cond=- parity=0 d=1 x={list} z={list} size=1\n");
    format!("op=job qubits=32 outcomes=1 shots=4096\n{}", line.repeat(2)).into_bytes()
}

/// What kind of reply it is: the call, the number, the edition, how the refusing line begins, and how long a text is.
fn kind(call: Call, input: &Input, output: &Output) -> u64 {
    const BEGINNINGS: [&[u8]; 17] = [
        b"op=job", b"op=u", b"op=c", b"op=p", b"op=e", b"op=k", b"op=m", b"op=o", b"op=r", b"op=f", b"op=z", b"op=b",
        b"op=i", b"op=t", b"op=n", b"x=", b"w=",
    ];
    let answer = output.answer;
    let line = usize::try_from(answer.line).ok().and_then(|line| line.checked_sub(1));
    let line = line.and_then(|line| input.job.split(|&byte| byte == b'\n').nth(line));
    let beginning = line.map(|line| BEGINNINGS.iter().position(|beginning| line.starts_with(beginning)));
    let of_second = input.job.starts_with(b"op=job edition=2 ");
    let flipped = output.deltas.iter().chain(&output.frames_x).any(|word| *word != 0);
    let mut hasher = DefaultHasher::new();
    (call.name(), number(output), of_second, beginning, answer.figure.checked_ilog2(), flipped).hash(&mut hasher);
    hasher.finish()
}
