//! The C interface of the crate `kundatrezo`, by which the Python package calls it, and the engine only through it.
//!
//! A call takes numbers, and lists as a pointer and a length by value; it returns a [`Reply`], which `kundatrezo_edge_free` frees. A list of lists
//! is one list of words: the length of the first, its members, the length of the next, and so on. The floating-point state of the calling thread
//! plays no part: the crate makes each call of the engine in the default state.
//!
//! # Safety
//!
//! Of every call: a list has as many initialised elements as its length says, is aligned, and is not null unless it is empty or may be absent; what a
//! call writes overlaps no other list, and no other thread uses it meanwhile; a handle is that of an open sampling, which no other thread uses
//! meanwhile.

// Pointers and lengths come from C.
#![allow(unsafe_code)]

mod lists;
mod sampling;

pub use lists::{Bytes, FAULT, GivenBytes, GivenWords, PANIC, Reply, Words, WordsMut};
pub use sampling::Handle;

use kundatrezo::{
    Circuit, Counts, Form, Gate, GrowingDraws, Header, Instruction, JobParameters, Number, Rows, SavedCounts,
    WordSource, Xorshift, annotated, condition_notes, correlation, error_model, examine, locations, make_job, run,
    settled, single_faults, walk, wilson,
};
use lists::{Argument, Failure, Given, OnJob};
use sampling::{Plan, Sampling};

/// Declares calls: each parameter is bound as the call uses it, and no panic leaves the body.
macro_rules! calls {
    ($($(#[$doc:meta])* fn $name:ident($($parameter:ident: $kind:ty),* $(,)?) $body:block)*) => {$(
        $(#[$doc])*
        ///
        /// # Safety
        ///
        /// That of [every call](self#safety).
        #[allow(clippy::too_many_arguments)]
        #[unsafe(no_mangle)]
        pub unsafe extern "C" fn $name($($parameter: $kind),*) -> Reply {
            // SAFETY: the caller's promise
            $(let $parameter = unsafe { $parameter.value() };)*
            Reply::of(move || $body)
        }
    )*

    /// The calls with their parameters, a line each, for callers that make their table of calls from it.
    const DECLARATIONS: &str = concat!($(stringify!($name), "(", $(stringify!($parameter), ": ", stringify!($kind), ", ",)* ")\n"),*);
    };
}

calls! {
    /// Check a job. A text that may be a path, which isn't known to be the content of a file, has a hint of its own if it is one. Words: qubits,
    /// outcomes, shots, recorded, lines.
    fn kundatrezo_edge_examine(job: Bytes, may_be_path: u64) {
        let is_path = may_be_path == 1 && !job.is_empty() && !job.contains(&b'\n') && !job.starts_with(b"op=");
        let hint = is_path.then(|| "Job(text) takes the text of a job: Job.read(path) reads a file".to_owned());
        let found = examine(job).map_err(|refusal| Failure::refused(&refusal, job, hint))?;
        Ok(Given::words([found.qubits, found.outcomes, found.shots, found.recorded, found.lines].map(|number| number as u64)))
    }

    /// Read a job into instructions. Text: their lines, without a line end after the last. Words: the edition, 0 if the header has none, qubits,
    /// outcomes, shots, recorded.
    fn kundatrezo_edge_circuit(job: Bytes) {
        let circuit = Circuit::read(job).on(job)?;
        let Header { edition, qubits, outcomes, shots } = circuit.header;
        let numbers = [qubits, outcomes, shots, circuit.recorded()].map(|number| number as u64);
        let lines: Vec<String> = circuit.instructions.iter().map(Instruction::to_string).collect();
        let words = [edition.unwrap_or(0)].into_iter().chain(numbers).collect();
        Ok(Given { words, ..Given::text(lines.join("\n")) })
    }

    /// The table of gates: a line each, with the code, the first edition that has the gate, its name and its aliases.
    fn kundatrezo_edge_gates() {
        let line = |gate: &Gate| {
            let names: Vec<&str> = gate.names().collect();
            format!("{} {} {}\n", gate.code(), gate.edition(), names.join(" "))
        };
        Ok(Given::text(Gate::ALL.iter().map(line).collect::<String>()))
    }

    /// The table of forms: a line each, with the name and the template.
    fn kundatrezo_edge_forms() {
        let line = |form: &Form| format!("{form:?} {}\n", form.template());
        Ok(Given::text(Form::ALL.iter().map(line).collect::<String>()))
    }

    /// Run a job. A list that isn't given is made from its seed.
    fn kundatrezo_edge_run(
        job: Bytes, x: WordsMut, z: WordsMut, deltas: WordsMut, totals: WordsMut, noiseless: Words,
        main: GivenWords, seed: u64, second: GivenWords, second_seed: u64, base: u64,
    ) {
        drawn(job, [(main, seed), (second, second_seed)], base, |draws| {
            run(job, Rows::new(x, z, deltas).with_totals(totals), noiseless, draws)
        })?;
        Ok(Given::default())
    }

    /// Settle a job. Text: the settled job.
    fn kundatrezo_edge_settle(
        job: Bytes, noiseless: Words, main: GivenWords, seed: u64, second: GivenWords, second_seed: u64, base: u64,
    ) {
        drawn(job, [(main, seed), (second, second_seed)], base, |draws| settled(job, noiseless, draws)).map(Given::text)
    }

    /// Walk a job without noise. Count: the faults of the shot that flip the parity of the set, which is one that `kundatrezo_edge_outcomes` gave.
    fn kundatrezo_edge_walk(job: Bytes, shot: u64, set: Words) {
        let count = walk(job, shot, set).map_err(|refusal| match refusal.number {
            Number::WALK => Failure::walk(&refusal, 0, &examine(job).unwrap_or_default().shot_hint()),
            _ => Failure::refused(&refusal, job, None),
        })?;
        Ok(Given::count(count))
    }

    /// Put noise into a job, by the bits of p. Text: the annotated job.
    fn kundatrezo_edge_annotate(job: Bytes, p_bits: u64) {
        annotated(job, f64::from_bits(p_bits)).on(job).map(Given::text)
    }

    /// Count the fault locations of a job.
    fn kundatrezo_edge_locations(job: Bytes) {
        locations(job).on(job).map(Given::count)
    }

    /// Check that noise lines of one correlation have one size.
    fn kundatrezo_edge_correlation(job: Bytes) {
        correlation(job).on(job).map(|()| Given::default())
    }

    /// Rows by outcome as rows by shot.
    fn kundatrezo_edge_by_shot(outcomes: u64, shots: u64, deltas: Words, out: WordsMut) {
        kundatrezo::by_shot(outcomes, shots, deltas, out).on(b"").map(|()| Given::default())
    }

    /// Rows by shot as rows by outcome.
    fn kundatrezo_edge_by_outcome(outcomes: u64, shots: u64, rows: Words, out: WordsMut) {
        kundatrezo::by_outcome(outcomes, shots, rows, out).on(b"").map(|()| Given::default())
    }

    /// Fill a list from a seed, which is the state.
    fn kundatrezo_edge_fill(seed: u64, words: WordsMut) {
        kundatrezo::fill(seed, words).on(b"").map(|()| Given::default())
    }

    /// The state that a seed is mixed to.
    fn kundatrezo_edge_state_of_seed(seed: u64) {
        Ok(Given::count(Xorshift::new(seed).state()))
    }

    /// The state of a block of a sample, for its main list (0) or its second (1).
    fn kundatrezo_edge_state_of_block(seed: u64, block: u64, list: u64) {
        Ok(Given::count(Xorshift::of_block(seed, block, list).state()))
    }

    /// Make a job from a seed. Text: the job.
    fn kundatrezo_edge_make(qubits: u64, outcomes: u64, shots: u64, lines: u64, seed: u64) {
        make_job(JobParameters { qubits, outcomes, shots, lines, seed }).on(b"").map(Given::text)
    }

    /// Lists of outcomes that a job records, each in rising order; `what` names one of them for the hint. Words: the lists.
    fn kundatrezo_edge_outcomes(job: Bytes, what: Bytes, lists: Words) {
        let (job, what) = (examine(job).on(job)?, String::from_utf8_lossy(what));
        let mut given = Given::default();
        for mut list in list_of_lists(lists)? {
            list.sort_unstable();
            let members: Vec<String> = list.iter().map(u64::to_string).collect();
            let hint = || job.outcomes_hint(&format!("the {what} {}", members.join(",")));
            job.check_set(&list).map_err(|refusal| Failure::walk(&refusal, 1, &hint()))?;
            given.words.push(list.len() as u64);
            given.words.extend(list);
        }
        Ok(given)
    }

    /// The table of single faults. Words: for each fault its line, its element, and a bit for each group, the first lowest, in as many words as
    /// needed.
    fn kundatrezo_edge_fault_table(job: Bytes, groups: Words) {
        let groups = list_of_lists(groups)?;
        let faults = single_faults(job, &groups).on(job)?;
        let row = |fault: &kundatrezo::Fault| [vec![fault.line as u64, fault.element as u64], bits(&fault.flips, groups.len())].concat();
        Ok(Given::words(faults.iter().flat_map(row)))
    }

    /// The detector error model of a job. Text: the model. Words: for each mechanism its line, its element, the bits of its probability, and a bit
    /// for each detector and then each observable.
    fn kundatrezo_edge_error_model(job: Bytes, detectors: Words, observables: Words) {
        let (detectors, observables) = (list_of_lists(detectors)?, list_of_lists(observables)?);
        let model = error_model(job, &detectors, &observables).on(job)?;
        let groups = detectors.len() + observables.len();
        let row = |mechanism: &kundatrezo::Mechanism| {
            let numbers = vec![mechanism.line as u64, mechanism.element as u64, mechanism.p.to_bits()];
            [numbers, bits(&mechanism.flips, groups)].concat()
        };
        Ok(Given { words: model.mechanisms().iter().flat_map(row).collect(), ..Given::text(model.to_string()) })
    }

    /// Open a sampling of a part, from 1, of a sample. `named` is empty, 'whole' or 'block'; `noiseless` has bits of the job's own shots. Count: its
    /// handle, which `kundatrezo_edge_sampling_close` closes. Words: the part's first block, the one after its last, the shots of the whole, the
    /// bits of a row, and the length of the sums.
    fn kundatrezo_edge_sampling_open(
        job: Bytes, shots: u64, seed: u64, named: Bytes, noiseless: GivenWords, sets: Words, place: u64, parts: u64,
    ) {
        let sets = list_of_lists(sets)?;
        let sampling = Sampling::open(Plan { job, shots, seed, named, noiseless, sets, part: (place, parts) })?;
        Ok(Given { words: sampling.numbers().to_vec(), ..Given::count(sampling.into_handle()) })
    }

    /// Run blocks, with noiseless bits for each of their shots if these are given, and add to the sums: the shots, those that a function of the
    /// caller's counts, the totals of outcomes, those of sets. Write the last block's shots if there is room for rows.
    fn kundatrezo_edge_sampling_run(
        sampling: Handle, first: u64, last: u64, noiseless: GivenBytes, sums: WordsMut, rows: WordsMut,
    ) {
        sampling.run(first..last, noiseless, sums, rows)
    }

    /// The text of counts that were added up; whether a function counted shots, and whether noiseless bits were given for each shot.
    fn kundatrezo_edge_sampling_text(sampling: Handle, sums: Words, is_counted: u64, is_lent: u64) {
        sampling.text(sums, is_counted == 1, is_lent == 1).map(Given::text)
    }

    /// Close a sampling, whose handle is not used any more.
    fn kundatrezo_edge_sampling_close(sampling: Handle) {
        // SAFETY: the caller's promise
        unsafe { sampling.close() };
        Ok(Given::default())
    }

    /// Notes on conditions of a job that is sampled, a line each.
    fn kundatrezo_edge_condition_notes(job: Bytes, is_given: u64) {
        Ok(Given::text(condition_notes(job, is_given == 1, "noiseless=", "noiseless_shots=").join("\n")))
    }

    /// Read a text of counts, and test that they are counts of a job if that isn't empty. Text: which parts are missing. Words: the shots, then
    /// lists, each with its length before it: the totals of outcomes, those of sets, the shots that a function counted, if one did, the seeds, and
    /// each set.
    fn kundatrezo_edge_counts_read(text: Bytes, job: Bytes) {
        let saved = read(text)?;
        if !job.is_empty() && !saved.is_for(job) {
            return Err(Failure::fault("these are counts of another job"));
        }
        let counts = saved.counts();
        let (counted, seeds) = (counts.counted.into_iter().collect(), saved.seeds().collect());
        let mut words = vec![counts.shots];
        for list in [&counts.totals, &counts.sets, &counted, &seeds].into_iter().chain(saved.sets()) {
            words.push(list.len() as u64);
            words.extend(list);
        }
        let missing = saved.check_complete().err().map_or_else(String::new, |missing| missing.to_string());
        Ok(Given { words, ..Given::text(missing) })
    }

    /// The sum of two texts of counts. Text: that of the sum.
    fn kundatrezo_edge_counts_add(one: Bytes, other: Bytes) {
        let sum = read(one)?.checked_add(&read(other)?).map_err(Failure::fault)?;
        Ok(Given::text(sum.text()))
    }

    /// For each total among shots the bits of its rate and of the ends of its interval.
    fn kundatrezo_edge_rates(totals: Words, shots: u64) {
        let counts = Counts { shots, ..Counts::default() };
        let row = |total: &u64| {
            let [low, high] = wilson(*total, shots);
            [counts.rate(*total), low, high].map(f64::to_bits)
        };
        Ok(Given::words(totals.iter().flat_map(row)))
    }

    /// The calls with their parameters: a line `NAME(PARAMETER: KIND, ..)` each. This one has no parameters.
    fn kundatrezo_edge_declarations() {
        Ok(Given::text(DECLARATIONS))
    }

    /// What the numbers of refusals mean: a line with the number and its words each.
    fn kundatrezo_edge_refusals() {
        let line = |number: &Number| format!("{} {}\n", number.get(), number.words());
        Ok(Given::text(Number::ALL.iter().map(line).collect::<String>()))
    }
}

/// Free a reply.
///
/// # Safety
///
/// It is the reply of a call, and nothing uses it any more.
#[unsafe(no_mangle)]
pub unsafe extern "C" fn kundatrezo_edge_free(reply: Reply) {
    // SAFETY: the caller's promise
    unsafe { reply.free() }
}

/// Make a call that draws from lists; one that isn't given is made from its seed.
fn drawn<T>(
    job: &[u8],
    lists: [(Option<&[u64]>, u64); 2],
    base: u64,
    mut call: impl FnMut(kundatrezo::Draws<'_>) -> Result<T, kundatrezo::Refusal>,
) -> Result<T, Failure> {
    let [main, second] = lists.map(|(words, seed)| words.map_or(WordSource::Seed(seed), WordSource::Slice));
    let mut draws = GrowingDraws::new(main, second, base);
    draws.call(job, &mut call).map_err(|refusal| {
        let spent = refusal.number == Number::DRAWS;
        let hint = spent.then(|| draws.hint(&refusal, job, "seed=N", "second_seed=N"));
        Failure::refused(&refusal, job, hint)
    })
}

fn read(text: &[u8]) -> Result<SavedCounts, Failure> {
    SavedCounts::read(&String::from_utf8_lossy(text)).map_err(Failure::fault)
}

/// The lists of a list of lists.
fn list_of_lists(mut words: &[u64]) -> Result<Vec<Vec<u64>>, Failure> {
    let mut lists = Vec::new();
    while let Some((len, rest)) = words.split_first() {
        let len = usize::try_from(*len).ok().filter(|len| *len <= rest.len());
        let (list, rest) = rest.split_at(len.ok_or_else(|| Failure::fault("a list of lists is cut short"))?);
        lists.push(list.to_vec());
        words = rest;
    }
    Ok(lists)
}

/// Words with a bit for each of `count` places, of which these are set.
fn bits(places: &[usize], count: usize) -> Vec<u64> {
    let mut words = vec![0; count.div_ceil(64)];
    places.iter().for_each(|place| words[place / 64] |= 1 << (place % 64));
    words
}

#[cfg(test)]
mod tests {
    use super::*;
    use std::ptr;

    const JOB: &[u8] = include_bytes!("../../../examples/syndrome.job");

    fn bytes(list: &[u8]) -> Bytes {
        Bytes { first: list.as_ptr(), len: list.len() }
    }

    fn words(list: &[u64]) -> Words {
        Words { first: list.as_ptr(), len: list.len() }
    }

    fn written(list: &mut [u64]) -> WordsMut {
        WordsMut { first: list.as_mut_ptr(), len: list.len() }
    }

    /// What a reply has: number, line, count, text and words. It is freed.
    fn taken(reply: Reply) -> (u64, u64, u64, String, Vec<u64>) {
        // SAFETY: the lists of a reply
        let (text, words) = unsafe {
            let text = Bytes { first: reply.text, len: reply.text_len }.value();
            let words = Words { first: reply.words, len: reply.words_len }.value();
            (String::from_utf8_lossy(text).into_owned(), words.to_vec())
        };
        let taken = (reply.number, reply.line, reply.count, text, words);
        // SAFETY: it is not used any more
        unsafe { kundatrezo_edge_free(reply) };
        taken
    }

    #[test]
    fn refusals_have_their_line_and_hint() {
        let job = b"op=job qubits=1 outcomes=0 shots=1\nop=u g=H q=0\n";
        // SAFETY: slices, here and below
        let (number, line, _, text, _) = taken(unsafe { kundatrezo_edge_examine(bytes(job), 0) });
        assert_eq!((number, line), (2, 2));
        assert_eq!(text, "\0g= is the code of a gate: Hadamard is 4\0op=u g=H q=0");
        let sets = [2, 3, 9];
        let (number, line, _, text, _) =
            taken(unsafe { kundatrezo_edge_outcomes(bytes(JOB), bytes(b"set"), words(&sets)) });
        let cause = "a set or group cut short, not strictly rising, or with an outcome that is not recorded";
        assert_eq!((number, line), (17, 0));
        assert_eq!(text, format!("{cause}\0the set 3,9: it names recorded outcomes, 0 to 6, each once\0"));
    }

    #[test]
    fn faults_and_panics_are_replies() {
        let cut = taken(unsafe { kundatrezo_edge_outcomes(bytes(JOB), bytes(b"set"), words(&[3, 1])) });
        assert_eq!((cut.0, cut.3.as_str()), (FAULT, "a list of lists is cut short"));
        let broken = taken(Reply::of(|| panic!("broken")));
        assert_eq!((broken.0, broken.3.as_str()), (PANIC, "broken"));
    }

    /// The lines of a circuit are those of its job, and the numbers those of the header.
    #[test]
    fn a_circuit_has_the_lines_of_its_job() {
        let text = String::from_utf8_lossy(JOB);
        let (header, lines) = text.split_once('\n').expect("it has a header");
        let (number, _, _, found, numbers) = taken(unsafe { kundatrezo_edge_circuit(bytes(JOB)) });
        let job = examine(JOB).expect("it is accepted");
        let own = [0, job.qubits, job.outcomes, job.shots, job.recorded].map(|number| number as u64);
        assert!(!header.contains("edition"));
        assert_eq!((number, format!("{found}\n").as_str(), numbers), (0, lines, own.to_vec()));
        let refused = taken(unsafe { kundatrezo_edge_circuit(bytes(&JOB[1..])) });
        assert_eq!((refused.0, refused.1), (2, 1));
    }

    /// The counts of blocks, added up, are those of the crate's sampler, and so is their text.
    #[test]
    fn a_sampling_counts_what_the_sampler_counts() {
        let none = GivenWords(Words { first: ptr::null(), len: 0 });
        let no_bytes = GivenBytes(Bytes { first: ptr::null(), len: 0 });
        let sets = words(&[2, 4, 5]);
        let opened = unsafe { kundatrezo_edge_sampling_open(bytes(JOB), 20_000, 3, bytes(b""), none, sets, 2, 3) };
        let (number, _, handle, _, numbers) = taken(opened);
        let sampler = kundatrezo::Sampler::new(JOB, 20_000, 3).expect("it is accepted");
        let blocks = sampler.part(1, 3);
        assert_eq!((number, numbers), (0, vec![blocks.start, blocks.end, 20_000, 1, 10]));
        let handle = Handle::of_count(handle);
        let mut sums = [0; 10];
        for block in blocks {
            let rows = written(&mut []);
            taken(unsafe {
                kundatrezo_edge_sampling_run(handle, block, block + 1, no_bytes, written(&mut sums), rows)
            });
        }
        let saved = sampler.sample(&[vec![4, 5]], (2, 3), 1).expect("it runs");
        let text = taken(unsafe { kundatrezo_edge_sampling_text(handle, words(&sums), 0, 0) }).3;
        assert_eq!(text, saved.text());
        let short = taken(unsafe { kundatrezo_edge_sampling_text(handle, words(&sums[1..]), 0, 0) });
        assert_eq!((short.0, short.3.as_str()), (FAULT, "9 sums, and this sampling has 10"));
        taken(unsafe { kundatrezo_edge_sampling_close(handle) });
    }
}
