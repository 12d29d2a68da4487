//! Safe calls of Kundatrezo, a Pauli-frame noise engine that is written and proved in Rattle, from its static library `libkundatrezo.a`.
//!
//! A *job* is a text: a header with the numbers of qubits, outcomes and shots, then a line for each instruction; docs/JOBS.md of the repository has the
//! language. Each call takes a job of arbitrary bytes and lists of any length, and gives the finished work or a [`Refusal`] with a number and a line.
//!
//! | call | gives |
//! |---|---|
//! | [`check`] | whether the job passes the tests of a job; [`examine`] says what it asks of its caller, too |
//! | [`run`] | the frames and the outcome deltas of all shots, and how many of them flip each outcome; [`Frames`] has memory of its own |
//! | [`settle`] | the job with its noise replaced by the injections that the same words draw; [`settled`] as a `Vec` |
//! | [`SharedDraws`] | a main list of which up to eight callers have shares: a run or settling by one of them draws from [`SharedDraws::caller`] |
//! | [`walk`] | for a set of outcomes and a shot, the count of faults that flip the set's parity |
//! | [`annotate`] | the job with depolarizing noise before each measurement and after each gate; [`annotated`] as a `Vec` |
//! | [`locations`] | the number of fault locations |
//! | [`correlation`] | whether correlated noise lines agree in size |
//! | [`fault_table`] | which groups of outcomes each possible fault flips, as rows in memory of their own; [`write_fault_table`] in lent bytes |
//! | [`fill`] | words from a seed; [`Xorshift`] has them as a stream |
//! | [`make`] | a job from a seed, which passes the tests of a job; [`make_job`] as a `Vec` |
//! | [`by_shot`] | deltas as a row for each shot, and [`by_outcome`] the way back; [`Shots`] has memory of its own |
//!
//! Beside the calls:
//!
//! | item | gives |
//! |---|---|
//! | [`Circuit`] | a job as a list of typed instructions, and its bytes again; [`Gate`] and [`Form`] are the tables of gates and of forms |
//! | [`Sampler`] | any number of shots of a job from a seed, by several threads, and their counts; [`SavedCounts`] saves and adds them |
//! | [`split`] | the shots of a settled job as parts for several benches; `^=` on [`Frames`] adds what they leave |
//! | [`error_model`] | a job's noise, for a decoder; [`single_faults`] is a table of single faults for any number of groups |
//! | [`GrowingDraws`] | words from seeds, as far as a call needs them |
//! | [`clifford_line`] | a Clifford of up to eight qubits, such as a code's encoder, as a line |
//! | [`with_sizes`] | a job whose noise lines lack their sizes, with them |
//! | [`OutputFile`] | a file that is written whole or not at all |
//!
//! # Rows
//!
//! A row has a bit for each shot: shot s is bit s mod 64 of word s / 64. The frames have an X row and a Z row for each qubit, deltas and noiseless bits a
//! row for each outcome; rows lie in order, each of [`Examination::words_per_row`] words. Bits past the last shot are zero in what a run leaves, and are not
//! looked at in what it is lent. Words beyond those that the header asks for stay as they are.
//!
//! # Example
//!
//! The job `examples/bell.job` of the repository entangles two qubits, has a fault in shot 1 and a flipped outcome in shot 2:
//!
//! ```text
#![doc = include_str!("../../../examples/bell.job")]
//! ```
//!
//! ```
//! use kundatrezo::{Draws, Frames, bit, settled, walk};
//!
//! let job = include_bytes!(concat!(env!("CARGO_MANIFEST_DIR"), "/../../examples/bell.job"));
//! let noiseless = [0, 0];
//! let frames = Frames::from_run(job, &noiseless, Draws::default())?;
//! assert_eq!(frames.deltas(), [0b010, 0b100]);
//!
//! // in every shot the deltas of a set sum, modulo 2, to the count of the walk on the settled job
//! let text = settled(job, &noiseless, Draws::default())?;
//! for shot in 0..3 {
//!     let sum = bit(frames.delta_row(0), shot) ^ bit(frames.delta_row(1), shot);
//!     assert_eq!(walk(&text, shot as u64, &[0, 1])? % 2, u64::from(sum));
//! }
//! # Ok::<(), kundatrezo::Refusal>(())
//! ```
//!
//! A caller who has no random words of their own can make them from a seed:
//!
//! ```
//! use kundatrezo::{Draws, Frames, Xorshift, annotated, examine};
//!
//! let job = b"op=job qubits=2 outcomes=1 shots=4096\nop=u g=14 q=0,1\nop=o x=- z=0,1 id=0\n";
//! let job = annotated(job, 0.01)?;
//! let noiseless = vec![0; examine(&job)?.outcome_words()];
//! let words: Vec<u64> = Xorshift::new(2026).take(100_000).collect();
//! let frames = Frames::from_run(&job, &noiseless, Draws::new(&words))?;
//! let flipped = frames.totals()[0];
//! // of 15 Paulis on the two qubits 8 flip the outcome, and there are two such noise lines
//! assert!((flipped as f64 / 4096.0 - 2.0 * 0.01 * 8.0 / 15.0).abs() < 0.005);
//! # Ok::<(), kundatrezo::Refusal>(())
//! ```
//!
//! # What a caller owes
//!
//! Nothing but stack: the correlation check takes up to 96 KiB of it, a run 68 KiB, settling 44 KiB, the table of single faults 16 KiB, and every other call
//! less than 8 KiB. The pages are touched one after the other, so that a thread with less ends the process at its guard page. What C callers owe besides is
//! the crate's: each call is made in the default floating-point state, whatever the thread has set (subnormals off, another rounding, exceptions), and leaves
//! that as it was.
//!
//! # Linking
//!
//! The build script links the library from the folder in the environment variable `KUNDATREZO_LIB_DIR`, an absolute path. In Kundatrezo's repository
//! `./setup --library` gets the library ready and prints that folder. The library is for x86-64 Linux, keeps no state and takes no memory but the stack,
//! so calls may be made from several threads at the same time.

mod by_shot;
mod clifford;
mod counts;
mod counts_table;
mod draws;
mod error_model;
mod examination;
mod float_state;
mod frames;
mod growing;
mod hints;
mod instructions;
mod make;
mod noise_sizes;
mod output;
mod refusal;
mod sampler;
mod sampler_error;
mod shares;
mod single_faults;
mod split;
#[doc(hidden)]
pub mod sys;
#[doc(hidden)]
pub mod threads;
mod words_read;
mod xorshift;

pub use by_shot::{Shots, by_outcome, by_shot};
pub use clifford::{MAX_CLIFFORD_QUBITS, clifford_line};
pub use counts::{Counts, CountsError, DRAWS, SavedCounts, wilson};
pub use draws::{DrawSource, Draws};
pub use error_model::{ErrorModel, Fault, Mechanism, error_model, single_faults};
pub use examination::{Examination, examine};
pub use frames::{FrameSizeError, Frames, bit};
pub use growing::{GrowingDraws, WordSource};
pub use instructions::{
    Circuit, Form, Gate, Header, Instruction, Noise, OutcomeCondition, PauliDistribution, SparsePauli, WeightedPauli,
};
pub use make::{JobParameters, make, make_job};
pub use noise_sizes::{UnknownSizeError, with_sizes};
pub use output::{FileId, OutputFile, WrittenFile, write_file, written_path};
pub use refusal::{Number, Refusal};
pub use sampler::{NamedShots, NoiselessSizeError, Sampler, Workspace, condition_notes, named_shot_message};
pub use sampler_error::SamplerError;
pub use shares::{AccountError, Caller, MAX_CALLERS, SharedDraws};
pub use single_faults::{FaultTable, MAX_GROUPS, SingleFault, fault_table, write_fault_table};
pub use split::{Part, keep_shots, split};
pub use words_read::WordsRead;
pub use xorshift::{Xorshift, fill};

use refusal::result_of;

/// The longest job, and the longest text that a call writes, in bytes.
pub const MAX_BYTES: usize = 1_048_576;
/// Most qubits of a header.
pub const MAX_QUBITS: usize = 256;
/// Most outcomes of a header.
pub const MAX_OUTCOMES: usize = 1_024;
/// Most shots of a header.
pub const MAX_SHOTS: usize = 4_096;

/// The lent words that a run writes, and the totals, if they are wanted.
#[derive(Debug)]
#[non_exhaustive]
pub struct Rows<'a> {
    /// The X part of the frames: [`Examination::frame_words`] words.
    pub x: &'a mut [u64],
    /// The Z part of the frames: [`Examination::frame_words`] words.
    pub z: &'a mut [u64],
    /// The deltas: [`Examination::outcome_words`] words.
    pub deltas: &'a mut [u64],
    /// A number for each outcome of the header, [`Examination::outcomes`] of them: how many shots have a delta of 1.
    pub totals: Option<&'a mut [u64]>,
}

impl<'a> Rows<'a> {
    /// The X part of the frames, the Z part, and the deltas; no totals.
    #[must_use]
    pub fn new(x: &'a mut [u64], z: &'a mut [u64], deltas: &'a mut [u64]) -> Self {
        Self { x, z, deltas, totals: None }
    }

    /// The same with a list for the totals.
    #[must_use]
    pub fn with_totals(self, totals: &'a mut [u64]) -> Self {
        Self { totals: Some(totals), ..self }
    }
}

/// Make the tests of a job.
///
/// # Errors
///
/// The refusal, at the first bad line and with its lowest number.
///
/// ```
/// use kundatrezo::{Number, check};
///
/// assert_eq!(check(b"op=job qubits=1 outcomes=0 shots=1\nop=z q=0\n"), Ok(()));
/// assert_eq!(check(b"").unwrap_err().number, Number::LENGTH);
/// ```
pub fn check(job: &[u8]) -> Result<(), Refusal> {
    result_of(&sys::check(job), 0).map(drop)
}

/// Run a job to its end in all of its shots: the final frames, the outcome deltas and their totals are left in `rows`, whatever was there before. The total
/// of an outcome is the number of ones in its row of deltas; that of an outcome which no line records is 0.
///
/// `noiseless` has the noiseless outcomes, [`Examination::outcome_words`] words, which the conditions of noise lines look at.
///
/// # Errors
///
/// The refusal by a test of the job, 13 (a lent list is too short, that of the totals too), 26 (of a [`Caller`]: there is none of this number) or 14 (a draw
/// lies past its list). 14 leaves the needed words of `rows` zero, the totals of the header's outcomes too; the others leave all memory untouched.
///
/// ```
/// use kundatrezo::{Draws, Rows, run};
///
/// let job = b"op=job qubits=1 outcomes=1 shots=2\nop=i shot=1 x=0 z=-\nop=o x=- z=0 id=0\n";
/// let (mut x, mut z, mut deltas, mut totals) = ([0], [0], [0], [0]);
/// run(job, Rows::new(&mut x, &mut z, &mut deltas).with_totals(&mut totals), &[0], Draws::default())?;
/// assert_eq!((x, z, deltas, totals), ([0b10], [0], [0b10], [1]));
/// # Ok::<(), kundatrezo::Refusal>(())
/// ```
pub fn run(job: &[u8], rows: Rows<'_>, noiseless: &[u64], mut draws: impl DrawSource) -> Result<(), Refusal> {
    result_of(&draws.run(job, rows, noiseless), 0).map(drop)
}

/// Write the settled job at the front of `out`, and say how many bytes it has: each noise line is replaced by the injections that a run with the same
/// `noiseless` and `draws` would make.
///
/// # Errors
///
/// The refusal by a test of the job, 13 (too few noiseless words), 26 (of a [`Caller`]: there is none of this number), 14 or 15 (the text does not fit;
/// [`Refusal::bytes_needed`] is then exactly the bytes that it takes, also above [`MAX_BYTES`]). Nothing is written then.
///
/// ```
/// use kundatrezo::{Draws, Number, settle};
///
/// let header = "op=job qubits=1 outcomes=0 shots=2\n";
/// let job = format!("{header}op=n p=3fe0000000000000 corr=- cond=- parity=0 d=1 x=0 z=- size=1\n");
/// // the second word is not below one half
/// let draws = Draws::new(&[0, u64::MAX]);
/// let mut out = [0; 100];
/// let bytes = settle(job.as_bytes(), &[], draws, &mut out)?;
/// assert_eq!(out[..bytes], *format!("{header}op=i shot=0 x=0 z=-\n").as_bytes());
///
/// let refusal = settle(job.as_bytes(), &[], draws, &mut []).unwrap_err();
/// assert_eq!(refusal.number, Number::ROOM);
/// assert_eq!(refusal.bytes_needed, bytes as u64);
/// # Ok::<(), kundatrezo::Refusal>(())
/// ```
pub fn settle(job: &[u8], noiseless: &[u64], mut draws: impl DrawSource, out: &mut [u8]) -> Result<usize, Refusal> {
    let reply = draws.settle(job, noiseless, out);
    result_of(&reply.answer, reply.figure).map(size)
}

/// The settled job, in memory of its own.
///
/// # Errors
///
/// As [`settle`]; 15 where the text is longer than [`MAX_BYTES`].
///
/// ```
/// use kundatrezo::{Draws, settled};
///
/// let job = b"op=job qubits=1 outcomes=0 shots=1\nop=u g=4 q=0\n";
/// assert_eq!(settled(job, &[], Draws::default())?, job);
/// # Ok::<(), kundatrezo::Refusal>(())
/// ```
pub fn settled(job: &[u8], noiseless: &[u64], draws: impl DrawSource) -> Result<Vec<u8>, Refusal> {
    let mut out = vec![0; job.len()];
    settle_into(job, noiseless, draws, &mut out)?;
    Ok(out)
}

/// Settle a job into a vector, whose length becomes that of the settled job: first into the bytes that it has, and where these are too few into just as
/// many as the first call found to be needed. That figure is exact, so there is at most one further call (`figure-enough` in docs/PROMISES.md).
///
/// # Errors
///
/// As [`settle`]; 15 where the text is longer than [`MAX_BYTES`].
///
/// ```
/// use kundatrezo::{Draws, settle_into};
///
/// let job = b"op=job qubits=1 outcomes=0 shots=1\nop=u g=4 q=0\n";
/// let mut out = Vec::new();
/// assert_eq!(settle_into(job, &[], Draws::default(), &mut out)?, job.len());
/// assert_eq!(out, job);
/// # Ok::<(), kundatrezo::Refusal>(())
/// ```
pub fn settle_into(
    job: &[u8],
    noiseless: &[u64],
    mut draws: impl DrawSource,
    out: &mut Vec<u8>,
) -> Result<usize, Refusal> {
    let bytes = match settle(job, noiseless, &mut draws, out) {
        Err(refusal) if refusal.number == Number::ROOM && refusal.bytes_needed <= MAX_BYTES as u64 => {
            out.resize(size(refusal.bytes_needed), 0);
            settle(job, noiseless, &mut draws, out)?
        }
        answer => answer?,
    };
    out.truncate(bytes);
    Ok(bytes)
}

/// Walk a job without noise back from its last line, with the observable of a set of recorded outcomes, and count the faults of a shot that flip the
/// set's parity: injections that anticommute with the observable at their line, and outcome flips that fall in the set there. `set` is strictly rising.
///
/// # Errors
///
/// The refusal by a test of the job, 17 (shot or set) or 16 (noise).
///
/// ```
/// use kundatrezo::walk;
///
/// let job = b"op=job qubits=1 outcomes=1 shots=2\nop=i shot=1 x=0 z=-\nop=o x=- z=0 id=0\n";
/// assert_eq!((walk(job, 0, &[0])?, walk(job, 1, &[0])?), (0, 1));
/// # Ok::<(), kundatrezo::Refusal>(())
/// ```
pub fn walk(job: &[u8], shot: u64, set: &[u64]) -> Result<u64, Refusal> {
    let reply = sys::walk(job, shot, set);
    result_of(&reply.answer, reply.count)
}

/// Write the job with depolarizing noise of probability `p` before each measurement and after each gate at the front of `out`, and say how many bytes
/// it has. A qubit that control and target of an `op=k` line share stands in its noise line once, with the control's.
///
/// # Errors
///
/// The refusal by a test of the job (11 with line 0 for `p` itself), 18 or 15. Nothing is written then.
///
/// ```
/// use kundatrezo::annotate;
///
/// let job = "op=job qubits=1 outcomes=0 shots=1\nop=u g=4 q=0\n";
/// let mut out = [0; 200];
/// let bytes = annotate(job.as_bytes(), 0.5, &mut out)?;
/// let noise = "op=n p=3fe0000000000000 corr=- cond=- parity=0 d=2 q=0 size=3\n";
/// assert_eq!(out[..bytes], *format!("{job}{noise}").as_bytes());
/// # Ok::<(), kundatrezo::Refusal>(())
/// ```
pub fn annotate(job: &[u8], p: f64, out: &mut [u8]) -> Result<usize, Refusal> {
    let reply = sys::annotate(job, p.to_bits(), out);
    result_of(&reply.answer, reply.figure).map(size)
}

/// The annotated job, in memory of its own.
///
/// # Errors
///
/// As [`annotate`]; 15 where the text is longer than [`MAX_BYTES`].
///
/// ```
/// use kundatrezo::{annotated, locations};
///
/// let job = b"op=job qubits=2 outcomes=0 shots=1\nop=u g=11 q=0,1\n";
/// let noisy = annotated(job, 0.001)?;
/// assert!(noisy.starts_with(job));
/// assert_eq!(locations(job)?, 4);
/// # Ok::<(), kundatrezo::Refusal>(())
/// ```
pub fn annotated(job: &[u8], p: f64) -> Result<Vec<u8>, Refusal> {
    text(|out| annotate(job, p, out))
}

/// Count fault locations: twice the qubits of the lines that annotation gives noise, summed over the job. A qubit that control
/// and target of an `op=k` line share counts for both.
///
/// # Errors
///
/// The refusal by a test of the job.
///
/// ```
/// use kundatrezo::locations;
///
/// assert_eq!(locations(b"op=job qubits=2 outcomes=0 shots=1\nop=u g=11 q=0,1\nop=z q=0\n"), Ok(4));
/// ```
pub fn locations(job: &[u8]) -> Result<u64, Refusal> {
    let reply = sys::locations(job);
    result_of(&reply.answer, reply.count)
}

/// Check that noise lines of one correlation have one size, as their field `size=` says it: 1, 4^k - 1 over k qubits, or the number of elements.
///
/// # Errors
///
/// The refusal by a test of the job, or 19 at the first line whose size is not that of its correlation's first line.
///
/// ```
/// use kundatrezo::{Number, correlation};
///
/// let job = b"op=job qubits=2 outcomes=0 shots=1
/// op=n p=3fe0000000000000 corr=7 cond=- parity=0 d=2 q=0 size=3
/// op=n p=3fe0000000000000 corr=7 cond=- parity=0 d=2 q=0,1 size=15
/// ";
/// let refusal = correlation(job).unwrap_err();
/// assert_eq!((refusal.number, refusal.line), (Number::SIZES, 3));
/// ```
pub fn correlation(job: &[u8]) -> Result<(), Refusal> {
    result_of(&sys::correlation(job), 0).map(drop)
}

/// The text that a call writes, which is never longer than `MAX_BYTES`.
fn text(call: impl FnOnce(&mut [u8]) -> Result<usize, Refusal>) -> Result<Vec<u8>, Refusal> {
    let mut out = vec![0; MAX_BYTES];
    let bytes = call(&mut out)?;
    out.truncate(bytes);
    out.shrink_to_fit();
    Ok(out)
}

/// A number of the library as a size.
fn size(number: u64) -> usize {
    usize::try_from(number).expect("the library is for 64-bit processors")
}
