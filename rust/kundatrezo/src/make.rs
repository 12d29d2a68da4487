//! Jobs made from a seed.

use crate::refusal::result_of;
use crate::{Refusal, sys};

/// What a made job is to have.
#[derive(Debug, Clone, Copy, PartialEq, Eq, Hash)]
pub struct JobParameters {
    /// The header's qubits, from 1 to [`MAX_QUBITS`](crate::MAX_QUBITS).
    pub qubits: u64,
    /// The header's outcomes, from 0 to [`MAX_OUTCOMES`](crate::MAX_OUTCOMES).
    pub outcomes: u64,
    /// The header's shots, from 1 to [`MAX_SHOTS`](crate::MAX_SHOTS).
    pub shots: u64,
    /// The lines after the header, the element lines of noise not counted.
    pub lines: u64,
    /// The seed of the stream that chooses all else, not zero. It is used as it is, as [`fill`](crate::fill) does. The first words of small seeds depend
    /// on each other: for every seed below 2^14, bit 0 of the third word is that of the first. So with two qubits or more no job of the second edition
    /// begins with a gate of an even code. Large random seeds have no such tie.
    pub seed: u64,
}

/// Write a job of these parameters at the front of `out`, by the rule of docs/MAKING.md of the repository, and say how many bytes it has. The same parameters
/// give the same bytes on every machine, and every made job passes the tests of a job.
///
/// # Errors
///
/// The refusal by 3 (numbers that a header may not hold), 22 (the seed is zero) or 15 (the text is longer than `out`, or than [`MAX_BYTES`](crate::MAX_BYTES)),
/// with line 0. Nothing is written then.
///
/// ```
/// use kundatrezo::{JobParameters, check, make};
///
/// let asked = JobParameters { qubits: 3, outcomes: 2, shots: 10, lines: 5, seed: 2026 };
/// let mut out = [0; 1000];
/// let bytes = make(asked, &mut out)?;
/// assert_eq!(check(&out[..bytes]), Ok(()));
/// # Ok::<(), kundatrezo::Refusal>(())
/// ```
pub fn make(asked: JobParameters, out: &mut [u8]) -> Result<usize, Refusal> {
    let JobParameters { qubits, outcomes, shots, lines, seed } = asked;
    let reply = sys::make(qubits, outcomes, shots, lines, seed, out);
    result_of(&reply.answer, reply.figure).map(crate::size)
}

/// The job of these parameters, in memory of its own.
///
/// # Errors
///
/// As [`make`]; 15 where the text is longer than [`MAX_BYTES`](crate::MAX_BYTES), which up to 1,000 lines never are.
///
/// ```
/// use kundatrezo::{JobParameters, Number, examine, make_job};
///
/// let asked = JobParameters { qubits: 5, outcomes: 10, shots: 100, lines: 1_000, seed: 1 };
/// let job = make_job(asked)?;
/// let numbers = examine(&job)?;
/// assert_eq!((numbers.qubits, numbers.outcomes, numbers.shots), (5, 10, 100));
/// assert_eq!(job, make_job(asked)?);
/// assert_eq!(make_job(JobParameters { seed: 0, ..asked }).unwrap_err().number, Number::SEED);
/// assert_eq!(make_job(JobParameters { shots: 0, ..asked }).unwrap_err().number, Number::HEADER);
/// # Ok::<(), kundatrezo::Refusal>(())
/// ```
pub fn make_job(asked: JobParameters) -> Result<Vec<u8>, Refusal> {
    crate::text(|out| make(asked, out))
}
