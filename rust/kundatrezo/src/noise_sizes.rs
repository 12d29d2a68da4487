//! The sizes of distributions, for jobs whose noise lines lack them.

use crate::hints::distribution_size;
use std::error::Error;
use std::fmt;

/// A noise line without `size=` whose other fields do not tell the size.
#[derive(Debug, Clone, Copy, PartialEq, Eq)]
#[non_exhaustive]
pub struct UnknownSizeError {
    /// The number of the line, from 1.
    pub line: usize,
}

impl fmt::Display for UnknownSizeError {
    fn fmt(&self, f: &mut fmt::Formatter<'_>) -> fmt::Result {
        write!(f, "the size of the noise at line {} can't be told", self.line)
    }
}

impl Error for UnknownSizeError {}

/// The job with `size=` at the end of each noise line that has none. The engine refuses noise lines without it, so that no
/// [`Circuit`](crate::Circuit) can be read from them. Noise lines that have a size, right or wrong, and all other lines are copied. The job is not
/// checked.
///
/// # Errors
///
/// The first noise line whose size can't be told.
///
/// ```
/// let job = b"op=job qubits=2 outcomes=0 shots=1\nop=n p=3fe0000000000000 corr=- cond=- parity=0 d=2 q=1,0\n";
/// let sized = kundatrezo::with_sizes(job)?;
/// assert!(sized.ends_with(b" d=2 q=1,0 size=15\n") && kundatrezo::check(&sized).is_ok());
///
/// let error = kundatrezo::with_sizes(b"op=n d=2\n").unwrap_err();
/// assert_eq!(error.to_string(), "the size of the noise at line 1 can't be told");
/// # Ok::<(), kundatrezo::UnknownSizeError>(())
/// ```
pub fn with_sizes(job: &[u8]) -> Result<Vec<u8>, UnknownSizeError> {
    let mut sized = Vec::with_capacity(job.len());
    for (place, line) in job.split_inclusive(|byte| *byte == b'\n').enumerate() {
        let text = line.strip_suffix(b"\n").unwrap_or(line);
        sized.extend_from_slice(text);
        if text.starts_with(b"op=n ") && !has_size(text) {
            let size = std::str::from_utf8(text).ok().and_then(distribution_size);
            let size = size.ok_or(UnknownSizeError { line: place + 1 })?;
            sized.extend_from_slice(format!(" size={size}").as_bytes());
        }
        sized.extend_from_slice(&line[text.len()..]);
    }
    Ok(sized)
}

/// Whether the last field is the size.
fn has_size(line: &[u8]) -> bool {
    line.rsplit(|byte| *byte == b' ').next().is_some_and(|field| field.starts_with(b"size="))
}
