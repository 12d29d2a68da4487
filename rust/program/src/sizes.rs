//! The size of its distribution on each noise line, for jobs that lack it.

use crate::{Failure, shortened};
use kundatrezo::MAX_BYTES;

pub const DETAILS: &str = "\
Writes the job with 'size=' at the end of each noise line that has none: 1 with d=1, 4^k - 1 with d=2 over k
qubits, n with d=3 and d=4. Without it a noise line is refused by 2. Noise lines that have one, be it right
or wrong, and all other lines are copied byte by byte. The job is not checked otherwise. A noise line whose
size can't be told is named, with status 1, and nothing is written.";

/// The job with a size on each noise line that has none.
pub fn added(job: &[u8]) -> Result<Vec<u8>, Failure> {
    let sized = kundatrezo::with_sizes(job).map_err(|error| {
        let line = job.split(|byte| *byte == b'\n').nth(error.line - 1).unwrap_or_default();
        Failure::Refused(format!("{error}: {}", shortened(line)))
    })?;
    if sized.len() > MAX_BYTES {
        return Err(Failure::Refused(
            "with its sizes the job is longer than 1,048,576 bytes, the most it may have".into(),
        ));
    }
    Ok(sized)
}
