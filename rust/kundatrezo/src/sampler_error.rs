//! Why a sampler does not do its work.

use crate::{CountsError, Refusal, named_shot_message};
use std::error::Error;
use std::fmt;

/// Why there is no sampler of a job, or no saved counts of a part.
#[derive(Debug, Clone, PartialEq, Eq)]
#[non_exhaustive]
pub enum SamplerError {
    /// A call of the engine refuses.
    Refused(Refusal),
    /// The job has an injection or a flip, and nothing says where these stand in the sample. [`Sampler::with_named_shots`](crate::Sampler::with_named_shots) does.
    NamedShot {
        /// The line of the first one, from 1.
        line: u64,
    },
    /// The counts can't be saved.
    Counts(CountsError),
}

impl fmt::Display for SamplerError {
    fn fmt(&self, f: &mut fmt::Formatter<'_>) -> fmt::Result {
        match self {
            Self::Refused(refusal) => refusal.fmt(f),
            Self::NamedShot { line } => {
                f.write_str(&named_shot_message(*line, "NamedShots::InSample", "NamedShots::InEachBlock"))
            }
            Self::Counts(error) => error.fmt(f),
        }
    }
}

impl Error for SamplerError {}

impl From<Refusal> for SamplerError {
    fn from(refusal: Refusal) -> Self {
        Self::Refused(refusal)
    }
}

impl From<CountsError> for SamplerError {
    fn from(error: CountsError) -> Self {
        Self::Counts(error)
    }
}
