//! Document 01, read by hand and on its own: no line of it comes from the published Rust or from the engine under test.
//!
//! - [`job`]: what a job says, as data.
//! - [`read`]: bytes to a job, or the refusal by the tests of a job.
//! - [`write`]: a job's data back to text.
//! - [`calls`]: every call by its signature, so that implementations can be compared.
//! - [`cases`]: jobs with their answers, worked out by hand.
//! - [`gaps`]: a job's injections and flips among its other lines.
//! - [`plain`]: the calls in the plainest form, a shot at a time.

pub mod calls;
pub mod cases;
mod form;
pub mod gaps;
pub mod job;
pub mod plain;
pub mod read;
pub mod write;
