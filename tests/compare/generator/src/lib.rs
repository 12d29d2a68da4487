//! Random jobs, from a seed alone.
//!
//! - [`random`]: the generator of numbers.
//! - [`jobs`]: jobs that the checks accept, of every kind of line.
//! - [`faults`]: jobs that differ in injections and flips alone.
//! - [`damage`]: copies of them that the checks often refuse.
//! - [`loads`]: large jobs for measuring.
//! - [`full`]: jobs with everything in them, and jobs made from a seed.
//! - [`mutate`]: changed copies of inputs, for fuzzing.
//! - [`inputs`]: what calls are lent, with lists that run out and buffers that are short.

pub mod damage;
pub mod faults;
pub mod full;
pub mod inputs;
pub mod jobs;
pub mod loads;
pub mod mutate;
pub mod random;
