//! The published `frame_propagator.rs`, `noise.rs` and `circuit.rs`, compiled unchanged over stand-ins.
//!
//! Two things are replaced, as document 01 says: [`sampling`] (its `next_skip`) and `random_range` (in the stand-in for `rand`). [`bridge`] turns
//! jobs into the instructions of `circuit.rs` and runs them.

include!(concat!(env!("OUT_DIR"), "/modules.rs"));
include!(concat!(env!("OUT_DIR"), "/simulation.rs"));

pub mod bridge;
pub mod sampling;

pub use circuit::{Circuit, OutcomeId, QubitId};
pub use frame_propagator::FramePropagator;
pub use noise::{OutcomeCondition, PauliDistribution, PauliFault};
