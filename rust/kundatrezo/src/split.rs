//! A job's shots on several benches.

use crate::instructions::write_job;
use crate::{Circuit, Refusal, walk};
use std::ops::Range;

/// A part of a job: its shots, and the job that a bench runs for them.
#[derive(Debug, Clone, PartialEq, Eq)]
pub struct Part {
    /// The part's shots.
    pub shots: Range<usize>,
    /// The job with no other injections and flips than those of these shots.
    pub job: Vec<u8>,
}

/// Split the shots of a job without noise in `parts` of the same size, or one shot more or less, each with the job that a bench runs for them: that of
/// [`keep_shots`]. A part is empty where there are more parts than shots.
///
/// The runs of the parts, added, are the run of the whole job (`faults-add-calls` in crates/backward/specs/ShotTheorems.antt of the repository), and
/// each has the whole job's bits in the shots of its part (`shots-apart-calls`), so that a bench can use them before the others are done.
///
/// # Errors
///
/// The refusal by a test of the job, or 16 at the first noise line: settle the job first.
///
/// ```
/// use kundatrezo::{Draws, Frames, bit, split};
///
/// let job = include_bytes!(concat!(env!("CARGO_MANIFEST_DIR"), "/../../examples/bell.job"));
/// let noiseless = [0, 0];
/// let whole = Frames::from_run(job, &noiseless, Draws::default())?;
///
/// let mut sum = Frames::new();
/// for mut part in split(job, 2)? {
///     let ran = Frames::from_run(&part.job, &noiseless, Draws::default())?;
///     assert!(part.shots.all(|shot| bit(ran.delta_row(0), shot) == bit(whole.delta_row(0), shot)));
///     sum ^= &ran;
/// }
/// assert_eq!(sum.deltas(), whole.deltas());
/// # Ok::<(), kundatrezo::Refusal>(())
/// ```
pub fn split(job: &[u8], parts: usize) -> Result<Vec<Part>, Refusal> {
    let circuit = settled_circuit(job)?;
    let shots = circuit.header.shots;
    let part = |place: usize| {
        let shots = place * shots / parts..(place + 1) * shots / parts;
        let job = kept_lines(&circuit, |shot| shots.contains(&shot));
        Part { shots, job }
    };
    Ok((0..parts).map(part).collect())
}

/// A job without noise, less the injections and flips of the shots for which `is_kept` is false. Its header and all other lines stay. A run of it has
/// the whole job's frames and deltas in the shots that are kept (`shots-apart-calls` in crates/backward/specs/ShotTheorems.antt of the repository), and
/// identity frames and deltas of 0 in the others.
///
/// # Errors
///
/// The refusal by a test of the job, or 16 at the first noise line: settle the job first.
///
/// ```
/// use kundatrezo::{Number, keep_shots};
///
/// let header = "op=job qubits=1 outcomes=1 shots=3\n";
/// let job = format!("{header}op=i shot=2 x=0 z=-\nop=i shot=1 x=0 z=-\nop=o x=- z=0 id=0\nop=t shot=2 id=0\n");
/// let part = keep_shots(job.as_bytes(), |shot| shot < 2)?;
/// assert_eq!(part, format!("{header}op=i shot=1 x=0 z=-\nop=o x=- z=0 id=0\n").as_bytes());
///
/// let noisy = format!("{header}op=n p=3fe0000000000000 corr=- cond=- parity=0 d=1 x=0 z=- size=1\n");
/// let refusal = keep_shots(noisy.as_bytes(), |_| true).unwrap_err();
/// assert_eq!((refusal.number, refusal.line), (Number::NOISE, 2));
/// # Ok::<(), kundatrezo::Refusal>(())
/// ```
pub fn keep_shots(job: &[u8], is_kept: impl Fn(usize) -> bool) -> Result<Vec<u8>, Refusal> {
    Ok(kept_lines(&settled_circuit(job)?, is_kept))
}

/// The circuit of a job that passes the tests and has no noise, which the walk of no outcome tests.
fn settled_circuit(job: &[u8]) -> Result<Circuit, Refusal> {
    walk(job, 0, &[])?;
    Ok(Circuit::read_accepted(job))
}

fn kept_lines(circuit: &Circuit, is_kept: impl Fn(usize) -> bool) -> Vec<u8> {
    let kept = circuit.instructions.iter().filter(|instruction| instruction.shot().is_none_or(&is_kept));
    write_job(&circuit.header, kept)
}
