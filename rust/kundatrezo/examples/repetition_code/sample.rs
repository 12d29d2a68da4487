//! Points that are sampled through the engine.

use crate::code::{Basis, Code};
use crate::exact::{rate, wrong};
use kundatrezo::{Draws, Frames, MAX_SHOTS, Refusal, Xorshift, bit};

/// A sampled logical error rate, beside the exact one.
#[derive(Debug, Clone)]
pub struct Point {
    pub code: Code,
    pub basis: Basis,
    pub p: f64,
    pub shots: u64,
    /// Shots in which the decoder is wrong.
    pub failures: u64,
    pub exact: f64,
}

#[allow(clippy::cast_precision_loss)]
impl Point {
    pub fn rate(&self) -> f64 {
        self.failures as f64 / self.shots as f64
    }

    /// Failures that the exact rate expects.
    pub fn expected(&self) -> f64 {
        self.shots as f64 * self.exact
    }

    /// Failures beyond the expected, in standard deviations.
    pub fn deviation(&self) -> f64 {
        (self.failures as f64 - self.expected()) / (self.expected() * (1.0 - self.exact)).sqrt()
    }
}

/// A code at a probability, with the exact probabilities of its outcomes, from which the decoder is made too.
pub struct Experiment {
    pub code: Code,
    pub p: f64,
    pub probabilities: Vec<f64>,
}

impl Experiment {
    /// Run as many jobs as said, each on the next words, and count the shots that are decoded wrongly.
    pub fn sample(&self, basis: Basis, jobs: usize, words: &mut Xorshift) -> Result<Point, Refusal> {
        self.sample_job(&self.code.job(basis, self.p, MAX_SHOTS), basis, jobs, words)
    }

    /// The same on a job of these outcomes.
    pub fn sample_job(&self, job: &str, basis: Basis, jobs: usize, words: &mut Xorshift) -> Result<Point, Refusal> {
        let wrong = wrong(self.code, &self.probabilities);
        let mut frames = Frames::new();
        let noiseless = vec![0; self.code.outcomes() * MAX_SHOTS / 64];
        // a word for each shot of each noise line and one for each fault, with some to spare
        let lines = job.lines().filter(|line| line.starts_with("op=n ")).count();
        let mut main = vec![0; lines * MAX_SHOTS * 2 + 64];
        let mut failures = 0;
        for _ in 0..jobs {
            words.fill(&mut main);
            frames.run(job.as_bytes(), &noiseless, Draws::new(&main))?;
            failures += failed(&frames, &wrong);
        }
        let exact = rate(&self.probabilities, &wrong);
        Ok(Point { code: self.code, basis, p: self.p, shots: (jobs * MAX_SHOTS) as u64, failures, exact })
    }
}

/// The shots whose flipped outcomes are decoded wrongly.
fn failed(frames: &Frames, wrong: &[bool]) -> u64 {
    let mut sets = vec![0_usize; frames.job().shots];
    for id in 0..frames.job().outcomes {
        let row = frames.delta_row(id);
        for (shot, set) in sets.iter_mut().enumerate() {
            *set |= usize::from(bit(row, shot)) << id;
        }
    }
    sets.iter().filter(|set| wrong[**set]).count() as u64
}
