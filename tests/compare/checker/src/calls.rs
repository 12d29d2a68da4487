//! The calls of the engine, so that two implementations of them can be compared.

use crate::job::Refusal;

/// The answer of a call: number and line are 0 for success.
#[derive(Debug, Clone, Copy, Default, PartialEq, Eq)]
pub struct Answer {
    /// The refusal's number, or 0.
    pub number: u64,
    /// The refusal's line from 1, or 0 where none fits.
    pub line: u64,
    /// The walk's count, the locations, or the byte figure of a call that writes text; 0 for other calls.
    pub figure: u64,
}

impl Answer {
    /// Success with a count or byte figure.
    #[must_use]
    pub fn success(figure: u64) -> Self {
        Self { figure, ..Self::default() }
    }

    /// The answer of a call that gives nothing but success or a refusal.
    #[must_use]
    pub fn of(outcome: Result<(), Refusal>) -> Self {
        outcome.map_or_else(Self::from, |()| Self::default())
    }
}

impl From<Refusal> for Answer {
    fn from(refusal: Refusal) -> Self {
        Self { number: refusal.number, line: refusal.line, figure: 0 }
    }
}

/// The lent words that stand in for random draws.
#[derive(Debug, Clone, Copy)]
pub struct Draws<'a> {
    /// Added to a line's corr for its place in the second list, wrapping at 2^64.
    pub base: u64,
    /// Read on from line to line.
    pub main: &'a [u64],
    /// Read afresh by each line with a corr.
    pub second: &'a [u64],
}

/// The lent words that a run writes; without totals it is the call that keeps none.
#[derive(Debug)]
#[allow(missing_docs)]
pub struct Rows<'a> {
    pub frames_x: &'a mut [u64],
    pub frames_z: &'a mut [u64],
    pub deltas: &'a mut [u64],
    pub totals: Option<&'a mut [u64]>,
}

/// A caller's share of the main list.
#[derive(Debug)]
pub struct Share<'a> {
    /// The words of each caller's stretch, in caller order.
    pub shares: &'a [u64],
    /// The words taken of each stretch, then of the common part; a call moves them.
    pub marks: &'a mut [u64],
    /// The caller's number.
    pub caller: u64,
}

/// What a made job is asked to have.
#[derive(Debug, Clone, Copy, Default, PartialEq, Eq)]
#[allow(missing_docs)]
pub struct Asked {
    pub qubits: u64,
    pub outcomes: u64,
    pub shots: u64,
    /// Lines after the header, elements of noise lines not counted.
    pub lines: u64,
    pub seed: u64,
}

/// Every call, on lists of any length.
pub trait Calls {
    /// The tests of a job.
    fn check(&self, job: &[u8]) -> Answer;

    /// Run a job to its end; frames, deltas and their totals are in `rows`.
    fn run(&self, job: &[u8], draws: Draws<'_>, noiseless: &[u64], rows: Rows<'_>) -> Answer;

    /// Write the settled job at the front of `out`; the figure is its bytes.
    fn settle(&self, job: &[u8], draws: Draws<'_>, noiseless: &[u64], out: &mut [u8]) -> Answer;

    /// Run a job by a caller with a share of the main list.
    fn run_shared(&self, job: &[u8], draws: Draws<'_>, noiseless: &[u64], rows: Rows<'_>, share: Share<'_>) -> Answer;

    /// Write the job settled by a caller with a share at the front of `out`; the figure is its bytes.
    fn settle_shared(
        &self,
        job: &[u8],
        draws: Draws<'_>,
        noiseless: &[u64],
        share: Share<'_>,
        out: &mut [u8],
    ) -> Answer;

    /// Walk a noise-free job back; the figure is the count.
    fn walk(&self, job: &[u8], shot: u64, set: &[u64]) -> Answer;

    /// Write the annotated job at the front of `out`; the figure is its bytes. `p` is a binary64's bits.
    fn annotate(&self, job: &[u8], p: u64, out: &mut [u8]) -> Answer;

    /// Count locations; the figure is their number.
    fn locations(&self, job: &[u8]) -> Answer;

    /// Check that the sizes of each correlation agree.
    fn correlation(&self, job: &[u8]) -> Answer;

    /// Write the table of single faults at the front of `out`; the figure is its bytes. `groups` has each group's length, then its ids.
    fn fault_table(&self, job: &[u8], groups: &[u64], out: &mut [u8]) -> Answer;

    /// Write deltas, a row for each outcome, as rows by shot at the front of `rows`.
    fn by_shot(&self, outcomes: u64, shots: u64, deltas: &[u64], rows: &mut [u64]) -> Answer;

    /// Write rows by shot as deltas at the front of `deltas`.
    fn by_outcome(&self, outcomes: u64, shots: u64, rows: &[u64], deltas: &mut [u64]) -> Answer;

    /// Write the words of a seed over a list.
    fn fill(&self, seed: u64, words: &mut [u64]) -> Answer;

    /// Write the made job at the front of `out`; the figure is its bytes.
    fn make(&self, asked: Asked, out: &mut [u8]) -> Answer;

    /// What the printing program writes for a standard input; none where the program isn't at hand.
    fn print(&self, input: &[u8]) -> Option<Vec<u8>>;
}
