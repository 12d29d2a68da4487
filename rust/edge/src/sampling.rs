//! Samples: a sampler with the memory of one thread.

use crate::lists::{Argument, Failure, Given};
use kundatrezo::{Counts, Frames, NamedShots, Sampler, SamplerError, Workspace, by_shot};
use std::ops::Range;

/// A sampler, the memory in which it runs blocks, and the sets whose parities are counted.
#[derive(Debug)]
pub struct Sampling {
    job: Vec<u8>,
    sampler: Sampler,
    workspace: Workspace,
    sets: Vec<Vec<u64>>,
    parities: Vec<u64>,
    part: (u64, u64),
}

/// A pointer to a sampling, which `kundatrezo_edge_sampling_open` makes.
#[repr(transparent)]
#[derive(Debug, Clone, Copy)]
pub struct Handle(*mut Sampling);

#[cfg(test)]
impl Handle {
    /// The handle that `kundatrezo_edge_sampling_open` gave.
    pub fn of_count(count: u64) -> Self {
        Self(count as *mut Sampling)
    }
}

impl Argument for Handle {
    type Value = &'static mut Sampling;

    unsafe fn value(self) -> Self::Value {
        // SAFETY: the caller's promise
        unsafe { &mut *self.0 }
    }
}

/// How the Python package names what its `sample` takes.
const NAMED: [&str; 2] = ["named='whole'", "named='block'"];

/// What is sampled.
pub struct Plan<'a> {
    pub job: &'a [u8],
    pub shots: u64,
    pub seed: u64,
    pub named: &'a [u8],
    /// Noiseless bits of the job's own shots, if they are given.
    pub noiseless: Option<&'a [u64]>,
    pub sets: Vec<Vec<u64>>,
    /// A part, from 1, of how many.
    pub part: (u64, u64),
}

impl Sampling {
    /// A sampling of a plan.
    pub fn open(plan: Plan<'_>) -> Result<Self, Failure> {
        let named = std::str::from_utf8(plan.named).ok();
        let sampler = match named.and_then(NamedShots::from_name) {
            Some(named) => {
                Sampler::with_named_shots(plan.job, plan.shots, plan.seed, named).map_err(SamplerError::from)
            }
            None if !plan.named.is_empty() => return Err(Failure::fault("named is to be 'whole' or 'block'")),
            None => Sampler::new(plan.job, plan.shots, plan.seed),
        };
        let sampler = sampler.map_err(|error| match error {
            SamplerError::Refused(refusal) => Failure::refused(&refusal, plan.job, None),
            SamplerError::NamedShot { line } => {
                Failure::fault(kundatrezo::named_shot_message(line, NAMED[0], NAMED[1]))
            }
            other => Failure::fault(other),
        })?;
        let sampler = match plan.noiseless {
            Some(rows) => sampler.with_noiseless(rows).map_err(Failure::fault)?,
            None => sampler,
        };
        let Plan { sets, part, .. } = plan;
        Ok(Self { job: plan.job.to_vec(), sampler, workspace: Workspace::new(), sets, parities: Vec::new(), part })
    }

    /// A pointer for the caller, as a number.
    pub fn into_handle(self) -> u64 {
        Box::into_raw(Box::new(self)) as u64
    }

    /// Drop what [`into_handle`](Self::into_handle) made.
    ///
    /// # Safety
    ///
    /// This is the sampling of a handle, which is not used any more.
    pub unsafe fn close(&'static mut self) {
        // SAFETY: the caller's promise
        drop(unsafe { Box::from_raw(self) });
    }

    /// The first block of the part, the one after its last, the shots of the whole, the bits of a row, and the length of the sums.
    pub fn numbers(&self) -> [u64; 5] {
        let blocks = self.sampler.part(self.part.0.saturating_sub(1), self.part.1);
        let width = if self.sets.is_empty() { self.sampler.job().outcomes } else { self.sets.len() };
        [blocks.start, blocks.end, self.sampler.shots(), width as u64, self.sums() as u64]
    }

    /// How many sums there are: the shots, those that a function counts, the totals of outcomes, those of sets.
    fn sums(&self) -> usize {
        2 + self.sampler.job().outcomes + self.sets.len()
    }

    fn require_sums(&self, sums: usize) -> Result<(), Failure> {
        match self.sums() {
            own if own == sums => Ok(()),
            own => Err(Failure::fault(format!("{sums} sums, and this sampling has {own}"))),
        }
    }

    /// Run blocks and add to the sums; write the shots of the last as rows by shot if there is room for rows.
    pub fn run(
        &mut self,
        blocks: Range<u64>,
        packed: Option<&[u8]>,
        sums: &mut [u64],
        rows: &mut [u64],
    ) -> Result<Given, Failure> {
        self.require_sums(sums.len())?;
        let mut counts = self.sampler.zero_counts(&self.sets);
        let mut rest = packed;
        let row_bytes = self.sampler.job().outcomes.div_ceil(8) as u64;
        for block in blocks {
            let Range { start, end } = self.sampler.shots_of(block);
            let bytes = usize::try_from((end - start) * row_bytes).unwrap_or(usize::MAX);
            let given = rest.map(|rest| rest.split_at(bytes.min(rest.len())));
            rest = given.map(|(_, rest)| rest);
            let ran = match given {
                None => self.sampler.run(block, &mut self.workspace),
                Some((bytes, _)) => self.sampler.run_packed(block, bytes, &mut self.workspace),
            };
            let hint = |refusal: &_| self.sampler.hint(refusal);
            let frames = ran.map_err(|refusal| Failure::refused(&refusal, &self.job, hint(&refusal)))?;
            counts.add(frames, &self.sets).map_err(|refusal| Failure::refused(&refusal, &self.job, hint(&refusal)))?;
        }
        if !rows.is_empty() {
            self.write_rows(rows)?;
        }
        let own = [counts.shots, 0].into_iter().chain(counts.totals).chain(counts.sets);
        sums.iter_mut().zip(own).for_each(|(sum, own)| *sum += own);
        Ok(Given::default())
    }

    /// The shots of the last block: a bit for each set, or for each outcome if there are no sets.
    fn write_rows(&mut self, rows: &mut [u64]) -> Result<(), Failure> {
        let frames: &Frames = self.workspace.frames();
        let (count, deltas) = if self.sets.is_empty() {
            (frames.job().outcomes, frames.deltas())
        } else {
            frames
                .parities(&self.sets, &mut self.parities)
                .map_err(|refusal| Failure::refused(&refusal, &self.job, None))?;
            (self.sets.len(), self.parities.as_slice())
        };
        by_shot(count as u64, frames.job().shots as u64, deltas, rows)
            .map_err(|refusal| Failure::refused(&refusal, b"", None))
    }

    /// The text of counts that were added up.
    pub fn text(&self, sums: &[u64], is_counted: bool, is_per_shot: bool) -> Result<String, Failure> {
        self.require_sums(sums.len())?;
        let (totals, sets) = sums[2..].split_at(self.sampler.job().outcomes);
        let counted = is_counted.then_some(sums[1]);
        let counts = Counts { shots: sums[0], totals: totals.to_vec(), sets: sets.to_vec(), counted };
        let saved = self.sampler.saved(counts, &self.sets, self.part).map_err(Failure::fault)?;
        Ok(if is_per_shot { saved.with_noiseless_per_shot().text() } else { saved.text() })
    }
}
