//! Callers with shares of the main list (note 14): the words that are available to one of them, and the account of what is taken.

use crate::calls::Share;
use crate::job::{MAX_CALLERS, Refusal, usize_of};

/// 13 where the marks are too few: one for each caller, and one for the common part.
///
/// # Errors
///
/// The refusal.
pub fn need_marks(share: &Share<'_>) -> Result<(), Refusal> {
    if share.marks.len() <= share.shares.len() { Err(Refusal::of_call(13)) } else { Ok(()) }
}

/// The words of the main list that are left for a caller, in the order in which they are read.
#[derive(Debug)]
pub struct Available {
    /// The rest of the caller's own stretch, then of the common part.
    pub words: Vec<u64>,
    /// How many of them are of the own stretch.
    pub own: usize,
}

impl Available {
    /// Those of a share, after 25 and 26.
    ///
    /// # Errors
    ///
    /// The refusal.
    pub fn of(main: &[u64], share: &Share<'_>) -> Result<Self, Refusal> {
        let callers = share.shares.len();
        let total: u128 = share.shares.iter().map(|&length| u128::from(length)).sum();
        let fits = (1..=MAX_CALLERS).contains(&callers) && total <= main.len() as u128;
        if !fits || share.shares.iter().zip(&*share.marks).any(|(length, mark)| mark > length) {
            return Err(Refusal::of_call(25));
        }
        let mut rest = main;
        let mut stretches = Vec::new();
        for &length in share.shares {
            let (stretch, behind) = rest.split_at(usize_of(length));
            stretches.push(stretch);
            rest = behind;
        }
        let common = rest;
        if share.marks[callers] > common.len() as u64 {
            return Err(Refusal::of_call(25));
        }
        let caller = usize::try_from(share.caller).ok().filter(|caller| *caller < callers);
        let caller = caller.ok_or(Refusal::of_call(26))?;
        let own = &stretches[caller][usize_of(share.marks[caller])..];
        let words = [own, &common[usize_of(share.marks[callers])..]].concat();
        Ok(Self { words, own: own.len() })
    }

    /// Mark so many words as taken, those of the own stretch first.
    pub fn take(&self, share: &mut Share<'_>, taken: usize) {
        let own = taken.min(self.own);
        share.marks[usize_of(share.caller)] += own as u64;
        share.marks[share.shares.len()] += (taken - own) as u64;
    }
}
