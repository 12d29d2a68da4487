//! The C interface; include/kundatrezo.h is its other side, and says what a caller owes. What leaves this file is safe: the crate's unsafe code is here
//! and in `float_state.rs`.
//!
//! A list passes as a pointer to its first element and its length in elements, and an answer comes back as a struct by value. The library asks that
//! no pointer is null, also of an empty list, that it is aligned, that the memory is initialised, that no list which it writes overlaps another list of
//! the call or is used by another thread: slices and their borrows are all of this. It asks for the default floating-point state, which
//! `in_default_state` gives, and for some of the stack, whose pages it touches one after the other, so that where there are too few the process ends at
//! the guard page. It asks nothing of what lists hold or of how long they are, keeps no pointer and no state, and never unwinds.

#![allow(unsafe_code)]

use crate::float_state::in_default_state;
use crate::{Draws, Rows};

/// `struct kundatrezo_answer`.
#[repr(C)]
pub struct Answer {
    pub number: u64,
    pub line: u64,
}

/// `struct kundatrezo_text_answer`.
#[repr(C)]
pub struct TextAnswer {
    pub answer: Answer,
    pub figure: u64,
}

/// `struct kundatrezo_count_answer`.
#[repr(C)]
pub struct Count {
    pub answer: Answer,
    pub count: u64,
}

/// `struct kundatrezo_examination`.
#[repr(C)]
pub struct Examination {
    pub answer: Answer,
    pub qubits: u64,
    pub outcomes: u64,
    pub shots: u64,
    pub recorded: u64,
    pub lines: u64,
}

/// `struct kundatrezo_line_part`.
#[repr(C)]
pub struct LinePart {
    pub start: usize,
    pub len: usize,
}

unsafe extern "C" {
    fn kundatrezo_check(job: *const u8, job_len: usize) -> Answer;

    fn kundatrezo_examine(job: *const u8, job_len: usize) -> Examination;

    fn kundatrezo_run(
        job: *const u8,
        job_len: usize,
        x: *mut u64,
        x_len: usize,
        z: *mut u64,
        z_len: usize,
        deltas: *mut u64,
        deltas_len: usize,
        noiseless: *const u64,
        noiseless_len: usize,
        main_words: *const u64,
        main_len: usize,
        second: *const u64,
        second_len: usize,
        base: u64,
    ) -> Answer;

    fn kundatrezo_run_totals(
        job: *const u8,
        job_len: usize,
        x: *mut u64,
        x_len: usize,
        z: *mut u64,
        z_len: usize,
        deltas: *mut u64,
        deltas_len: usize,
        totals: *mut u64,
        totals_len: usize,
        noiseless: *const u64,
        noiseless_len: usize,
        main_words: *const u64,
        main_len: usize,
        second: *const u64,
        second_len: usize,
        base: u64,
    ) -> Answer;

    fn kundatrezo_settle(
        job: *const u8,
        job_len: usize,
        noiseless: *const u64,
        noiseless_len: usize,
        main_words: *const u64,
        main_len: usize,
        second: *const u64,
        second_len: usize,
        base: u64,
        out: *mut u8,
        out_len: usize,
    ) -> TextAnswer;

    fn kundatrezo_run_shared(
        job: *const u8,
        job_len: usize,
        x: *mut u64,
        x_len: usize,
        z: *mut u64,
        z_len: usize,
        deltas: *mut u64,
        deltas_len: usize,
        totals: *mut u64,
        totals_len: usize,
        noiseless: *const u64,
        noiseless_len: usize,
        main_words: *const u64,
        main_len: usize,
        second: *const u64,
        second_len: usize,
        base: u64,
        shares: *const u64,
        shares_len: usize,
        marks: *mut u64,
        marks_len: usize,
        caller: u64,
    ) -> Answer;

    fn kundatrezo_settle_shared(
        job: *const u8,
        job_len: usize,
        noiseless: *const u64,
        noiseless_len: usize,
        main_words: *const u64,
        main_len: usize,
        second: *const u64,
        second_len: usize,
        base: u64,
        shares: *const u64,
        shares_len: usize,
        marks: *mut u64,
        marks_len: usize,
        caller: u64,
        out: *mut u8,
        out_len: usize,
    ) -> TextAnswer;

    fn kundatrezo_walk(job: *const u8, job_len: usize, shot: u64, set: *const u64, set_len: usize) -> Count;

    fn kundatrezo_annotate(job: *const u8, job_len: usize, p_bits: u64, out: *mut u8, out_len: usize) -> TextAnswer;

    fn kundatrezo_locations(job: *const u8, job_len: usize) -> Count;

    fn kundatrezo_fault_table(
        job: *const u8,
        job_len: usize,
        groups: *const u64,
        groups_len: usize,
        out: *mut u8,
        out_len: usize,
    ) -> TextAnswer;

    fn kundatrezo_correlation(job: *const u8, job_len: usize) -> Answer;

    fn kundatrezo_by_shot(
        outcomes: u64,
        shots: u64,
        deltas: *const u64,
        deltas_len: usize,
        out: *mut u64,
        out_len: usize,
    ) -> Answer;

    fn kundatrezo_by_outcome(
        outcomes: u64,
        shots: u64,
        rows: *const u64,
        rows_len: usize,
        out: *mut u64,
        out_len: usize,
    ) -> Answer;

    fn kundatrezo_fill(seed: u64, words: *mut u64, words_len: usize) -> Answer;

    fn kundatrezo_make(
        qubits: u64,
        outcomes: u64,
        shots: u64,
        lines: u64,
        seed: u64,
        out: *mut u8,
        out_len: usize,
    ) -> TextAnswer;

    fn kundatrezo_line(job: *const u8, job_len: usize, number: u64) -> LinePart;
}

// SAFETY, for every call below: each pointer and length are those of a slice that lives through the call, so the pointer is not null and the memory is
// initialised and as long as is said; what the call writes is borrowed mutably, so it overlaps no other slice. The declarations above are those of
// include/kundatrezo.h.

pub fn check(job: &[u8]) -> Answer {
    in_default_state(|| unsafe { kundatrezo_check(job.as_ptr(), job.len()) })
}

pub fn examine(job: &[u8]) -> Examination {
    in_default_state(|| unsafe { kundatrezo_examine(job.as_ptr(), job.len()) })
}

pub fn run(job: &[u8], rows: Rows<'_>, noiseless: &[u64], draws: Draws<'_>) -> Answer {
    let Rows { x, z, deltas, totals } = rows;
    in_default_state(|| match totals {
        None => unsafe {
            kundatrezo_run(
                job.as_ptr(),
                job.len(),
                x.as_mut_ptr(),
                x.len(),
                z.as_mut_ptr(),
                z.len(),
                deltas.as_mut_ptr(),
                deltas.len(),
                noiseless.as_ptr(),
                noiseless.len(),
                draws.main.as_ptr(),
                draws.main.len(),
                draws.second.as_ptr(),
                draws.second.len(),
                draws.base,
            )
        },
        Some(totals) => unsafe {
            kundatrezo_run_totals(
                job.as_ptr(),
                job.len(),
                x.as_mut_ptr(),
                x.len(),
                z.as_mut_ptr(),
                z.len(),
                deltas.as_mut_ptr(),
                deltas.len(),
                totals.as_mut_ptr(),
                totals.len(),
                noiseless.as_ptr(),
                noiseless.len(),
                draws.main.as_ptr(),
                draws.main.len(),
                draws.second.as_ptr(),
                draws.second.len(),
                draws.base,
            )
        },
    })
}

pub fn settle(job: &[u8], noiseless: &[u64], draws: Draws<'_>, out: &mut [u8]) -> TextAnswer {
    in_default_state(|| unsafe {
        kundatrezo_settle(
            job.as_ptr(),
            job.len(),
            noiseless.as_ptr(),
            noiseless.len(),
            draws.main.as_ptr(),
            draws.main.len(),
            draws.second.as_ptr(),
            draws.second.len(),
            draws.base,
            out.as_mut_ptr(),
            out.len(),
        )
    })
}

/// What a caller with a share is lent to draw from.
pub struct Shared<'a> {
    pub main: &'a [u64],
    pub second: &'a [u64],
    pub base: u64,
    pub shares: &'a [u64],
    pub marks: &'a mut [u64],
    pub caller: u64,
}

pub fn run_shared(job: &[u8], rows: Rows<'_>, noiseless: &[u64], draws: &mut Shared<'_>) -> Answer {
    let Rows { x, z, deltas, totals } = rows;
    // the call has no form without totals: those of any header fit here
    let mut own = [0; crate::MAX_OUTCOMES];
    let totals = totals.unwrap_or(&mut own);
    in_default_state(|| unsafe {
        kundatrezo_run_shared(
            job.as_ptr(),
            job.len(),
            x.as_mut_ptr(),
            x.len(),
            z.as_mut_ptr(),
            z.len(),
            deltas.as_mut_ptr(),
            deltas.len(),
            totals.as_mut_ptr(),
            totals.len(),
            noiseless.as_ptr(),
            noiseless.len(),
            draws.main.as_ptr(),
            draws.main.len(),
            draws.second.as_ptr(),
            draws.second.len(),
            draws.base,
            draws.shares.as_ptr(),
            draws.shares.len(),
            draws.marks.as_mut_ptr(),
            draws.marks.len(),
            draws.caller,
        )
    })
}

pub fn settle_shared(job: &[u8], noiseless: &[u64], draws: &mut Shared<'_>, out: &mut [u8]) -> TextAnswer {
    in_default_state(|| unsafe {
        kundatrezo_settle_shared(
            job.as_ptr(),
            job.len(),
            noiseless.as_ptr(),
            noiseless.len(),
            draws.main.as_ptr(),
            draws.main.len(),
            draws.second.as_ptr(),
            draws.second.len(),
            draws.base,
            draws.shares.as_ptr(),
            draws.shares.len(),
            draws.marks.as_mut_ptr(),
            draws.marks.len(),
            draws.caller,
            out.as_mut_ptr(),
            out.len(),
        )
    })
}

pub fn walk(job: &[u8], shot: u64, set: &[u64]) -> Count {
    in_default_state(|| unsafe { kundatrezo_walk(job.as_ptr(), job.len(), shot, set.as_ptr(), set.len()) })
}

pub fn annotate(job: &[u8], p_bits: u64, out: &mut [u8]) -> TextAnswer {
    in_default_state(|| unsafe { kundatrezo_annotate(job.as_ptr(), job.len(), p_bits, out.as_mut_ptr(), out.len()) })
}

pub fn locations(job: &[u8]) -> Count {
    in_default_state(|| unsafe { kundatrezo_locations(job.as_ptr(), job.len()) })
}

pub fn fault_table(job: &[u8], groups: &[u64], out: &mut [u8]) -> TextAnswer {
    in_default_state(|| unsafe {
        kundatrezo_fault_table(job.as_ptr(), job.len(), groups.as_ptr(), groups.len(), out.as_mut_ptr(), out.len())
    })
}

pub fn line(job: &[u8], number: u64) -> LinePart {
    in_default_state(|| unsafe { kundatrezo_line(job.as_ptr(), job.len(), number) })
}

pub fn by_shot(outcomes: u64, shots: u64, deltas: &[u64], out: &mut [u64]) -> Answer {
    in_default_state(|| unsafe {
        kundatrezo_by_shot(outcomes, shots, deltas.as_ptr(), deltas.len(), out.as_mut_ptr(), out.len())
    })
}

pub fn by_outcome(outcomes: u64, shots: u64, rows: &[u64], out: &mut [u64]) -> Answer {
    in_default_state(|| unsafe {
        kundatrezo_by_outcome(outcomes, shots, rows.as_ptr(), rows.len(), out.as_mut_ptr(), out.len())
    })
}

pub fn fill(seed: u64, words: &mut [u64]) -> Answer {
    in_default_state(|| unsafe { kundatrezo_fill(seed, words.as_mut_ptr(), words.len()) })
}

pub fn make(qubits: u64, outcomes: u64, shots: u64, lines: u64, seed: u64, out: &mut [u8]) -> TextAnswer {
    in_default_state(|| unsafe { kundatrezo_make(qubits, outcomes, shots, lines, seed, out.as_mut_ptr(), out.len()) })
}

pub fn correlation(job: &[u8]) -> Answer {
    in_default_state(|| unsafe { kundatrezo_correlation(job.as_ptr(), job.len()) })
}

#[cfg(test)]
mod tests {
    use super::*;
    use crate::float_state::tests::{DAZ, FTZ, UP};
    use crate::float_state::{DEFAULT, in_state};
    use crate::{Frames, Number};

    /// One noise line, that of weights with its element lines.
    fn job(noise: &str) -> Vec<u8> {
        format!("op=job qubits=1 outcomes=0 shots=1\nop=n p={noise}\n").into_bytes()
    }

    /// The least p above zero: a word of 0 faults.
    fn least_p() -> Vec<u8> {
        job("0000000000000001 corr=- cond=- parity=0 d=1 x=0 z=- size=1")
    }

    /// A lone weight of 2^-1074.
    fn least_weight() -> Vec<u8> {
        job("3ff0000000000000 corr=- cond=- parity=0 d=4 n=1 size=1\nw=0000000000000001 x=0 z=-")
    }

    /// The largest number and 1, whose sum is the largest number but for rounding up.
    fn large_total() -> Vec<u8> {
        job(
            "3ff0000000000000 corr=- cond=- parity=0 d=4 n=2 size=2\nw=7fefffffffffffff x=0 z=-\nw=3ff0000000000000 x=- z=0",
        )
    }

    #[test]
    fn answers_are_those_of_the_default_state() {
        let (p, weight, total) = (least_p(), least_weight(), large_total());
        // all exceptions unmasked, too: the first inexact result would end the process
        for state in [DEFAULT, DEFAULT | DAZ | FTZ, DEFAULT | UP, DEFAULT | DAZ | FTZ | UP, DEFAULT | 0x2000, 0x6000, 0]
        {
            let draws = Draws::new(&[0, u64::MAX]);
            let (fault, accepted, chosen) = in_state(state, || {
                let fault = Frames::from_run(&p, &[], draws);
                let accepted = [&weight, &total].map(|job| crate::check(job));
                let chosen = [&weight, &total].map(|job| crate::settled(job, &[], draws));
                (fault, accepted, chosen)
            });
            assert_eq!(fault.map(|frames| frames.x().to_vec()), Ok(vec![1]), "{state:x}");
            assert_eq!(accepted, [Ok(()); 2], "{state:x}");
            // weights of nearly 1 and nearly 0: a u just below 1 is within the first running sum, which rounds to 1
            assert!(chosen.into_iter().all(|text| text.expect("it settles").ends_with(b"op=i shot=0 x=0 z=-\n")));
        }
    }

    /// Without that, answers are wrong in these states; else the test above would show nothing.
    #[test]
    fn the_library_needs_the_default_state() {
        let number = |state: u32, job: &[u8]| {
            // SAFETY: as for every call above; another floating-point state changes answers and nothing else.
            in_state(state, || unsafe { kundatrezo_check(job.as_ptr(), job.len()) }).number
        };
        let refused = Number::ELEMENTS.get();
        assert_eq!((number(DEFAULT, &least_weight()), number(DEFAULT | DAZ, &least_weight())), (0, refused));
        assert_eq!((number(DEFAULT, &large_total()), number(DEFAULT | UP, &large_total())), (0, refused));
    }
}
