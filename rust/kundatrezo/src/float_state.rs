//! The floating-point state of a call.
//!
//! The library computes with binary64 as IEEE 754 has it: rounded to nearest, subnormals kept, exceptions masked. A process starts in this state, but a
//! host may have changed it for its thread: one that is built with -ffast-math sets subnormals to zero, and a p of 2^-1074 would never fault.

#![allow(unsafe_code)]

#[cfg(not(target_arch = "x86_64"))]
compile_error!("libkundatrezo.a is for x86-64 processors");

use std::arch::asm;

/// The control and status register MXCSR as a process starts: its control bits as above, no flag raised.
pub const DEFAULT: u32 = 0x1f80;

/// Make a call in the default state, and leave the state as it was, raised flags included.
pub fn in_default_state<T>(call: impl FnOnce() -> T) -> T {
    in_state(DEFAULT, call)
}

/// Make a call in a state of MXCSR.
///
/// One block of assembly sets the register, makes the call and restores it, so that the state changes at no place that the compiler does not know of:
/// the block as a whole leaves it.
pub fn in_state<T, F: FnOnce() -> T>(state: u32, call: F) -> T {
    let mut task = Task { call: Some(call), result: None };
    let mut before = 0_u32;
    // SAFETY: `run_task` is called by the C ABI with the one argument that it takes, a pointer to a task that lives through the block. The block may use
    // the stack, which is aligned for a call; r12 and r13 are kept by the callee, and what it does not keep is named as lost. MXCSR is restored.
    unsafe {
        asm!(
            "stmxcsr [r12]",
            "ldmxcsr [r13]",
            "call {run_task}",
            "ldmxcsr [r12]",
            run_task = sym run_task::<T, F>,
            in("rdi") &raw mut task,
            in("r12") &raw mut before,
            in("r13") &raw const state,
            clobber_abi("C"),
        );
    }
    task.result.expect("the task is done")
}

/// A call to make, and its result.
struct Task<T, F> {
    call: Option<F>,
    result: Option<T>,
}

/// Make the call of a task.
///
/// # Safety
///
/// The pointer is that of a task which nothing else uses.
unsafe extern "C" fn run_task<T, F: FnOnce() -> T>(task: *mut Task<T, F>) {
    // SAFETY: as above.
    let task = unsafe { &mut *task };
    task.result = task.call.take().map(|call| call());
}

#[cfg(test)]
pub mod tests {
    use super::*;

    /// Subnormal operands taken as zero; subnormal results set to zero; rounding up.
    pub const DAZ: u32 = 0x0040;
    pub const FTZ: u32 = 0x8000;
    pub const UP: u32 = 0x4000;

    fn state() -> u32 {
        let mut state = 0_u32;
        // SAFETY: the register is stored in memory that is lent for it.
        unsafe { asm!("stmxcsr [{}]", in(reg) &raw mut state, options(nostack, preserves_flags)) };
        state
    }

    #[test]
    fn a_call_has_its_state_and_leaves_the_callers() {
        let outside = state();
        let others = DEFAULT | DAZ | FTZ | UP;
        let seen = in_state(others, || (state(), in_default_state(state), state()));
        assert_eq!(seen, (others, DEFAULT, others));
        assert_eq!(state(), outside);
    }
}
