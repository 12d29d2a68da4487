//! Blocks of rows that threads make in any order, written in their own order.

use crate::Failure;
use crate::files::Output;
use std::sync::{Condvar, Mutex, MutexGuard, PoisonError};

/// An output to which threads write blocks in order. Each thread waits with its block until all blocks before it are written.
pub struct OrderedOutput {
    state: Mutex<State>,
    advanced: Condvar,
}

struct State {
    next: u64,
    stopped: bool,
    output: Output,
}

impl OrderedOutput {
    pub fn new(first: u64, output: Output) -> Self {
        Self { state: Mutex::new(State { next: first, stopped: false, output }), advanced: Condvar::new() }
    }

    fn lock(&self) -> MutexGuard<'_, State> {
        self.state.lock().unwrap_or_else(PoisonError::into_inner)
    }

    /// The next block to write: all blocks before it are written.
    pub fn next(&self) -> u64 {
        self.lock().next
    }

    /// Write the bytes of a block after all blocks before it. Nothing is written after [`stop`](Self::stop).
    pub fn write(&self, block: u64, bytes: &[u8]) -> Result<(), Failure> {
        let waits = |state: &mut State| state.next != block && !state.stopped;
        let mut state = self.advanced.wait_while(self.lock(), waits).unwrap_or_else(PoisonError::into_inner);
        if !state.stopped {
            state.output.write(bytes)?;
            state.next += 1;
        }
        self.advanced.notify_all();
        Ok(())
    }

    /// Stop writing and wake the threads that wait: a block before theirs has failed.
    pub fn stop(&self) {
        self.lock().stopped = true;
        self.advanced.notify_all();
    }

    pub fn into_output(self) -> Output {
        self.state.into_inner().unwrap_or_else(PoisonError::into_inner).output
    }
}
