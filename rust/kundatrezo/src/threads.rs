//! Blocks of a sample on several threads: for the sampler and the program, no part of the crate's interface.

use std::ops::Range;
use std::sync::atomic::{AtomicBool, AtomicU64, Ordering};
use std::thread;

/// Call `work` once for each block, on up to `threads` threads. Each thread starts with the state that `start` returns and takes the next free block
/// until no block is left. Returns the final state of each thread. After an error no thread takes another block.
///
/// # Errors
///
/// The error of the first thread that has one.
///
/// # Panics
///
/// Panics if `work` does.
pub fn for_each_block<S: Send, E: Send>(
    blocks: Range<u64>,
    threads: usize,
    start: impl Fn() -> S + Sync,
    work: impl Fn(&mut S, u64) -> Result<(), E> + Sync,
) -> Result<Vec<S>, E> {
    let next = AtomicU64::new(blocks.start);
    let failed = AtomicBool::new(false);
    let run_thread = || {
        let mut state = start();
        while !failed.load(Ordering::Relaxed) {
            let block = next.fetch_add(1, Ordering::Relaxed);
            if block >= blocks.end {
                break;
            }
            work(&mut state, block).inspect_err(|_| failed.store(true, Ordering::Relaxed))?;
        }
        Ok(state)
    };
    let count = usize::try_from(blocks.end.saturating_sub(blocks.start)).unwrap_or(usize::MAX);
    thread::scope(|scope| {
        // no more than the system has
        let spawned = |_| thread::Builder::new().spawn_scoped(scope, run_thread).ok();
        let others: Vec<_> = (1..threads.min(count)).map_while(spawned).collect();
        let own = run_thread();
        let joined = others.into_iter().map(|thread| thread.join().expect("a thread ends by itself"));
        [own].into_iter().chain(joined).collect()
    })
}

#[cfg(test)]
mod tests {
    use super::*;

    #[test]
    fn threads_stop_after_a_failure() {
        let failed = for_each_block(
            0..1_000_000_000,
            3,
            || 0,
            |done, block| {
                *done += 1;
                if block == 100 { Err(block) } else { Ok(()) }
            },
        );
        assert_eq!(failed, Err(100));
        let all = for_each_block(
            5..25,
            4,
            || 0,
            |sum, block| {
                *sum += block;
                Ok::<(), ()>(())
            },
        );
        assert_eq!(all.map(|sums| sums.iter().sum::<u64>()), Ok((5..25).sum()));
    }
}
