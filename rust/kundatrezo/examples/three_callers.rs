//! Three callers run jobs from one list of words, each on a thread of its own, and no word is used twice.
//!
//! usage: cargo run --release --example three_callers
//!
//! A bench that is promised its words, a panel that now and then looks at a rate, and a scan that takes what is left: bench and panel have a stretch of
//! their own, and all three go on in the common part. Whatever order the threads run in, the bench, whose jobs stay within its stretch, gets the same totals.

use kundatrezo::{Frames, Refusal, SharedDraws, Xorshift};
use std::sync::Mutex;
use std::thread;

/// A flipped bit, and a measurement that may be wrong: each shot reads two words.
const JOB: &[u8] = b"op=job qubits=1 outcomes=1 shots=1000
op=n p=3f947ae147ae147b corr=- cond=- parity=0 d=1 x=0 z=- size=1
op=n p=3f847ae147ae147b corr=- cond=- parity=0 d=1 x=0 z=- size=1
op=o x=- z=0 id=0
";

const NAMES: [&str; 3] = ["bench", "panel", "scan"];
const SHARES: [u64; 3] = [8_000, 3_000, 0];
/// How many jobs each of them runs.
const JOBS: [usize; 3] = [4, 3, 5];
const WORDS: usize = 30_000;

/// The totals of each caller's jobs, and the list as they leave it.
fn run(words: &[u64]) -> Result<(Vec<Vec<u64>>, SharedDraws<'_>), Refusal> {
    let draws = Mutex::new(SharedDraws::new(words, &SHARES)?);
    let totals = |caller: usize| -> Result<Vec<u64>, Refusal> {
        let mut frames = Frames::new();
        let mut job = || {
            // the list is held while the job draws from it
            let mut draws = draws.lock().expect("no thread panics");
            frames.run(JOB, &[0; 16], draws.caller(caller))?;
            Ok(frames.totals()[0])
        };
        (0..JOBS[caller]).map(|_| job()).collect()
    };
    let totals = thread::scope(|scope| {
        let threads: Vec<_> = (0..NAMES.len()).map(|caller| scope.spawn(move || totals(caller))).collect();
        threads.into_iter().map(|thread| thread.join().expect("no thread panics")).collect::<Result<_, _>>()
    })?;
    Ok((totals, draws.into_inner().expect("no thread panics")))
}

fn main() -> Result<(), Refusal> {
    let words: Vec<u64> = Xorshift::new(2026).take(WORDS).collect();
    let (totals, draws) = run(&words)?;
    for (name, totals) in NAMES.iter().zip(totals) {
        println!("{name}: shots with a flipped outcome, of 1000 in each job: {totals:?}");
    }
    print!("{draws}");
    Ok(())
}

#[cfg(test)]
mod tests {
    use super::*;

    #[test]
    fn words_are_accounted_for() {
        let words: Vec<u64> = Xorshift::new(2026).take(WORDS).collect();
        let bench = |from: usize| -> Vec<u64> {
            let own = words[from..].chunks(2_000).take(JOBS[0]);
            let run = |part: &[u64]| Frames::from_run(JOB, &[0; 16], kundatrezo::Draws::new(part)).expect("it runs");
            own.map(|part| run(part).totals()[0]).collect()
        };
        for _ in 0..20 {
            let (totals, draws) = run(&words).expect("there are words enough");
            assert_eq!(totals[0], bench(0), "the bench has the words of its stretch, whatever the others do");
            // 12 jobs of 2,000 words
            assert_eq!(draws.marks().iter().sum::<u64>(), 24_000);
            assert_eq!(draws.marks(), [8_000, 3_000, 0, 13_000]);
        }
    }
}
