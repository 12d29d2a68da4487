//! How far a sample is, for who waits at a terminal.

use std::io::{self, IsTerminal, Write};
use std::sync::Mutex;
use std::sync::atomic::{AtomicU64, Ordering};
use std::time::{Duration, Instant};

/// How often the line is written anew.
const PAUSE: Duration = Duration::from_millis(250);

/// The progress of a sample. If standard error is a terminal, a line there shows the shots done, the rate, and the time left.
pub struct Progress {
    done: AtomicU64,
    shots: u64,
    start: Instant,
    /// When the line was last written; `None` if nobody reads it.
    last: Option<Mutex<Option<Instant>>>,
}

impl Progress {
    /// The progress of this number of shots. If rows are printed on a terminal, too, the line would stand between them.
    pub fn new(shots: u64, prints: bool) -> Self {
        let is_read = io::stderr().is_terminal() && !(prints && io::stdout().is_terminal());
        Self { done: AtomicU64::new(0), shots, start: Instant::now(), last: is_read.then(Mutex::default) }
    }

    /// Count further shots as done.
    pub fn add(&self, shots: u64) {
        let done = self.done.fetch_add(shots, Ordering::Relaxed) + shots;
        if let Some(Ok(mut last)) = self.last.as_ref().map(Mutex::try_lock)
            && last.is_none_or(|last| last.elapsed() >= PAUSE)
        {
            *last = Some(Instant::now());
            // a line that can't be written is no fault of the sample
            _ = write!(io::stderr(), "\r{}\x1b[K", line(done, self.shots, self.start.elapsed()));
        }
    }

    /// Take the line away.
    pub fn end(&self) {
        if self.last.is_some() {
            _ = write!(io::stderr(), "\r\x1b[K");
        }
    }
}

#[allow(clippy::cast_precision_loss, clippy::cast_possible_truncation, clippy::cast_sign_loss)]
fn line(done: u64, shots: u64, elapsed: Duration) -> String {
    let speed = done as f64 / elapsed.as_secs_f64().max(1e-9);
    let left = (shots.saturating_sub(done) as f64 / speed.max(1e-9)).ceil() as u64;
    let left = match left {
        0..120 => format!("{left} s"),
        120..7200 => format!("{} min", left.div_ceil(60)),
        _ => format!("{} h", left.div_ceil(3600)),
    };
    format!("{done} of {shots} shots, {speed:.0} a second, {left} left")
}

#[cfg(test)]
mod tests {
    use super::line;
    use std::time::Duration;

    #[test]
    fn the_line_says_how_far_and_how_long() {
        let after = |done, seconds| line(done, 1_000_000, Duration::from_secs(seconds));
        assert_eq!(after(250_000, 10), "250000 of 1000000 shots, 25000 a second, 30 s left");
        assert_eq!(after(100_000, 100), "100000 of 1000000 shots, 1000 a second, 15 min left");
        assert_eq!(after(1_000, 100), "1000 of 1000000 shots, 10 a second, 28 h left");
        assert_eq!(after(1_000_000, 4), "1000000 of 1000000 shots, 250000 a second, 0 s left");
    }
}
