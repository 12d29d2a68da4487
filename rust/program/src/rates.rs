//! How often outcomes are flipped: totals, and what they say of rates.

use kundatrezo::{Frames, wilson};

/// What the help says of the file of totals.
pub const DETAILS: &str = "\
A file of totals has a line for each recorded outcome: 'id=', 'total=' with the number of shots in which it
is flipped, 'rate=' with their part of all shots, and 'low=' and 'high=', Wilson's interval at 95 percent:
where shots draw words of their own, it holds the true rate in 95 of 100 runs.";

/// A line for each of the first outcomes. Both numbers of a rate are exact up to 2^53.
#[allow(clippy::cast_precision_loss)]
pub fn text(frames: &Frames, outcomes: usize) -> String {
    let shots = frames.job().shots as u64;
    let line = |(id, &total): (usize, &u64)| {
        let (rate, [low, high]) = (total as f64 / shots as f64, wilson(total, shots));
        format!("id={id} total={total} rate={rate:.6} low={low:.6} high={high:.6}\n")
    };
    frames.totals().iter().take(outcomes).enumerate().map(line).collect()
}
