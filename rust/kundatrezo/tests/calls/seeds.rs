//! That small seeds fault as often as they should.

use kundatrezo::{Draws, Frames, Xorshift};
use std::ops::RangeInclusive;

const SEEDS: u64 = 1000;
const SHOTS: usize = 4096;
const P: f64 = 0.001;

/// The faults of one noise line over streams of words, a run for each: those in shot 0, and those in all shots.
fn faults(streams: impl Iterator<Item = Xorshift>) -> (u64, u64) {
    let noise = format!("op=n p={:016x} corr=- cond=- parity=0 d=1 x=0 z=- size=1", P.to_bits());
    let job = format!("op=job qubits=1 outcomes=0 shots={SHOTS}\n{noise}\n");
    let mut frames = Frames::new();
    let mut words = vec![0; SHOTS];
    streams.fold((0, 0), |(first, all), mut stream| {
        stream.fill(&mut words);
        frames.run(job.as_bytes(), &[], Draws::new(&words)).expect("the job runs");
        let row = frames.x_row(0);
        (first + (row[0] & 1), all + row.iter().map(|word| u64::from(word.count_ones())).sum::<u64>())
    })
}

/// The numbers of faults in as many shots that leave out a ten-thousandth on either side.
#[allow(clippy::cast_precision_loss)]
fn interval(shots: u64) -> RangeInclusive<u64> {
    let tail = 1e-4;
    let shots = shots as f64;
    let mut logarithm = shots * (1.0 - P).ln();
    let (mut below, mut low, mut count) = (0.0, None, 0_u64);
    loop {
        below += logarithm.exp();
        if below > tail {
            low.get_or_insert(count);
        }
        if below > 1.0 - tail {
            return low.unwrap_or(0)..=count;
        }
        logarithm += ((shots - count as f64) / (count as f64 + 1.0) * P / (1.0 - P)).ln();
        count += 1;
    }
}

#[test]
fn intervals_are_binomial() {
    // by the sums of a table for 1,000 trials at 0.001
    assert_eq!(interval(1000), 0..=6);
    let all = interval(SEEDS * SHOTS as u64);
    // 4,096 with a standard deviation of 64, and 3.72 of these on either side
    assert!(all.start().abs_diff(4096 - 238) < 8 && all.end().abs_diff(4096 + 238) < 8, "{all:?}");
}

#[test]
fn small_seeds_fault_as_often_as_they_should() {
    let (first, all) = faults((0..SEEDS).map(Xorshift::new));
    assert!(interval(SEEDS).contains(&first), "{first} faults in shot 0");
    assert!(interval(SEEDS * SHOTS as u64).contains(&all), "{all} faults in all shots");
}

/// Small states do not; else the test above would show nothing.
#[test]
fn small_states_fault_too_often() {
    let (first, all) = faults((1..=SEEDS).flat_map(Xorshift::from_state));
    assert_eq!((first, all), (1000, 5104));
}
