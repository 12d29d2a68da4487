//! Samples a repetition code through the engine and lays the logical error rates beside exact ones, as tables and as a plot.
//!
//! usage: cargo run --release --example repetition_code [SVG [JOBS [SEED]]]
//!
//! SVG is the file of the plot (`repetition_code.svg`), JOBS the number of jobs, of 4,096 shots each, for a point (16), SEED that of the draw words.

mod code;
mod exact;
mod plot;
mod sample;
mod statistics;

use code::{Basis, Code};
use kundatrezo::{Refusal, Xorshift};
use sample::{Experiment, Point};
use statistics::{ChiSquare, wilson};
use std::error::Error;
use std::fs;

/// The small case, of which all fault patterns are enumerated.
const SMALL: Code = Code { distance: 3, rounds: 1 };
const SMALL_PROBABILITIES: [f64; 4] = [0.01, 0.03, 0.1, 0.3];
const DISTANCES: [usize; 3] = [3, 5, 7];
const ROUNDS: usize = 2;
const PROBABILITIES: [f64; 7] = [0.01, 0.015, 0.025, 0.04, 0.065, 0.1, 0.16];
const JOBS: usize = 16;
const SEED: u64 = 2026;

fn main() -> Result<(), Box<dyn Error>> {
    let mut arguments = std::env::args().skip(1);
    let path = arguments.next().unwrap_or_else(|| "repetition_code.svg".into());
    if path.starts_with('-') {
        println!("usage: repetition_code [SVG [JOBS [SEED]]]");
        return Ok(());
    }
    let jobs = arguments.next().map_or(Ok(JOBS), |text| text.parse())?;
    if jobs == 0 {
        return Err("a point needs a job".into());
    }
    let seed = arguments.next().map_or(Ok(SEED), |text| text.parse())?;
    let mut words = Xorshift::new(seed);
    let small = small_points(jobs, &mut words)?;
    print_table("Distance 3, one round; exact: all 65,536 fault patterns, weighted by their probabilities", &small);
    let points = points(jobs, &mut words)?;
    print_table("Distances 3, 5 and 7, two rounds; exact: the probabilities of all sets of outcomes", &points);
    fs::write(&path, plot::svg(&points))?;
    println!("plot: {path}");
    Ok(())
}

/// Both codes of the small case, each at some probabilities.
fn small_points(jobs: usize, words: &mut Xorshift) -> Result<Vec<Point>, Refusal> {
    let experiments =
        SMALL_PROBABILITIES.map(|p| Experiment { code: SMALL, p, probabilities: exact::enumerated(SMALL, p) });
    sampled(&experiments, jobs, words)
}

/// Every distance at every probability.
fn points(jobs: usize, words: &mut Xorshift) -> Result<Vec<Point>, Refusal> {
    let pairs = DISTANCES.iter().flat_map(|distance| PROBABILITIES.map(|p| (*distance, p)));
    let experiments: Vec<Experiment> = pairs
        .map(|(distance, p)| {
            let code = Code { distance, rounds: ROUNDS };
            Experiment { code, p, probabilities: exact::added(code, p) }
        })
        .collect();
    sampled(&experiments, jobs, words)
}

/// Experiments in both bases, from one stream of words.
fn sampled(experiments: &[Experiment], jobs: usize, words: &mut Xorshift) -> Result<Vec<Point>, Refusal> {
    let pairs =
        [Basis::Bit, Basis::Phase].into_iter().flat_map(|basis| experiments.iter().map(move |one| (basis, one)));
    pairs.map(|(basis, experiment)| experiment.sample(basis, jobs, words)).collect()
}

fn print_table(title: &str, points: &[Point]) {
    println!("{title}\n");
    println!(
        "flips  distance      p    shots  failures    sampled  {:^24}       exact   deviation",
        "95 % interval (Wilson)"
    );
    for point in points {
        let (low, high) = wilson(point.failures, point.shots);
        println!(
            "{:<5} {:>9} {:>6} {:>8} {:>9}  {:>9.3e}  {low:>10.3e} to {high:<10.3e}  {:>10.4e} {:>+5.2} sigma",
            if point.basis == Basis::Bit { "bit" } else { "phase" },
            point.code.distance,
            point.p,
            point.shots,
            point.failures,
            point.rate(),
            point.exact,
            point.deviation(),
        );
    }
    let shots: u64 = points.iter().map(|point| point.shots).sum();
    println!("\n{} shots; {}\n", plot::thousands(shots), ChiSquare::of(points));
}

#[cfg(test)]
mod tests {
    use super::*;
    use kundatrezo::MAX_SHOTS;

    /// With a fixed seed the counts are fixed, so this holds always or never.
    #[test]
    fn rates_are_the_exact_ones() {
        let mut words = Xorshift::new(SEED);
        let small = small_points(JOBS, &mut words).expect("the jobs run");
        let mut points = points(JOBS, &mut words).expect("the jobs run");
        for (points, least) in [(&small, 8), (&points, 36)] {
            let fit = ChiSquare::of(points);
            assert!(fit.points >= least && (0.01..0.99).contains(&fit.probability()), "{fit}");
        }
        // The test would see rates that are off by a twentieth.
        for point in &mut points {
            point.exact *= 0.95;
        }
        let off = ChiSquare::of(&points);
        assert!(off.probability() < 1e-6, "{off}");
    }

    /// It would also see a gate that spreads faults the wrong way, one that spreads none, and an ancilla that is not reset.
    #[test]
    fn wrong_rules_would_show() {
        let code = Code { distance: 3, rounds: ROUNDS };
        let experiment = Experiment { code, p: 0.04, probabilities: exact::added(code, 0.04) };
        for (basis, other) in [(Basis::Bit, Basis::Phase), (Basis::Phase, Basis::Bit)] {
            let job = code.job(basis, experiment.p, MAX_SHOTS);
            let turned = code.job(other, experiment.p, MAX_SHOTS);
            // the job with another line, which may be that of the other basis, in the place of those that begin so
            let changed = |start: &str, line: Option<&str>| -> String {
                let pairs = job.lines().zip(turned.lines());
                let lines =
                    pairs.map(|(own, turned)| if own.starts_with(start) { line.unwrap_or(turned) } else { own });
                lines.flat_map(|line| [line, "\n"]).collect()
            };
            let none = Some("op=p x=- z=-");
            let [backwards, nothing, kept] = [changed("op=u", None), changed("op=u", none), changed("op=z", none)];
            let mut words = Xorshift::new(SEED);
            let mut deviation =
                |job: &str| experiment.sample_job(job, basis, JOBS, &mut words).expect("it runs").deviation();
            assert!(deviation(&job).abs() < 4.0);
            for wrong in [backwards, nothing, kept] {
                let seen = deviation(&wrong);
                assert!(seen.abs() > 10.0, "{seen} {wrong}");
            }
        }
    }
}
