//! Intervals and the chi-square test.

use crate::sample::Point;
use std::fmt;

/// Wilson's interval for a rate, at 95 %.
#[allow(clippy::cast_precision_loss)]
pub fn wilson(failures: u64, shots: u64) -> (f64, f64) {
    let z = 1.959_963_984_540_054_f64;
    let (failures, shots) = (failures as f64, shots as f64);
    let rate = failures / shots;
    let middle = rate + z * z / (2.0 * shots);
    let half = z * (rate * (1.0 - rate) / shots + z * z / (4.0 * shots * shots)).sqrt();
    let whole = 1.0 + z * z / shots;
    (((middle - half) / whole).max(0.0), (middle + half) / whole)
}

/// How well sampled points agree with the exact rates.
#[derive(Debug)]
pub struct ChiSquare {
    pub sum: f64,
    /// Points that are counted: those with at least ten failures and ten others expected.
    pub points: usize,
}

impl ChiSquare {
    #[allow(clippy::cast_precision_loss)]
    pub fn of(points: &[Point]) -> Self {
        let counted = |point: &&Point| point.expected() >= 10.0 && point.shots as f64 - point.expected() >= 10.0;
        let squares = points.iter().filter(counted).map(|point| point.deviation().powi(2));
        squares.fold(Self { sum: 0.0, points: 0 }, |all, square| Self { sum: all.sum + square, points: all.points + 1 })
    }

    /// The probability of such a sum or a larger one, if the exact rates hold.
    #[allow(clippy::cast_precision_loss)]
    pub fn probability(&self) -> f64 {
        upper_gamma(self.points as f64 / 2.0, self.sum / 2.0)
    }
}

impl fmt::Display for ChiSquare {
    fn fmt(&self, f: &mut fmt::Formatter<'_>) -> fmt::Result {
        let probability = self.probability();
        write!(f, "chi-square {:.2} over {} points, probability {probability:.3}", self.sum, self.points)
    }
}

/// The regularised upper incomplete gamma function, for a multiple of one half that is above zero: by the series of the lower one, or by a continued
/// fraction where that is quicker.
fn upper_gamma(a: f64, x: f64) -> f64 {
    if x <= 0.0 {
        return 1.0;
    }
    let factor = (a * x.ln() - x - ln_gamma(a)).exp();
    let places = || (1..=500).map(f64::from);
    if x < a + 1.0 {
        let (_, sum) = places().fold((1.0 / a, 1.0 / a), |(term, sum), n| {
            let next = term * x / (a + n);
            (next, sum + next)
        });
        1.0 - factor * sum
    } else {
        factor / places().rev().fold(x, |tail, n| x + (n - a) / (1.0 + n / tail))
    }
}

/// The logarithm of the gamma function, for a multiple of one half that is above zero.
fn ln_gamma(a: f64) -> f64 {
    let (mut from, mut sum) = if a.fract() == 0.0 { (1.0, 0.0) } else { (0.5, std::f64::consts::PI.sqrt().ln()) };
    while from < a {
        sum += f64::ln(from);
        from += 1.0;
    }
    sum
}

#[cfg(test)]
mod tests {
    use super::*;

    #[test]
    fn probabilities_are_those_of_tables() {
        let tabled = [
            (1, 3.8415, 0.05),
            (2, 5.9915, 0.05),
            (5, 1.1455, 0.95),
            (29, 42.557, 0.05),
            (30, 20.599, 0.9),
            (30, 59.703, 0.001),
        ];
        for (points, sum, probability) in tabled {
            let got = ChiSquare { sum, points }.probability();
            assert!((got - probability).abs() < 2e-5, "{points} {sum}: {got}");
        }
        assert_eq!(ChiSquare { sum: 1e5, points: 30 }.probability(), 0.0);
    }

    #[test]
    fn intervals_are_wilsons() {
        let (low, high) = wilson(10, 100);
        assert!((low - 0.055_229).abs() < 1e-6 && (high - 0.174_366).abs() < 1e-6, "{low} {high}");
        let (low, high) = wilson(0, 100);
        assert!(low < 1e-15 && (high - 0.036_993).abs() < 1e-6, "{low} {high}");
    }
}
