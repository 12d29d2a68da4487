//! The exact rates, by a model of its own: bits of qubits, of which a gate adds one to another.
//!
//! Of a Pauli the model keeps the parts that flip what the basis measures. Depolarizing noise over k qubits has 4^k - 1 Paulis, each as likely; 2^k of them
//! have each pattern of flips, and one less has the pattern of none, since the identity is not among them.

use crate::code::{Code, Step};

/// The probabilities of the patterns of flips that a noise step makes, by the bits of the pattern.
fn flips(qubits: usize, p: f64) -> Vec<f64> {
    let patterns = 1_u32 << qubits;
    let each = p / f64::from(patterns * patterns - 1);
    (0..patterns)
        .map(|pattern| if pattern == 0 { 1.0 - p + f64::from(patterns - 1) * each } else { f64::from(patterns) * each })
        .collect()
}

/// The outcomes that flip where each noise step makes the flips that `chosen` gives for its place among them, one bit for each of its qubits.
fn outcomes(code: Code, steps: &[Step], chosen: impl Fn(usize) -> usize) -> usize {
    let mut bits = vec![false; code.qubits()];
    let (mut noise, mut id, mut flipped) = (0, 0, 0);
    for step in steps {
        match step {
            Step::Noise(qubits) => {
                for (place, qubit) in qubits.iter().enumerate() {
                    bits[*qubit] ^= chosen(noise) >> place & 1 == 1;
                }
                noise += 1;
            }
            Step::Copy { data, ancilla } => bits[*ancilla] ^= bits[*data],
            Step::Measure(qubit) => {
                flipped |= usize::from(bits[*qubit]) << id;
                id += 1;
            }
            Step::Reset(qubit) => bits[*qubit] = false,
        }
    }
    flipped
}

fn noises(steps: &[Step]) -> Vec<usize> {
    steps.iter().filter_map(|step| if let Step::Noise(qubits) = step { Some(qubits.len()) } else { None }).collect()
}

/// The probability of each set of flipped outcomes, by all fault patterns one after the other, each with its own probability.
pub fn enumerated(code: Code, p: f64) -> Vec<f64> {
    let steps = code.steps();
    let noises = noises(&steps);
    let flips: Vec<Vec<f64>> = noises.iter().map(|qubits| flips(*qubits, p)).collect();
    let mut probabilities = vec![0.0; 1 << code.outcomes()];
    let bits: usize = noises.iter().sum();
    for pattern in 0..1_usize << bits {
        let mut left = pattern;
        let mut chosen = Vec::with_capacity(noises.len());
        for qubits in &noises {
            chosen.push(left & ((1 << qubits) - 1));
            left >>= qubits;
        }
        let probability: f64 = flips.iter().zip(&chosen).map(|(flips, chosen)| flips[*chosen]).product();
        probabilities[outcomes(code, &steps, |noise| chosen[noise])] += probability;
    }
    probabilities
}

/// The same by one noise step after the other: faults add, so a step moves the probability of each set by the outcomes that its flips change.
pub fn added(code: Code, p: f64) -> Vec<f64> {
    let steps = code.steps();
    let mut probabilities = vec![0.0; 1 << code.outcomes()];
    probabilities[0] = 1.0;
    for (noise, qubits) in noises(&steps).into_iter().enumerate() {
        let flips = flips(qubits, p);
        let moved: Vec<usize> = (0..flips.len())
            .map(|pattern| outcomes(code, &steps, |own| if own == noise { pattern } else { 0 }))
            .collect();
        let sum = |set: usize| flips.iter().zip(&moved).map(|(flip, moved)| flip * probabilities[set ^ moved]).sum();
        probabilities = (0..probabilities.len()).map(sum).collect();
    }
    probabilities
}

/// For each set of flipped outcomes, whether the likelier explanation of its parities is wrong. Two sets that differ in the logical operator have the same
/// parities; the decoder takes the likelier.
pub fn wrong(code: Code, probabilities: &[f64]) -> Vec<bool> {
    let other = |set: usize| set ^ code.logical();
    // sums in another order differ by a little, and equal ones are to be told apart in the same way for both
    let likelier = |set: usize| probabilities[set] > probabilities[other(set)] * (1.0 + 1e-9);
    (0..probabilities.len()).map(|set| likelier(other(set)) || (!likelier(set) && set > other(set))).collect()
}

/// The probability that the decoder is wrong.
pub fn rate(probabilities: &[f64], wrong: &[bool]) -> f64 {
    probabilities.iter().zip(wrong).filter(|(_, wrong)| **wrong).map(|(probability, _)| probability).sum()
}

#[cfg(test)]
mod tests {
    use super::*;

    fn close(left: &[f64], right: &[f64]) -> bool {
        left.iter().zip(right).all(|(left, right)| (left - right).abs() < 1e-14)
    }

    /// Faults that are added give what the enumeration of all patterns gives.
    #[test]
    fn added_faults_are_all_patterns() {
        let code = Code { distance: 3, rounds: 1 };
        for p in [0.001, 0.1, 0.7] {
            let patterns = enumerated(code, p);
            assert!((patterns.iter().sum::<f64>() - 1.0).abs() < 1e-12);
            assert!(close(&patterns, &added(code, p)));
            assert_eq!(wrong(code, &patterns), wrong(code, &added(code, p)));
        }
    }

    #[test]
    fn flips_of_depolarizing_noise() {
        assert!(close(&flips(1, 0.3), &[0.8, 0.2]));
        assert!(close(&flips(2, 0.15), &[0.88, 0.04, 0.04, 0.04]));
    }

    /// One set of each pair is wrong, a single fault never is, and at p = 0 nothing is.
    #[test]
    fn single_faults_are_corrected() {
        let code = Code { distance: 3, rounds: 2 };
        let wrong = wrong(code, &added(code, 0.001));
        assert!((0..wrong.len()).all(|set| wrong[set] != wrong[set ^ code.logical()]));
        let steps = code.steps();
        for (noise, qubits) in noises(&steps).into_iter().enumerate() {
            for pattern in 0..1 << qubits {
                assert!(!wrong[outcomes(code, &steps, |own| if own == noise { pattern } else { 0 })]);
            }
        }
        assert_eq!(rate(&added(code, 0.0), &wrong), 0.0);
    }
}
