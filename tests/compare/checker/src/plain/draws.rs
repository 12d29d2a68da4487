//! Draws: which shots a noise line's faults fall in, and what falls.

use crate::calls::Draws;
use crate::job::{Distribution, Header, List, Noise, Pauli, usize_of};
use crate::plain::bit;

/// A list of words, read on from a place.
pub(super) struct Words<'a> {
    list: &'a [u64],
    place: u64,
}

impl<'a> Words<'a> {
    pub fn from(list: &'a [u64], place: u64) -> Self {
        Self { list, place }
    }

    /// The place of the next word, counted from 0.
    pub fn place(&self) -> u64 {
        self.place
    }

    /// The next word, or none past the list.
    fn next(&mut self) -> Option<u64> {
        let word = self.list.get(usize::try_from(self.place).ok()?)?;
        self.place += 1;
        Some(*word)
    }
}

/// u = floor(w / 2048) / 2^53.
#[allow(clippy::cast_precision_loss)]
fn unit(word: u64) -> f64 {
    (word / 2048) as f64 / (1_u64 << 53) as f64
}

/// The faults of a noise line in rising shots, or none where its draws are spent. The main list is read on in `main`.
pub(super) fn faults(
    noise: &Noise,
    header: &Header,
    draws: &Draws<'_>,
    noiseless: &[u64],
    main: &mut Words<'_>,
) -> Option<Vec<(u64, Pauli)>> {
    match noise.correlation {
        None => faults_from(main, noise, header, noiseless),
        Some(correlation) => {
            let mut second = Words::from(draws.second, draws.base.wrapping_add(correlation));
            faults_from(&mut second, noise, header, noiseless)
        }
    }
}

fn faults_from(words: &mut Words<'_>, noise: &Noise, header: &Header, noiseless: &[u64]) -> Option<Vec<(u64, Pauli)>> {
    let mut faults = Vec::new();
    if noise.probability() <= 0.0 {
        return Some(faults);
    }
    for shot in 0..header.shots {
        let falls = unit(words.next()?) < noise.probability();
        let sum = noise.condition.iter().fold(false, |sum, &id| sum ^ bit(noiseless, header, id, shot));
        if falls && (noise.condition.is_empty() || sum == noise.parity) {
            faults.push((shot, choose(&noise.distribution, words)?));
        }
    }
    Some(faults)
}

/// The element that falls.
fn choose(distribution: &Distribution, words: &mut Words<'_>) -> Option<Pauli> {
    Some(match distribution {
        Distribution::Single(pauli) => pauli.clone(),
        Distribution::Depolarizing(qubits) => depolarizing(qubits, below(distribution.size(), words)? + 1),
        Distribution::Uniform(paulis) => paulis[usize_of(below(distribution.size(), words)?)].clone(),
        Distribution::Weighted(elements) => elements[weighted_place(elements, unit(words.next()?))].1.clone(),
    })
}

/// Every element, in the distribution's order.
pub(super) fn elements(distribution: &Distribution) -> Vec<Pauli> {
    match distribution {
        Distribution::Single(pauli) => vec![pauli.clone()],
        Distribution::Depolarizing(qubits) => {
            (1..=distribution.size()).map(|bits| depolarizing(qubits, bits)).collect()
        }
        Distribution::Uniform(paulis) => paulis.clone(),
        Distribution::Weighted(elements) => elements.iter().map(|(_, pauli)| pauli.clone()).collect(),
    }
}

/// A number below `count`, by rejection.
fn below(count: u64, words: &mut Words<'_>) -> Option<u64> {
    let bound = u64::MAX - u64::MAX % count;
    loop {
        let word = words.next()?;
        if word < bound {
            return Some(word % count);
        }
    }
}

/// Two bits for each qubit, X lowest.
fn depolarizing(qubits: &[u64], bits: u64) -> Pauli {
    let with_bit = |offset: usize| {
        let has = |place: usize| bits >> (2 * place + offset) & 1 == 1;
        let mut list: Vec<u64> = (0..qubits.len()).filter(|&place| has(place)).map(|place| qubits[place]).collect();
        list.sort_unstable();
        list.into_iter().collect::<List>()
    };
    Pauli { x: with_bit(0), z: with_bit(1) }
}

/// The first place with positive weight whose running sum isn't below u, else the last place with positive weight.
fn weighted_place(elements: &[(u64, Pauli)], u: f64) -> usize {
    let weights = || elements.iter().map(|(weight, _)| f64::from_bits(*weight));
    let mut total = 0.0;
    for weight in weights() {
        total += weight;
    }
    let mut sum = 0.0;
    let mut last_positive = 0;
    for (place, weight) in weights().enumerate() {
        sum += weight / total;
        let running = if place + 1 == elements.len() { 1.0 } else { sum };
        if weight > 0.0 {
            if running >= u {
                return place;
            }
            last_positive = place;
        }
    }
    last_positive
}
