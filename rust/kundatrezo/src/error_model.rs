//! A job's noise as a detector error model.

use crate::{
    Circuit, Form, Instruction, MAX_GROUPS, Noise, Number, OutcomeCondition, PauliDistribution, Refusal, fault_table,
};
use std::collections::{BTreeSet, HashMap};
use std::fmt;
use std::ops::Range;

/// The noise of a job as a detector error model, which decoders read: for each element of each noise line its probability, and which detectors and logical
/// observables it flips. A detector or an observable is a group of recorded outcomes, rising strictly, whose sum is 0 modulo 2 where no fault falls, or is
/// known by other means. There may be any number of them, and of elements: the engine is asked for several tables.
///
/// The probability of an element is p with d=1, p / (4^k - 1) with d=2 over k qubits, p / n with d=3, and p times its weight's part of all weights with d=4.
/// An error model takes its mechanisms for independent, so it only approximates a noise line, of whose elements one falls at most; docs/FAULTS.md of the
/// repository says by how much. Conditions are not looked at: probabilities are those of shots in which they hold. Lines of one correlation that also agree in
/// p, condition, kind and size (with d=4, in weights) fall together, and so their elements are one mechanism, which flips what all of them flip.
///
/// # Errors
///
/// The refusal by a test of the job, 17 (a group that doesn't rise strictly, or has an outcome that is not recorded) or 24 (no groups at all, with line 0; else
/// the first noise line with d=2 over more than four qubits).
///
/// ```
/// use kundatrezo::error_model;
///
/// // the repetition code of three bits: two parities, and a bit for the logical one
/// let flip = |qubit: usize| format!("op=n p=3fb999999999999a corr=- cond=- parity=0 d=1 x={qubit} z=- size=1\n");
/// let noise: String = (0..3).map(flip).collect();
/// let job = format!("op=job qubits=3 outcomes=3 shots=1\n{noise}op=o x=- z=0,1 id=0\nop=o x=- z=1,2 id=1\nop=o x=- z=0 id=2\n");
/// let model = error_model(job.as_bytes(), &[vec![0], vec![1]], &[vec![2]])?;
/// assert_eq!(model.to_string(), "error(0.1) D0 L0\nerror(0.1) D0 D1\nerror(0.1) D1\n");
/// # Ok::<(), kundatrezo::Refusal>(())
/// ```
pub fn error_model(job: &[u8], detectors: &[Vec<u64>], observables: &[Vec<u64>]) -> Result<ErrorModel, Refusal> {
    let circuit = Circuit::read(job)?;
    let mut flips = all_flips(&circuit, &[detectors, observables].concat())?.into_iter();
    let mut mechanisms: Vec<Mechanism> = Vec::new();
    let mut together: HashMap<Drawn<'_>, usize> = HashMap::new();
    for (line, noise) in circuit.noise() {
        let first = match noise.correlation {
            Some(_) => *together.entry(Drawn::of(noise)).or_insert(mechanisms.len()),
            None => mechanisms.len(),
        };
        for (element, (p, flips)) in probabilities(noise).into_iter().zip(&mut flips).enumerate() {
            match mechanisms.get_mut(first + element) {
                Some(earlier) => earlier.flip(&flips),
                None => mechanisms.push(Mechanism {
                    line,
                    element,
                    p,
                    has_condition: noise.condition.is_some(),
                    correlation: noise.correlation,
                    flips,
                    detectors: detectors.len(),
                }),
            }
        }
    }
    Ok(ErrorModel { detectors: detectors.len(), observables: observables.len(), mechanisms })
}

/// The table of single faults, as [`fault_table`] makes it, for any number of groups and of elements: the engine is asked for several tables.
///
/// # Errors
///
/// As [`error_model`].
///
/// ```
/// let job = b"op=job qubits=1 outcomes=1 shots=1
/// op=n p=3f847ae147ae147b corr=- cond=- parity=0 d=2 q=0 size=3
/// op=o x=- z=0 id=0
/// ";
/// let faults = kundatrezo::single_faults(job, &vec![vec![0]; 20])?;
/// assert_eq!((faults[2].line, faults[2].element, faults[2].flips.len()), (2, 2, 20));
/// assert!(faults[1].flips.is_empty());
/// # Ok::<(), kundatrezo::Refusal>(())
/// ```
pub fn single_faults(job: &[u8], groups: &[Vec<u64>]) -> Result<Vec<Fault>, Refusal> {
    let circuit = Circuit::read(job)?;
    let flips = all_flips(&circuit, groups)?;
    let places = circuit
        .noise()
        .flat_map(|(line, noise)| (0..crate::size(noise.distribution.size())).map(move |element| (line, element)));
    Ok(places.zip(flips).map(|((line, element), flips)| Fault { line, element, flips }).collect())
}

/// A possible fault, and what it flips.
#[derive(Debug, Clone, PartialEq, Eq, Hash)]
#[non_exhaustive]
pub struct Fault {
    /// The noise line's number in the job, from 1.
    pub line: usize,
    /// The element of its distribution, from 0.
    pub element: usize,
    /// The groups that it flips, rising.
    pub flips: Vec<usize>,
}

/// The groups that each element of a circuit's noise flips, line by line. Tables are made for sixteen groups at a time. If one is too long, they are made
/// for each half of the noise lines by itself: noise in other lines counts as absent, so that a job without it has the same rows.
fn all_flips(circuit: &Circuit, groups: &[Vec<u64>]) -> Result<Vec<Vec<usize>>, Refusal> {
    let job = circuit.to_job();
    let lines = circuit.noise().count();
    let mut all: Vec<Vec<usize>> = Vec::new();
    // without groups there is a call all the same, which refuses them
    for first in (0..groups.len().max(1)).step_by(MAX_GROUPS) {
        let table = match fault_table(&job, &groups[first..groups.len().min(first + MAX_GROUPS)]) {
            Err(refusal) if refusal.number == Number::ROOM && lines > 1 => {
                let halves =
                    [0..lines / 2, lines / 2..lines].map(|kept| all_flips(&with_noise(circuit, &kept), groups));
                return halves.into_iter().collect::<Result<Vec<_>, Refusal>>().map(|halves| halves.concat());
            }
            table => table?,
        };
        all.resize(table.iter().count(), Vec::new());
        for (flips, fault) in all.iter_mut().zip(table.iter()) {
            flips.extend(fault.flipped().map(|group| first + group));
        }
    }
    Ok(all)
}

/// The circuit with those of its noise lines alone whose places among them are kept.
fn with_noise(circuit: &Circuit, kept: &Range<usize>) -> Circuit {
    let mut places = 0..;
    let mut is_kept = |instruction: &&Instruction| match instruction {
        Instruction::Noise(_) => places.next().is_some_and(|place| kept.contains(&place)),
        _ => true,
    };
    let instructions = circuit.instructions.iter().filter(|instruction| is_kept(instruction)).cloned().collect();
    Circuit { instructions, ..*circuit }
}

/// The probability of each element of a noise line.
#[allow(clippy::cast_precision_loss)]
fn probabilities(noise: &Noise) -> Vec<f64> {
    // no fault falls with a p below zero
    let p = noise.probability.max(0.0);
    match &noise.distribution {
        PauliDistribution::Weighted(elements) => {
            let total = elements.iter().fold(0.0, |sum, element| sum + element.weight);
            elements.iter().map(|element| p * (element.weight / total)).collect()
        }
        other => vec![p / other.size() as f64; crate::size(other.size())],
    }
}

/// All that decides when the elements of a noise line fall: what it has in common with the lines that fall together with it.
#[derive(PartialEq, Eq, Hash)]
struct Drawn<'a> {
    probability: u64,
    correlation: Option<u64>,
    condition: Option<&'a OutcomeCondition>,
    form: Form,
    size: u64,
    weights: Vec<u64>,
}

impl<'a> Drawn<'a> {
    fn of(noise: &'a Noise) -> Self {
        let weights = match &noise.distribution {
            // 0 and -0 draw alike
            PauliDistribution::Weighted(elements) => {
                elements.iter().map(|element| (element.weight + 0.0).to_bits()).collect()
            }
            _ => Vec::new(),
        };
        Self {
            probability: noise.probability.to_bits(),
            correlation: noise.correlation,
            condition: noise.condition.as_ref(),
            form: noise.distribution.form(),
            size: noise.distribution.size(),
            weights,
        }
    }
}

/// A detector error model, by [`error_model`]. It is written, by `Display`, in the form of files that decoders read: a line `error(P) D0 D1 L0` for each
/// mechanism that can fall and flips anything, P in the fewest digits that give the same binary64 back, and a line for each detector and each observable
/// that none of them flips.
#[derive(Debug, Clone, PartialEq)]
pub struct ErrorModel {
    detectors: usize,
    observables: usize,
    mechanisms: Vec<Mechanism>,
}

impl ErrorModel {
    /// How many detectors there are.
    #[must_use]
    pub fn detectors(&self) -> usize {
        self.detectors
    }

    /// How many logical observables there are.
    #[must_use]
    pub fn observables(&self) -> usize {
        self.observables
    }

    /// The correlations whose noise lines don't all draw alike, rising: the model takes these lines for independent, and they are not, since they read the same
    /// words.
    #[must_use]
    pub fn mixed_correlations(&self) -> BTreeSet<u64> {
        let mut lines = HashMap::new();
        let falls = self.mechanisms.iter().filter(|mechanism| mechanism.p > 0.0);
        falls
            .filter_map(|mechanism| Some((mechanism.correlation?, mechanism.line)))
            .filter(|(correlation, line)| lines.entry(*correlation).or_insert(*line) != line)
            .map(|(correlation, _)| correlation)
            .collect()
    }

    /// Every mechanism, one for each element of each noise line, but for lines that fall together, which have theirs in common. Those that never fall and those
    /// that flip nothing are among them.
    #[must_use]
    pub fn mechanisms(&self) -> &[Mechanism] {
        &self.mechanisms
    }
}

/// A way in which a fault may fall.
#[derive(Debug, Clone, PartialEq)]
#[non_exhaustive]
pub struct Mechanism {
    /// The noise line's number in the job, from 1; that of the first where several fall together.
    pub line: usize,
    /// The element of its distribution, from 0.
    pub element: usize,
    /// Its probability, in shots in which the condition of its noise line, if it has one, holds.
    pub p: f64,
    /// Whether there is such a condition.
    pub has_condition: bool,
    /// The correlation of its noise line.
    pub correlation: Option<u64>,
    /// The groups that it flips, rising: detectors, then observables.
    pub flips: Vec<usize>,
    detectors: usize,
}

impl Mechanism {
    /// The detectors that it flips, rising.
    pub fn detectors(&self) -> impl Iterator<Item = usize> {
        self.flips.iter().copied().take_while(|group| *group < self.detectors)
    }

    /// The observables that it flips, rising.
    pub fn observables(&self) -> impl Iterator<Item = usize> {
        self.flips.iter().filter_map(|group| group.checked_sub(self.detectors))
    }

    /// Add what a fault flips that falls together with it.
    fn flip(&mut self, other: &[usize]) {
        let own = std::mem::take(&mut self.flips);
        self.flips = own.iter().filter(|group| !other.contains(group)).copied().collect();
        self.flips.extend(other.iter().filter(|group| !own.contains(group)));
        self.flips.sort_unstable();
    }
}

impl fmt::Display for ErrorModel {
    fn fmt(&self, f: &mut fmt::Formatter<'_>) -> fmt::Result {
        let mut seen = vec![false; self.detectors + self.observables];
        for mechanism in self.mechanisms.iter().filter(|mechanism| mechanism.p > 0.0 && !mechanism.flips.is_empty()) {
            writeln!(f, "{mechanism}")?;
            mechanism.flips.iter().for_each(|group| seen[*group] = true);
        }
        let (detectors, observables) = seen.split_at(self.detectors);
        for (name, seen) in [("detector D", detectors), ("logical_observable L", observables)] {
            for (place, _) in seen.iter().enumerate().filter(|(_, seen)| !**seen) {
                writeln!(f, "{name}{place}")?;
            }
        }
        Ok(())
    }
}

impl fmt::Display for Mechanism {
    fn fmt(&self, f: &mut fmt::Formatter<'_>) -> fmt::Result {
        write!(f, "error({:?})", self.p)?;
        self.detectors().try_for_each(|place| write!(f, " D{place}"))?;
        self.observables().try_for_each(|place| write!(f, " L{place}"))
    }
}
