//! Jobs that are made from a seed (note 7 of document 02): the checks accept each of them, it is what was asked for, and every kind of line comes up.

use checker::calls::{Asked, Calls};
use checker::job::{Distribution, Instruction, Job, MAX_BYTES, MAX_OUTCOMES, MAX_QUBITS, MAX_SHOTS};
use checker::plain::Plain;
use checker::read::read;
use generator::inputs::input;
use generator::random::Random;
use reference::vectors::Call;
use std::collections::BTreeSet;

/// The seeds among which every kind must come up.
const SEEDS: std::ops::RangeInclusive<u64> = 1..=200;

/// The lines up to which a job always fits the longest text.
const FITTING_LINES: u64 = 1_000;

/// Make `count` jobs and those of the small seeds, and print what was found.
pub fn passes(under_test: &dyn Calls, count: u64, seed: u64) -> bool {
    let (mut lines, mut differences) = (0, 0);
    for seed in (0..count).map(|k| seed.wrapping_add(k)) {
        let asked = input(&mut Random::new(seed), Call::Make).asked();
        match wrong(under_test, asked) {
            Ok(count) => lines += count,
            Err(what) => {
                differences += 1;
                println!("made, seed {seed}: {asked:?}: {what}");
            }
        }
    }
    for asked in headers().flat_map(|asked| [1, 2, 5, FITTING_LINES].map(|lines| Asked { lines, ..asked })) {
        let missing = missing(under_test, asked);
        if !missing.is_empty() {
            differences += 1;
            println!("made: of {asked:?} no seed of {SEEDS:?} has {missing:?}");
        }
    }
    println!(
        "made: {count} jobs of {lines} lines, {} headers with small seeds, {differences} differences",
        headers().count()
    );
    differences == 0
}

/// How many lines a made job has; what is wrong with it, if anything is.
fn wrong(under_test: &dyn Calls, asked: Asked) -> Result<u64, String> {
    let mut out = vec![0; MAX_BYTES];
    let answer = under_test.make(asked, &mut out);
    let accepted_header = Plain.make(Asked { lines: 0, seed: 1, ..asked }, &mut vec![0; MAX_BYTES]).number == 0;
    match answer.number {
        0 => {}
        15 if asked.lines > FITTING_LINES => return Ok(0),
        22 if asked.seed == 0 && accepted_header => return Ok(0),
        3 if !accepted_header => return Ok(0),
        number => return Err(format!("refused by {number}")),
    }
    let text = &out[..usize::try_from(answer.figure).map_err(|_| "a figure that is no length")?];
    let check = under_test.check(text);
    if check.number != 0 {
        return Err(format!("the check refuses it: {check:?}"));
    }
    let job = read(text).map_err(|refusal| format!("{refusal:?} by hand"))?;
    let header = job.header;
    if (header.qubits, header.outcomes, header.shots) != (asked.qubits, asked.outcomes, asked.shots) {
        return Err(format!("another header: {header:?}"));
    }
    match job.lines.len() as u64 {
        lines if lines == asked.lines => Ok(lines),
        lines => Err(format!("{lines} lines")),
    }
}

/// Headers at their limits and between them.
fn headers() -> impl Iterator<Item = Asked> {
    let numbers = [
        (1, 0, 1),
        (1, 1, 1),
        (2, 0, MAX_SHOTS),
        (2, 2, 64),
        (4, MAX_OUTCOMES, 63),
        (5, 3, 65),
        (MAX_QUBITS, 0, 1),
        (MAX_QUBITS, MAX_OUTCOMES, MAX_SHOTS),
    ];
    numbers.into_iter().map(|(qubits, outcomes, shots)| Asked { qubits, outcomes, shots, ..Asked::default() })
}

/// The kinds of line that a header and a number of lines allow and no small seed brings up. With many lines, all gates and both kinds of condition
/// are asked for as well.
fn missing(under_test: &dyn Calls, asked: Asked) -> Vec<String> {
    let mut out = vec![0; MAX_BYTES];
    let mut found = BTreeSet::new();
    for seed in SEEDS {
        let answer = under_test.make(Asked { seed, ..asked }, &mut out);
        let text = &out[..usize::try_from(answer.figure).unwrap_or(0)];
        if let Ok(job) = read(text) {
            found.extend(kinds(&job));
        }
    }
    let mut wanted: Vec<String> =
        ["p", "e", "k", "m", "f", "z", "i", "n1", "n2", "n3", "n4", "u", "c", "b"].map(String::from).into();
    if asked.outcomes > 0 {
        wanted.extend(["o", "r"].map(String::from));
        wanted.extend((asked.lines > 1).then(|| "t".into()));
    }
    if asked.lines == FITTING_LINES {
        let gates = if asked.qubits == 1 { 0..11 } else { 0..16 };
        wanted.extend(gates.map(|gate| format!("u{gate}")));
        let tables = [1, 2, 5].into_iter().filter(|qubits| *qubits <= asked.qubits);
        wanted.extend(tables.map(|qubits| format!("c{qubits}")));
        wanted.push("correlated".into());
        if asked.outcomes > 0 {
            wanted.extend(["condition false", "condition true"].map(String::from));
        }
    }
    wanted.retain(|kind| !found.contains(kind));
    wanted
}

/// The kinds of the lines of a job.
fn kinds(job: &Job<'_>) -> BTreeSet<String> {
    let mut found = BTreeSet::new();
    for line in &job.lines {
        let kind = match &line.instruction {
            Instruction::Unitary { gate, .. } => {
                found.insert(format!("u{gate}"));
                "u"
            }
            Instruction::Clifford { qubits, .. } => {
                found.insert(format!("c{}", qubits.len()));
                "c"
            }
            Instruction::Pauli(_) => "p",
            Instruction::Exponential(_) => "e",
            Instruction::Controlled { .. } => "k",
            Instruction::Permute { .. } => "m",
            Instruction::Measure { .. } => "o",
            Instruction::Allocate { .. } => "r",
            Instruction::Conditional { .. } => "f",
            Instruction::Reset { .. } => "z",
            Instruction::Barrier { .. } => "b",
            Instruction::Inject { .. } => "i",
            Instruction::Flip { .. } => "t",
            Instruction::Noise(noise) => {
                if noise.correlation.is_some() {
                    found.insert("correlated".into());
                }
                if !noise.condition.is_empty() {
                    found.insert(format!("condition {}", noise.parity));
                }
                match noise.distribution {
                    Distribution::Single(_) => "n1",
                    Distribution::Depolarizing(_) => "n2",
                    Distribution::Uniform(_) => "n3",
                    Distribution::Weighted(_) => "n4",
                }
            }
        };
        found.insert(kind.into());
    }
    found
}

#[cfg(test)]
mod tests {
    use checker::plain::Plain;

    #[test]
    fn the_rule_makes_what_is_asked_for() {
        assert!(super::passes(&Plain, 300, 1));
    }
}
