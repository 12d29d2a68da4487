//! Jobs for each clause of note 11 of document 02: what it covers, and what it does not.

use crate::shots::Said::{self, Differ, Equal, Nothing};
use checker::gaps::Gaps;
use checker::read::read;

/// A job by its injections and flips, each with the number of other lines before it.
type Faults = &'static [(usize, &'static str)];

/// The other lines of all jobs: a conditional on two outcomes and a reset are among them.
const OTHERS: [&str; 5] =
    ["op=o x=- z=0 id=0", "op=o x=- z=1 id=1", "op=f x=1 z=0 id=0,1 parity=0", "op=z q=0", "op=o x=- z=1 id=2"];

/// The job of some injections and flips.
pub fn job(faults: Faults) -> Gaps {
    let mut text = String::from("op=job qubits=2 outcomes=3 shots=3\n");
    for place in 0..=OTHERS.len() {
        let here = faults.iter().filter(|(gap, _)| *gap == place).map(|(_, line)| *line);
        for line in here.chain(OTHERS.get(place).copied()) {
            text += line;
            text.push('\n');
        }
    }
    read(text.as_bytes()).map(Gaps::of_job).expect("a job that the checks accept")
}

const X: &str = "op=i shot=0 x=0 z=-";
const Y: &str = "op=i shot=0 x=0,1 z=1";
const IDENTITY: &str = "op=i shot=0 x=- z=-";
const FLIP: &str = "op=t shot=0 id=0";
const SECOND_FLIP: &str = "op=t shot=0 id=1";
const X_OF_2: &str = "op=i shot=2 x=0 z=-";
const FLIP_OF_2: &str = "op=t shot=2 id=0";

/// Pairs of jobs with a set of shots.
pub const PAIRS: &[(&str, &[u64], [Faults; 2], Said)] = &[
    ("other shots differ", &[0, 1], [&[(0, X)], &[(0, X_OF_2), (0, X), (4, FLIP_OF_2)]], Equal),
    ("another order between the same lines", &[0], [&[(1, X), (1, FLIP), (1, Y)], &[(1, Y), (1, X), (1, FLIP)]], Equal),
    ("twice in both", &[0], [&[(1, X), (1, X)], &[(1, X), (1, FLIP_OF_2), (1, X)]], Equal),
    (
        "before a conditional and a reset",
        &[0],
        [&[(2, FLIP), (3, X)], &[(2, FLIP_OF_2), (2, FLIP), (3, X), (3, X_OF_2)]],
        Equal,
    ),
    ("behind the last line", &[0], [&[(5, X), (5, FLIP)], &[(5, FLIP), (5, FLIP_OF_2), (5, X)]], Equal),
    ("a set without faults", &[1], [&[(0, X)], &[(3, X_OF_2)]], Equal),
    ("no shots in the set", &[], [&[(0, X)], &[(1, X)]], Equal),
    ("a shot of the set", &[2], [&[(0, X)], &[(0, X_OF_2)]], Differ),
    ("between other lines", &[0], [&[(0, X)], &[(1, X)]], Differ),
    ("across a conditional", &[0], [&[(2, FLIP)], &[(3, FLIP)]], Differ),
    ("across a reset", &[0], [&[(3, X)], &[(4, X)]], Differ),
    ("once and twice", &[0], [&[(0, X)], &[(0, X), (0, X)]], Differ),
    ("not at all and twice", &[0], [&[], &[(0, X), (0, X)]], Nothing),
    ("an identity", &[0], [&[], &[(0, IDENTITY)]], Nothing),
];

/// Triples of jobs, of which the last may be the sum of the others.
pub const TRIPLES: &[(&str, [Faults; 3], Said)] = &[
    ("faults of both", [&[(0, X)], &[(1, FLIP)], &[(0, X), (1, FLIP)]], Equal),
    ("twice where both hold it", [&[(0, X)], &[(0, X), (1, Y)], &[(0, X), (0, X), (1, Y)]], Equal),
    ("three times where one holds it twice", [&[(0, X), (0, X)], &[(0, X)], &[(0, X), (0, X), (0, X)]], Equal),
    (
        "any order between the same lines",
        [&[(1, FLIP), (1, X)], &[(1, X), (1, Y)], &[(1, Y), (1, X), (1, FLIP), (1, X)]],
        Equal,
    ),
    ("a conditional of both", [&[(2, FLIP)], &[(2, SECOND_FLIP)], &[(2, SECOND_FLIP), (2, FLIP)]], Equal),
    ("before and behind a reset", [&[(3, X)], &[(4, X)], &[(3, X), (4, X)]], Equal),
    ("a single copy where both hold it", [&[(0, X)], &[(0, X)], &[(0, X)]], Differ),
    ("between other lines", [&[(0, X)], &[], &[(1, X)]], Differ),
    ("twice, and one between other lines", [&[(0, X)], &[(0, X)], &[(0, X), (1, X)]], Differ),
    ("one less", [&[(0, X)], &[(2, FLIP)], &[(0, X)]], Differ),
    ("one too many", [&[(0, X)], &[], &[(0, X), (2, FLIP)]], Differ),
    ("in another shot", [&[(0, X)], &[], &[(0, X_OF_2)]], Differ),
    ("none where both hold it", [&[(0, X)], &[(0, X)], &[]], Nothing),
];

#[cfg(test)]
mod tests {
    use super::{X, job};
    use checker::job::Instruction;

    /// Another header, another line, one less, or noise: nothing is said, whatever the faults.
    #[test]
    fn all_other_lines_agree_the_header_among_them() {
        let one = job(&[(0, X)]);
        let none = job(&[]);
        let is_covered = |other: &super::Gaps| {
            let none = other.with(vec![Vec::new(); other.faults.len()]);
            [one.is_apart(other, |_| true), other.is_sum(&one, &none), one.is_sum(other, &none)]
        };
        assert_eq!(is_covered(&one), [true; 3]);
        assert!(one.is_sum(&none, &one) && one.is_sum(&one, &none));
        let mut headers = [one.clone(), one.clone(), one.clone()];
        headers[0].header.qubits += 1;
        headers[1].header.outcomes += 1;
        headers[2].header.shots += 1;
        let mut line = one.clone();
        line.others[3] = Instruction::Reset { qubits: [1].into_iter().collect() };
        let mut less = one.clone();
        _ = less.others.pop();
        _ = less.faults.pop();
        let mut order = one.clone();
        order.others.swap(2, 3);
        for other in headers.into_iter().chain([line, less, order]) {
            assert_eq!(is_covered(&other), [false; 3], "{other:?}");
        }
    }
}
