//! Counts as a table, for a reader at a terminal.

use crate::counts::{SavedCounts, rate, wilson};

const HEADINGS: [&str; 4] = ["outcome or set", "shots flipped", "rate", "95 % interval"];

/// The longest name for which a column is made wider.
const WIDEST_NAME: usize = 40;

impl SavedCounts {
    /// A table with headings: what was sampled in a line, then the sets, then the recorded outcomes, and last the shots that a function of the caller's
    /// counts.
    #[must_use]
    pub fn table(&self) -> String {
        let counts = self.counts();
        let row = |name: String, total: u64| {
            let [low, high] = wilson(total, counts.shots).map(number);
            [name, total.to_string(), number(rate(total, counts.shots)), format!("{low} to {high}")]
        };
        let sets = self.sets().iter().zip(&counts.sets).map(|(set, total)| row(set_name(set), *total));
        let outcomes = counts.totals.iter().take(self.recorded).enumerate();
        let outcomes = outcomes.map(|(id, total)| row(format!("outcome {id}"), *total));
        let counted = counts.counted.map(|total| row("counted".to_owned(), total));
        let headings = [HEADINGS.map(str::to_owned)];
        let rows: Vec<[String; 4]> = headings.into_iter().chain(sets).chain(outcomes).chain(counted).collect();
        let width = |column: usize| {
            let lengths = rows.iter().map(|row| row[column].len());
            lengths.filter(|length| *length <= WIDEST_NAME).max().unwrap_or(0)
        };
        let [name, flipped, rate] = [0, 1, 2].map(width);
        let line = |[a, b, c, d]: &[String; 4]| format!("{a:<name$}  {b:>flipped$}  {c:<rate$}  {d}\n");
        format!("{}\n{}", self.subject(), rows.iter().map(line).collect::<String>())
    }

    /// The numbers of the job and of the samples.
    fn subject(&self) -> String {
        let mut parts = vec![
            format!("{} qubits", self.qubits),
            format!("{} outcomes", self.outcomes),
            format!("{} shots", self.counts().shots),
        ];
        parts.extend(self.samples.iter().map(|sample| sample.described()));
        parts.extend(self.named.map(|named| format!("named shots of the {}", named.name())));
        parts.extend(self.noiseless.as_ref().map(|noiseless| format!("noiseless bits {noiseless}")));
        parts.join(", ")
    }
}

fn set_name(set: &[u64]) -> String {
    match set {
        [] => "set -".to_owned(),
        _ => format!("set {}", set.iter().map(u64::to_string).collect::<Vec<String>>().join(",")),
    }
}

/// Five significant digits, in decimal, or with an exponent if that is easier to read.
fn number(value: f64) -> String {
    match value {
        0.0 => "0".to_owned(),
        1.0.. => format!("{value:.4}"),
        0.1.. => format!("{value:.5}"),
        0.01.. => format!("{value:.6}"),
        0.001.. => format!("{value:.7}"),
        _ => format!("{value:.4e}"),
    }
}

#[cfg(test)]
mod tests {
    use super::*;
    use crate::NamedShots;
    use crate::counts::{Counts, DRAWS, Sample};

    fn saved(counts: Counts, recorded: usize, sets: Vec<Vec<u64>>, sample: Sample) -> SavedCounts {
        let draws = DRAWS.into();
        SavedCounts {
            qubits: 3,
            outcomes: 3,
            recorded,
            job: 0,
            draws,
            samples: vec![sample],
            named: None,
            noiseless: None,
            sets,
            counts,
        }
    }

    #[test]
    fn sets_come_first() {
        let counts = Counts { shots: 1000, totals: vec![0, 20, 7], sets: vec![1000, 1], counted: Some(3) };
        let sample = saved(counts, 2, vec![vec![0, 1], vec![]], Sample::part(5, (1, 1), 1000));
        let table = "\
3 qubits, 3 outcomes, 1000 shots, seed 5
outcome or set  shots flipped  rate       95 % interval
set 0,1                  1000  1.0000     0.99617 to 1.0000
set -                       1  0.0010000  1.7655e-4 to 0.0056426
outcome 0                   0  0          0 to 0.0038268
outcome 1                  20  0.020000   0.012984 to 0.030690
counted                     3  0.0030000  0.0010208 to 0.0087830
";
        assert_eq!(sample.table(), table);
        let part = SavedCounts {
            samples: vec![Sample::part(5, (2, 3), 3000)],
            named: Some(NamedShots::InEachBlock),
            ..sample
        };
        let first = "3 qubits, 3 outcomes, 1000 shots, seed 5 (part 2/3 of 3000 shots), named shots of the block\n";
        assert!(part.table().starts_with(first), "{}", part.table());
    }

    #[test]
    fn a_long_set_stands_out() {
        let counts = Counts { shots: 10, totals: vec![1], sets: vec![2], counted: None };
        let table = saved(counts, 1, vec![(0..40).collect()], Sample::part(1, (1, 1), 10)).table();
        assert_eq!(table.lines().last(), Some("outcome 0                   1  0.10000  0.017876 to 0.40415"));
    }
}
