//! Note 11 of document 02 on runs. Two jobs without noise that differ only in injections and flips of shots outside a set leave the same bits in the
//! shots of the set; and a job that holds just the injections and flips of two leaves the exclusive or of what they leave.

use crate::clauses::{PAIRS, TRIPLES};
use checker::calls::Calls;
use checker::gaps::Gaps;
use checker::job::{Header, usize_of};
use generator::faults::{apart, beside, scattered, sum};
use generator::jobs::{ANY, DENSE, Shape};
use generator::random::Random;
use reference::vectors::{Call, Input, Output};

/// Jobs with shots enough for rows of several words.
const WIDE: Shape = Shape { limits: Header { shots: 200, ..ANY.limits }, ..ANY };

/// What a half of the note says of some jobs, and what their runs show.
#[derive(Debug, Clone, Copy, PartialEq, Eq)]
pub enum Said {
    /// It says that bits are equal, and they are.
    Equal,
    /// It says nothing, and bits differ.
    Differ,
    /// It says nothing, and bits are equal all the same.
    Nothing,
}

impl Said {
    /// None where the note is wrong.
    fn of(holds: bool, equal: bool) -> Option<Self> {
        match (holds, equal) {
            (true, true) => Some(Self::Equal),
            (true, false) => None,
            (false, false) => Some(Self::Differ),
            (false, true) => Some(Self::Nothing),
        }
    }
}

/// A job and the rows that its run leaves: X, Z and deltas, one after the other.
pub struct Ran {
    job: Gaps,
    rows: Vec<u64>,
}

impl Ran {
    /// A job with what its run leaves; none where the run refuses.
    pub fn of(job: Gaps, output: &Output) -> Option<Self> {
        let (frames, outcomes) = (job.header.frame_words(), job.header.outcome_words());
        let needed = || [&output.frames_x[..frames], &output.frames_z[..frames], &output.deltas[..outcomes]].concat();
        let rows = (output.answer.number == 0).then(needed)?;
        Some(Self { job, rows })
    }

    /// Run a job without noise in memory of any contents and of any length that is enough.
    fn made(calls: &dyn Calls, random: &mut Random, job: &Gaps) -> Option<Self> {
        let (frames, outcomes) = (job.header.frame_words(), job.header.outcome_words());
        let mut words = |need: usize| (0..need + random.index(4)).map(|_| random.word()).collect::<Vec<u64>>();
        let input = Input {
            job: job.bytes(),
            main: words(0),
            second: words(0),
            noiseless: words(outcomes),
            frames_x: words(frames),
            frames_z: words(frames),
            deltas: words(outcomes),
            with_totals: true,
            totals: words(usize_of(job.header.outcomes)),
            base: random.word(),
            ..Input::default()
        };
        Self::of(job.clone(), &input.make(Call::Run, calls)?)
    }

    /// Whether the runs of two jobs with one header leave the same bits in these shots.
    fn is_same_in(&self, other: &Self, in_set: &dyn Fn(u64) -> bool) -> bool {
        let shots = 0..self.job.header.shots;
        let mut mask = vec![0_u64; self.job.header.row_words()];
        shots.filter(|shot| in_set(*shot)).for_each(|shot| mask[usize_of(shot / 64)] |= 1 << (shot % 64));
        let mut words = self.rows.iter().zip(&other.rows).zip(mask.iter().cycle());
        self.rows.len() == other.rows.len() && words.all(|((one, other), mask)| (one ^ other) & mask == 0)
    }

    /// What is said of two jobs and a set of shots.
    pub fn apart(&self, other: &Self, in_set: &dyn Fn(u64) -> bool) -> Option<Said> {
        Said::of(self.job.is_apart(&other.job, in_set), self.is_same_in(other, in_set))
    }

    /// What is said of this job and two others.
    pub fn sum(&self, one: &Self, other: &Self) -> Option<Said> {
        let rows: Vec<u64> = one.rows.iter().zip(&other.rows).map(|(one, other)| one ^ other).collect();
        Said::of(self.job.is_sum(&one.job, &other.job), self.rows == rows)
    }
}

/// Run pairs of jobs, `count` at random and those of `clauses`, and print what was found.
pub fn apart_passes(calls: &dyn Calls, count: u64, seed: u64) -> bool {
    let (mut elsewhere, mut differences) = (0, 0);
    for seed in (0..count).map(|k| seed.wrapping_add(k)) {
        let random = &mut Random::new(seed);
        let first = first(random);
        let kept = random.between(1, 3);
        let shots: Vec<bool> = (0..first.header.shots).map(|_| random.below(4) < kept).collect();
        let second = apart(random, &first, &shots);
        differences += differs(calls, "a pair", seed, [first, second], Said::Equal, |[one, other]| {
            elsewhere += u64::from(!one.is_same_in(other, &|shot| !shots[usize_of(shot)]));
            one.apart(other, &|shot| shots[usize_of(shot)])
        });
    }
    for (what, shots, jobs, said) in PAIRS {
        let jobs = jobs.map(crate::clauses::job);
        differences +=
            differs(calls, what, seed, jobs, *said, |[one, other]| one.apart(other, &|shot| shots.contains(&shot)));
    }
    let chosen = PAIRS.len();
    println!(
        "apart: {count} pairs, {elsewhere} differ in other shots, {chosen} chosen pairs, {differences} differences"
    );
    differences == 0
}

/// Run triples of jobs, `count` at random and those of `clauses`, and print what was found.
pub fn add_passes(calls: &dyn Calls, count: u64, seed: u64) -> bool {
    let (mut shared, mut differences) = (0, 0);
    for seed in (0..count).map(|k| seed.wrapping_add(k)) {
        let random = &mut Random::new(seed);
        let first = first(random);
        let second = beside(random, &first);
        let both = sum(random, &first, &second);
        let mut gaps = first.faults.iter().zip(&second.faults);
        shared += u64::from(gaps.any(|(one, other)| one.iter().any(|fault| other.contains(fault))));
        let said = |[one, other, both]: [&Ran; 3]| both.sum(one, other);
        differences += differs(calls, "a triple", seed, [first, second, both], Said::Equal, said);
    }
    for (what, jobs, said) in TRIPLES {
        let jobs = jobs.map(crate::clauses::job);
        differences += differs(calls, what, seed, jobs, *said, |[one, other, both]| both.sum(one, other));
    }
    let chosen = TRIPLES.len();
    println!("add: {count} triples, {shared} with a fault of both, {chosen} chosen triples, {differences} differences");
    differences == 0
}

fn first(random: &mut Random) -> Gaps {
    let shape = if random.one_in(2) { DENSE } else { WIDE };
    scattered(random, &shape)
}

/// Run some jobs: 1, with a report, unless their runs show what is expected.
fn differs<const N: usize>(
    calls: &dyn Calls,
    what: &str,
    seed: u64,
    jobs: [Gaps; N],
    expected: Said,
    said: impl FnOnce([&Ran; N]) -> Option<Said>,
) -> u64 {
    let random = &mut Random::new(seed);
    let ran = jobs.each_ref().map(|job| Ran::made(calls, random, job));
    let found = ran.iter().all(Option::is_some).then(|| said(ran.each_ref().map(|ran| ran.as_ref().expect("all ran"))));
    if found == Some(Some(expected)) {
        return 0;
    }
    println!("{what}, seed {seed}: {found:?}, not {expected:?}");
    for job in &jobs {
        println!("{}", String::from_utf8_lossy(&job.bytes()));
    }
    1
}

#[cfg(test)]
mod tests {
    use super::{add_passes, apart_passes};
    use checker::calls::{Answer, Asked, Calls, Draws, Rows, Share};
    use checker::gaps::Gaps;
    use checker::job::Instruction;
    use checker::plain::Plain;
    use checker::read::read;
    use reference::Reference;

    #[test]
    fn the_published_code_keeps_shots_apart_and_adds_faults() {
        assert!(apart_passes(&Reference, 200, 1));
        assert!(add_passes(&Reference, 200, 1));
    }

    #[test]
    fn the_plain_calls_keep_shots_apart_and_add_faults() {
        assert!(apart_passes(&Plain, 200, 1));
        assert!(add_passes(&Plain, 200, 1));
    }

    /// Runs a job that is changed first.
    struct Changed(fn(&mut Gaps));

    impl Calls for Changed {
        fn check(&self, job: &[u8]) -> Answer {
            Plain.check(job)
        }

        fn run(&self, job: &[u8], draws: Draws<'_>, noiseless: &[u64], rows: Rows<'_>) -> Answer {
            let mut job = Gaps::of_job(read(job).expect("an accepted job"));
            (self.0)(&mut job);
            Plain.run(&job.bytes(), draws, noiseless, rows)
        }

        fn settle(&self, job: &[u8], draws: Draws<'_>, noiseless: &[u64], out: &mut [u8]) -> Answer {
            Plain.settle(job, draws, noiseless, out)
        }

        fn run_shared(
            &self,
            job: &[u8],
            draws: Draws<'_>,
            noiseless: &[u64],
            rows: Rows<'_>,
            share: Share<'_>,
        ) -> Answer {
            Plain.run_shared(job, draws, noiseless, rows, share)
        }

        fn settle_shared(
            &self,
            job: &[u8],
            draws: Draws<'_>,
            noiseless: &[u64],
            share: Share<'_>,
            out: &mut [u8],
        ) -> Answer {
            Plain.settle_shared(job, draws, noiseless, share, out)
        }

        fn walk(&self, job: &[u8], shot: u64, set: &[u64]) -> Answer {
            Plain.walk(job, shot, set)
        }

        fn annotate(&self, job: &[u8], p: u64, out: &mut [u8]) -> Answer {
            Plain.annotate(job, p, out)
        }

        fn locations(&self, job: &[u8]) -> Answer {
            Plain.locations(job)
        }

        fn correlation(&self, job: &[u8]) -> Answer {
            Plain.correlation(job)
        }

        fn fault_table(&self, job: &[u8], groups: &[u64], out: &mut [u8]) -> Answer {
            Plain.fault_table(job, groups, out)
        }

        fn by_shot(&self, outcomes: u64, shots: u64, deltas: &[u64], rows: &mut [u64]) -> Answer {
            Plain.by_shot(outcomes, shots, deltas, rows)
        }

        fn by_outcome(&self, outcomes: u64, shots: u64, rows: &[u64], deltas: &mut [u64]) -> Answer {
            Plain.by_outcome(outcomes, shots, rows, deltas)
        }

        fn fill(&self, seed: u64, words: &mut [u64]) -> Answer {
            Plain.fill(seed, words)
        }

        fn make(&self, asked: Asked, out: &mut [u8]) -> Answer {
            Plain.make(asked, out)
        }

        fn print(&self, input: &[u8]) -> Option<Vec<u8>> {
            Plain.print(input)
        }
    }

    /// A fault that comes twice between the same lines is run once: faults do not add.
    #[test]
    fn a_single_copy_is_found() {
        let single = Changed(|job| {
            for gap in &mut job.faults {
                let all = std::mem::take(gap);
                all.into_iter().for_each(|fault| {
                    if !gap.contains(&fault) {
                        gap.push(fault)
                    }
                });
            }
        });
        assert!(!add_passes(&single, 20, 1));
    }

    /// A fault is run in the shot of the one before it: shots are not apart.
    #[test]
    fn a_fault_in_another_shot_is_found() {
        let moved = Changed(|job| {
            for gap in &mut job.faults {
                let shots: Vec<_> = gap.iter().filter_map(checker::gaps::fault_shot).collect();
                for (fault, before) in gap.iter_mut().skip(1).zip(shots) {
                    if let Instruction::Inject { shot, .. } | Instruction::Flip { shot, .. } = fault {
                        *shot = before;
                    }
                }
            }
        });
        assert!(!apart_passes(&moved, 20, 1));
    }
}
