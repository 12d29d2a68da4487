//! Forward and back: the sum of a set's deltas in a shot is the walk's count on the settled text modulo 2.
//!
//! Small jobs are gone through in full, every set of recorded outcomes and every shot; larger ones by a sample.

use crate::minimise::minimised;
use checker::calls::Calls;
use checker::job::{Header, Job};
use checker::plain::bit;
use checker::read::read;
use generator::inputs::lent;
use generator::jobs::{ANY, SMALL, Shape, job};
use generator::random::Random;
use reference::vectors::{Call, Input, input_bytes};

/// Jobs of which a sample is taken.
const LARGER: Shape = Shape { limits: Header { shots: 200, ..ANY.limits }, lines: 150, ..ANY };

/// How many sets and shots of a larger job are looked at.
const SAMPLE: usize = 24;

/// Go through `count` jobs, and print what was found. The deltas, the settled text and the count are all of the calls under test.
pub fn passes(under_test: &dyn Calls, count: u64, seed: u64) -> bool {
    let (mut refused, mut compared, mut odd, mut differences) = (0, 0, 0, 0);
    for seed in (0..count).map(|k| seed.wrapping_add(k)) {
        let random = &mut Random::new(seed);
        let shape = if random.one_in(4) { LARGER } else { SMALL };
        let bytes = job(random, &shape).bytes();
        let input = lent(random, Call::Run, &bytes);
        let Some(pairs) = sums_and_counts(under_test, &input) else {
            refused += 1;
            continue;
        };
        let wrong = pairs.iter().filter(|pair| pair.differ()).count();
        if wrong > 0 && differences == 0 {
            report(under_test, &input, seed);
        }
        compared += pairs.len();
        odd += pairs.iter().filter(|pair| pair.sum).count();
        differences += wrong;
    }
    println!(
        "backward: {count} jobs, {refused} of them refused, {compared} sets and shots, {odd} sums odd, {differences} differences"
    );
    differences == 0
}

/// A set and a shot.
struct Pair {
    set: Vec<u64>,
    shot: u64,
    /// The sum of the set's deltas in the shot.
    sum: bool,
    /// What the walk counts on the settled text; none where settling or the walk refused.
    count: Option<u64>,
}

impl Pair {
    fn differ(&self) -> bool {
        self.count.map(|count| count % 2) != Some(u64::from(self.sum))
    }
}

/// Sets and shots of a job; none where the run refuses.
fn sums_and_counts(calls: &dyn Calls, input: &Input) -> Option<Vec<Pair>> {
    let ran = input.make(Call::Run, calls).filter(|ran| ran.answer.number == 0)?;
    let job = read(&input.job).ok()?;
    let settled = settled(calls, input)?;
    let pair = |(set, shot): (Vec<u64>, u64)| {
        let sum = set.iter().fold(false, |sum, &id| sum ^ bit(&ran.deltas, &job.header, id, shot));
        let walked = calls.walk(&settled, shot, &set);
        let count = (walked.number == 0).then_some(walked.figure);
        Pair { set, shot, sum, count }
    };
    Some(sets_and_shots(&job).into_iter().map(pair).collect())
}

/// All sets and shots of a small job, some of a larger one.
fn sets_and_shots(job: &Job<'_>) -> Vec<(Vec<u64>, u64)> {
    let (recorded, shots) = (job.recorded, job.header.shots);
    if recorded <= SMALL.limits.outcomes && shots <= SMALL.limits.shots {
        let members = |members: u64| (0..recorded).filter(|id| members >> id & 1 == 1).collect::<Vec<u64>>();
        let of_shot = |shot| (0..1 << recorded).map(move |set| (members(set), shot));
        return (0..shots).flat_map(of_shot).collect();
    }
    let random = &mut Random::new(recorded);
    let mut sample = || {
        let count = random.index(5);
        (random.subset(recorded, count), random.below(shots))
    };
    (0..SAMPLE).map(|_| sample()).collect()
}

/// The settled text; empty, so that no walk takes it, where settling refuses. None where it is too long to be written.
fn settled(calls: &dyn Calls, input: &Input) -> Option<Vec<u8>> {
    let mut text = vec![0; 1 << 20];
    let answer = calls.settle(&input.job, input.draws(), &input.noiseless, &mut text);
    let written = if answer.number == 0 { answer.figure } else { 0 };
    text.truncate(usize::try_from(written).unwrap_or(0));
    (answer.number != 15).then_some(text)
}

fn report(calls: &dyn Calls, input: &Input, seed: u64) {
    let first_wrong = |input: &Input| sums_and_counts(calls, input)?.into_iter().find(Pair::differ);
    let least = minimised(input, |input| first_wrong(input).is_some());
    println!("sum and count differ, seed {seed}, at its smallest:");
    print!("{}", String::from_utf8_lossy(&input_bytes(Call::Run, &least)));
    if let Some(pair) = first_wrong(&least) {
        println!("set {:?}, shot {}: sum {}, count {:?}", pair.set, pair.shot, u8::from(pair.sum), pair.count);
        let settled = settled(calls, &least).unwrap_or_default();
        println!("settled:\n{}", String::from_utf8_lossy(&settled));
    }
}

#[cfg(test)]
mod tests {
    use checker::plain::Plain;
    use reference::Reference;

    #[test]
    fn the_reference_agrees_forward_and_back() {
        assert!(super::passes(&Reference, 300, 1));
    }

    #[test]
    fn the_plain_calls_agree_forward_and_back() {
        assert!(super::passes(&Plain, 300, 1));
    }
}
