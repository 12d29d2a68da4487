//! A run with its draws beside a run of its settled text, which needs none: frames and deltas are the same.

use checker::calls::Calls;
use checker::job::Header;
use generator::inputs::lent;
use generator::jobs::{ANY, Shape, job};
use generator::random::Random;
use reference::vectors::{Call, Input, Output, input_bytes};

/// Jobs with shots enough for rows of several words.
const SHAPE: Shape = Shape { limits: Header { shots: 200, ..ANY.limits }, ..ANY };

/// Run `count` jobs in both ways, and print what was found. Jobs that a run or settling refuses are left out.
pub fn passes(under_test: &dyn Calls, count: u64, seed: u64) -> bool {
    let (mut compared, mut differences) = (0, 0);
    for seed in (0..count).map(|k| seed.wrapping_add(k)) {
        let random = &mut Random::new(seed);
        let bytes = job(random, &SHAPE).bytes();
        let input = lent(random, Call::Run, &bytes);
        let Some((drawn, settled)) = both(under_test, &input) else {
            continue;
        };
        compared += 1;
        if drawn != settled {
            differences += 1;
            let text = input_bytes(Call::Run, &input);
            println!("a settled text runs otherwise, seed {seed}:\n{}", String::from_utf8_lossy(&text));
        }
    }
    println!("settled: {count} jobs, {compared} of them run in both ways, {differences} differences");
    differences == 0
}

fn both(calls: &dyn Calls, input: &Input) -> Option<(Output, Output)> {
    let succeeds = |output: &Output| output.answer.number == 0;
    let drawn = input.make(Call::Run, calls).filter(succeeds)?;
    let mut text = input.clone();
    text.out_len = 1 << 20;
    let settled = text.make(Call::Settle, calls).filter(succeeds)?;
    text.job = settled.bytes[..usize::try_from(settled.answer.figure).ok()?].to_vec();
    text.main.clear();
    text.second.clear();
    let rerun = text.make(Call::Run, calls)?;
    Some((drawn, rerun))
}

#[cfg(test)]
mod tests {
    use reference::Reference;

    #[test]
    fn the_published_code_runs_a_settled_text_alike() {
        assert!(super::passes(&Reference, 200, 1));
    }
}
