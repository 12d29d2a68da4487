//! Notes of document 02 that touch the same place: the cases worked out by hand, and which pairs of notes a random input shows.

use crate::chosen::{has_both_characters, shown_by_share};
use checker::calls::Calls;
use checker::job::{Instruction, usize_of};
use checker::read::read;
use generator::full::Notes;
use reference::pairs::pairs;
use reference::vectors::{Call, Input, Output};

/// Make the calls that were worked out by hand, and print what was found.
pub fn passes(under_test: &dyn Calls) -> bool {
    let (pairs, mut differences) = (pairs(), 0);
    for pair in &pairs {
        let output = pair.input.make(pair.call, under_test);
        if output.as_ref() != Some(&pair.output) {
            differences += 1;
            println!("notes {}, {}: {output:?}, not {:?}", pair.notes, pair.call.name(), pair.output);
        }
    }
    println!("pairs of notes: {} cases by hand, {differences} differences", pairs.len());
    differences == 0
}

/// The pairs of notes that meet in an input which is not refused; `7` is a job made from a seed, `all of 1` and `all of 2` one of an edition with everything
/// in it. A table of single faults shows what lies behind its first noise line.
pub fn shown(call: Call, input: &Input, output: &Output) -> Vec<&'static str> {
    if output.answer.number != 0 || output.bytes.starts_with(b"ok=0") {
        return Vec::new();
    }
    let text = if call == Call::Make { &output.bytes[..usize_of(output.answer.figure)] } else { &input.job };
    let Ok(job) = read(text) else { return Vec::new() };
    let edition = job.header.edition();
    let lines = job.lines.iter().map(|line| &line.instruction);
    let is_table = call == Call::FaultTable;
    let notes = Notes::of(lines.skip_while(|line| is_table && !matches!(line, Instruction::Noise(_))));
    let is_second = notes.controlled_y || notes.reset_list || notes.barrier;
    let says_both = is_table && has_both_characters(output);
    let of_both_parts = call == Call::RunShared && shown_by_share(input, output).contains(&"words of both parts");
    let is_counted = input.with_totals && output.totals[..usize_of(job.header.outcomes)].iter().any(|total| *total > 0);
    let all = notes.have_all_lines(edition) && (notes.have_all_noise() || matches!(call, Call::Walk | Call::Print));
    let pairs = [
        ("1+6", notes.meeting && (notes.noise || call == Call::Annotate)),
        ("3+9", notes.meeting && notes.controlled_y),
        ("5+14", of_both_parts && is_counted),
        ("6+9", notes.noise && is_second),
        ("9+13", says_both && is_second),
        ("12+13", says_both && notes.wide),
        ("7", input.seed != 0),
        ("all of 1", all && edition == 1),
        ("all of 2", all && edition == 2),
    ];
    pairs.into_iter().filter(|(_, is_shown)| *is_shown).map(|(pair, _)| pair).collect()
}

#[cfg(test)]
mod tests {
    use super::shown;
    use crate::differences::Counts;
    use checker::plain::Plain;
    use generator::inputs::input;
    use generator::random::Random;
    use reference::vectors::{CALLS, Call};

    /// The pairs that the inputs of a call must show.
    fn wanted(call: Call) -> &'static [&'static str] {
        match call {
            Call::RunShared => &["1+6", "3+9", "5+14", "6+9", "7", "all of 1", "all of 2"],
            Call::FaultTable => &["1+6", "3+9", "6+9", "9+13", "12+13", "7", "all of 1", "all of 2"],
            Call::Walk | Call::Print => &["3+9", "7", "all of 1", "all of 2"],
            Call::ByShot | Call::ByOutcome | Call::Fill => &[],
            _ => &["1+6", "3+9", "6+9", "7", "all of 1", "all of 2"],
        }
    }

    #[test]
    fn random_inputs_show_every_pair() {
        for call in CALLS {
            let mut counts = Counts::default();
            for seed in 1..=1000 {
                let input = input(&mut Random::new(seed), call);
                let output = input.make(call, &Plain).expect("it makes every call");
                counts.extend(shown(call, &input, &output));
            }
            println!("{}: {counts}", call.name());
            for pair in wanted(call) {
                assert!(counts.of(pair) >= 10, "{}: {pair}", call.name());
            }
        }
    }
}
