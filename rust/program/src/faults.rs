//! What each possible fault does, as a table and as a detector error model.

use crate::arguments::{Arguments, Flag};
use crate::commands::{examined, outcomes, write_out};
use crate::{Failure, print_stderr};
use kundatrezo::{MAX_BYTES, MAX_GROUPS, Number, Refusal};

const GROUP: Flag =
    Flag { name: "--group", value: "L..", text: "a group of outcomes, with commas between; - for an empty one" };
const DETECTOR: Flag =
    Flag { name: "--detector", value: "L..", text: "the outcomes whose sum is the next detector: D0, D1, .." };
const OBSERVABLE: Flag = Flag {
    name: "--observable",
    value: "L..",
    text: "the outcomes whose sum is the next logical observable: L0, L1, ..",
};

pub const TABLE_FLAGS: &[Flag] = &[GROUP];
pub const MODEL_FLAGS: &[Flag] = &[DETECTOR, OBSERVABLE];

pub const TABLE: &str = "\
Writes the table of single faults: for each noise line and each element of its distribution 'line=' with the
line's number in the job, 'el=' with the element's, from 0, and 'groups=' with a digit for each --group, in
their order: 1 where this fault alone changes the sum of the group's outcomes. The job's injections and flips
and all other noise count as absent, and probabilities, conditions and words play no part. A table has 1 to
16 groups, each with a --group of its own.";

pub const MODEL: &str = "\
Writes the noise of a job as a detector error model, which decoders read: a line 'error(P) D0 D1 L0' for each
element of each noise line, with its probability and the detectors and logical observables that it flips,
but for elements that never fall or flip nothing; then a line for each detector and each observable that
none of them flips. --detector or --observable is wanted, each as often as there are such sums of outcomes.";

pub const APPROXIMATION: &str = "\
Decoders take the errors of a model for independent, while of a noise line's elements one falls at most: for
small p the difference is of the order of p squared. Lines of one corr that draw alike have their errors in
common; others of that corr are taken for independent, with a note. The p of a line with a condition is that of
shots in which it holds. docs/FAULTS.md has more.";

pub fn table(arguments: &Arguments) -> Result<(), Failure> {
    let groups = groups(arguments, &GROUP)?;
    let table = call_with_groups(arguments, &[("group", &groups)], |job| kundatrezo::fault_table(job, &groups))?;
    write_out(arguments, table.text().as_bytes())
}

pub fn model(arguments: &Arguments) -> Result<(), Failure> {
    let [detectors, observables] = [groups(arguments, &DETECTOR)?, groups(arguments, &OBSERVABLE)?];
    if detectors.is_empty() && observables.is_empty() {
        return Err(Failure::Other(format!("{} or {} is wanted", DETECTOR.name, OBSERVABLE.name)));
    }
    let named = [("detector", detectors.as_slice()), ("observable", &observables)];
    let model = call_with_groups(arguments, &named, |job| kundatrezo::error_model(job, &detectors, &observables))?;
    write_out(arguments, model.to_string().as_bytes())?;
    if model.mechanisms().iter().any(|mechanism| mechanism.has_condition) {
        print_stderr("note: noise with a condition has the probability of shots in which it holds");
    }
    for correlation in model.mixed_correlations() {
        print_stderr(&format!(
            "note: lines with corr={correlation} differ in p, condition, kind or size, and are taken for independent"
        ));
    }
    Ok(())
}

/// The groups that an option names, in their order.
fn groups(arguments: &Arguments, flag: &Flag) -> Result<Vec<Vec<u64>>, Failure> {
    arguments.all_parsed(flag.name, "numbers with commas between, or -", outcomes)
}

/// Make a call on the job with these groups. A refusal has a hint.
fn call_with_groups<T>(
    arguments: &Arguments,
    groups: &[(&str, &[Vec<u64>])],
    call: impl FnOnce(&[u8]) -> Result<T, Refusal>,
) -> Result<T, Failure> {
    let (job, examined) = examined(arguments)?;
    let refused = || {
        let mut all = groups.iter().flat_map(|(what, groups)| groups.iter().map(move |group| (what, group)));
        let (what, group) = all.find(|(_, group)| examined.check_set(group).is_err())?;
        let members: Vec<String> = group.iter().map(u64::to_string).collect();
        Some(examined.outcomes_hint(&format!("the {what} {}", members.join(","))))
    };
    let hint = |refusal: &Refusal| match refusal.number {
        Number::GROUPS if refusal.line == 0 => {
            Some(format!("each {} is a group, and a table has 1 to {MAX_GROUPS} of them", GROUP.name))
        }
        Number::ROOM => {
            Some(format!("the table has more than {MAX_BYTES} bytes: leave out noise lines, and make several tables"))
        }
        _ => None,
    };
    call(&job).map_err(|refusal| match refused().filter(|_| refusal.number == Number::WALK) {
        Some(hint) => Failure::refused_list(&hint),
        None => Failure::refused(&refusal, &job, hint(&refusal)),
    })
}
