//! The stored vectors.

use crate::shots::{Ran, Said};
use checker::calls::Calls;
use checker::gaps::Gaps;
use checker::job::usize_of;
use checker::read::read;
use generator::inputs::input;
use generator::random::Random;
use reference::Reference;
use reference::stored::{Case, NOTES, Tie, folder, held, held_in};
use reference::vectors::{CALLS, Call, case_bytes};
use std::io::Write;

/// The longest case that is written.
const MOST_BYTES: usize = 6_000;

/// Write `count` cases of a call to standard output, answered by the reference: those of the seeds from `seed` on that aren't too long.
pub fn write(call: Call, count: u64, seed: u64) -> bool {
    let mut out = std::io::stdout().lock();
    let mut number = 1;
    for seed in (0..).map(|k| seed.wrapping_add(k)) {
        if number > count {
            break;
        }
        let bytes = case_bytes(call, &case(call, number, seed));
        if bytes.len() <= MOST_BYTES {
            number += 1;
            if out.write_all(&bytes).is_err() {
                return false;
            }
        }
    }
    true
}

fn case(call: Call, number: u64, seed: u64) -> Case {
    let input = input(&mut Random::new(seed), call);
    let output = input.make(call, &Reference).expect("the reference makes every call");
    Case { number, input, output, hashes: Vec::new(), tie: None }
}

/// Answer the vectors by the reference and by the calls under test, and print what was found.
pub fn passes(under_test: &dyn Calls) -> bool {
    CALLS.into_iter().fold(true, |passed, call| answers(under_test, call) & passed) & ties(under_test)
}

/// See that what is said of some runs together is so of what the calls under test leave, and print what was found.
fn ties(under_test: &dyn Calls) -> bool {
    let cases = held_in(NOTES, Call::Run);
    let ran = |number: u64| {
        let input = &cases.iter().find(|case| case.number == number)?.input;
        let job = Gaps::of_job(read(&input.job).ok()?);
        Ran::of(job, &input.make(Call::Run, under_test)?)
    };
    let totals = |number: u64| {
        let input = &cases.iter().find(|case| case.number == number)?.input;
        let outcomes = usize_of(read(&input.job).ok()?.header.outcomes);
        Some(input.make(Call::Run, under_test)?.totals[..outcomes].to_vec())
    };
    let is_so = |case: &Case, tie: &Tie| {
        let own = || ran(case.number);
        Some(match tie {
            Tie::Apart(other, kept) => own()?.apart(&ran(*other)?, &|shot| kept.contains(&shot))? == Said::Equal,
            Tie::Sum([one, other]) => own()?.sum(&ran(*one)?, &ran(*other)?)? == Said::Equal,
            Tie::NoSum([one, other]) => own()?.sum(&ran(*one)?, &ran(*other)?)? == Said::Differ,
            Tie::SettledFrom(other) => totals(case.number)? == totals(*other)?,
        })
    };
    // a settled text may hold before the noise that it comes from does
    let is_held = |tie: &Tie| match tie {
        Tie::SettledFrom(other) => cases.iter().any(|case| case.number == *other),
        _ => true,
    };
    let tied = cases.iter().filter_map(|case| Some((case, case.tie.as_ref()?)));
    let tied: Vec<(&Case, &Tie)> = tied.filter(|(_, tie)| is_held(tie)).collect();
    let wrong: Vec<_> = tied.iter().filter(|(case, tie)| is_so(case, tie) != Some(true)).collect();
    for (case, tie) in &wrong {
        println!("run case {}: {tie:?} is not so", case.number);
    }
    println!("runs together: {} cases, {} differences", tied.len(), wrong.len());
    wrong.is_empty()
}

/// The same for a single call.
pub fn answers(under_test: &dyn Calls, call: Call) -> bool {
    if !folder().is_dir() {
        println!("vectors of {}: skipped, none at {}", call.name(), folder().display());
        return true;
    }
    let cases = held(call);
    let mut differences = 0;
    for case in &cases {
        // Of the calls only the engine's measure a text without building it.
        let (by_hand, by_engine) = (case.can_be_built(), case.can_be_built() || cfg!(feature = "linked"));
        let reference = by_hand.then_some(("reference", &Reference as &dyn Calls));
        for (name, calls) in reference.into_iter().chain(by_engine.then_some(("under test", under_test))) {
            let Some(output) = case.input.make(call, calls) else {
                continue;
            };
            if !case.allows(&output) {
                differences += 1;
                println!(
                    "{} case {}, {name}: {:?}, not {:?}",
                    call.name(),
                    case.number,
                    output.answer,
                    case.output.answer
                );
            }
        }
    }
    println!("vectors of {}: {} cases, {differences} differences", call.name(), cases.len());
    differences == 0
}

#[cfg(test)]
mod tests {
    use super::case;
    use reference::stored::cases;
    use reference::vectors::{CALLS, case_bytes};

    #[test]
    fn written_cases_read_as_they_were() {
        for call in CALLS {
            let written: Vec<_> = (1..40).map(|number| case(call, number, number)).collect();
            let bytes: Vec<u8> = written.iter().flat_map(|case| case_bytes(call, case)).collect();
            let read = cases(call, &bytes);
            assert_eq!(read.len(), written.len());
            for (read, written) in read.iter().zip(&written) {
                assert_eq!(case_bytes(call, read), case_bytes(call, written));
                assert!(read.allows(&written.output), "{} case {}", call.name(), read.number);
            }
        }
    }
}
