//! A call under test beside the reference, on random inputs.

use crate::minimise::minimised;
use crate::pairs::shown;
use checker::calls::Calls;
use generator::inputs::input;
use generator::random::Random;
use reference::Reference;
use reference::vectors::{Call, Input, Output, input_bytes};
use std::collections::BTreeMap;
use std::fmt;

/// How often each of some things came.
#[derive(Default)]
pub struct Counts<T>(BTreeMap<T, u64>);

impl<T: Ord> Counts<T> {
    /// How often one came.
    #[cfg(test)]
    pub fn of(&self, thing: &T) -> u64 {
        self.0.get(thing).copied().unwrap_or(0)
    }

    fn add(&mut self, other: Self) {
        for (thing, count) in other.0 {
            *self.0.entry(thing).or_default() += count;
        }
    }
}

impl<T: Ord> Extend<T> for Counts<T> {
    fn extend<Things: IntoIterator<Item = T>>(&mut self, things: Things) {
        for thing in things {
            *self.0.entry(thing).or_default() += 1;
        }
    }
}

impl<T: fmt::Display> fmt::Display for Counts<T> {
    fn fmt(&self, f: &mut fmt::Formatter<'_>) -> fmt::Result {
        let counts: Vec<_> = self.0.iter().map(|(thing, count)| format!("{thing}:{count}")).collect();
        f.write_str(&counts.join(" "))
    }
}

/// How often each number came; 0 stands for success.
pub type Refusals = Counts<u64>;

/// Compare a call on `count` inputs, print what was found and add its refusals to `all`. Input k has the seed `seed` + k.
pub fn passes(under_test: &dyn Calls, call: Call, count: u64, seed: u64, all: &mut Refusals) -> bool {
    let name = call.name();
    let (mut refusals, mut pairs) = (Refusals::default(), Counts::default());
    let (mut second, mut differences) = (0, 0);
    for seed in (0..count).map(|k| seed.wrapping_add(k)) {
        let input = input(&mut Random::new(seed), call);
        let expected = input.make(call, &Reference).expect("the reference makes every call");
        let Some(actual) = input.make(call, under_test) else {
            println!("{name}: skipped, its program isn't at hand");
            return true;
        };
        refusals.extend([number(&expected)]);
        pairs.extend(shown(call, &input, &expected));
        second += u64::from(input.job.starts_with(b"op=job edition=2 "));
        if expected != actual {
            differences += 1;
            if differences == 1 {
                report(under_test, call, seed, &input);
            }
        }
    }
    let jobs = if call.is_on_job() { format!(", {second} of the second edition") } else { String::new() };
    let notes = if pairs.0.is_empty() { String::new() } else { format!(", notes {pairs}") };
    println!("{name}: {count} inputs{jobs}{notes}, refusals {refusals}, {differences} differences");
    all.add(refusals);
    differences == 0
}

/// The refusal's number, also where it was printed.
pub fn number(output: &Output) -> u64 {
    let printed = String::from_utf8_lossy(&output.bytes);
    let refusal = printed.strip_prefix("ok=0 refusal=").and_then(|rest| rest.split(' ').next()?.parse().ok());
    refusal.unwrap_or(output.answer.number)
}

/// Print a difference at its smallest.
pub fn report(under_test: &dyn Calls, call: Call, seed: u64, input: &Input) {
    // Only inputs that both sides answer by the same two numbers count, so that one difference isn't reduced to another.
    let outputs = |input: &Input| {
        let expected = input.make(call, &Reference).expect("the reference makes every call");
        let actual = input.make(call, under_test).expect("it was made before");
        (expected, actual)
    };
    let numbers = |(expected, actual): &(Output, Output)| (number(expected), number(actual));
    let first = numbers(&outputs(input));
    let least = minimised(input, |input| {
        let both = outputs(input);
        numbers(&both) == first && both.0 != both.1
    });
    println!("difference in {}, seed {seed}, at its smallest:", call.name());
    print!("{}", String::from_utf8_lossy(&input_bytes(call, &least)));
    for (name, calls) in [("expected", &Reference as &dyn Calls), ("got", under_test)] {
        let output = least.make(call, calls).expect("it was made before");
        println!("{name} {:?}", output.answer);
        let words = [
            ("frames_x", &output.frames_x),
            ("frames_z", &output.frames_z),
            ("deltas", &output.deltas),
            ("totals", &output.totals),
            ("rows", &output.rows),
            ("words", &output.words),
            ("marks", &output.marks),
        ];
        for (key, words) in words.into_iter().filter(|(_, words)| !words.is_empty()) {
            println!("{name} {key} {words:x?}");
        }
        if !output.bytes.is_empty() {
            println!("{name} bytes {:?}", String::from_utf8_lossy(&output.bytes));
        }
    }
}

#[cfg(test)]
mod tests {
    use super::{Refusals, passes};
    use checker::calls::{Answer, Asked, Calls, Draws, Rows, Share};
    use checker::job::{OF_CALLS, TESTS};
    use checker::plain::Plain;
    use reference::vectors::CALLS;

    #[test]
    fn the_plain_calls_agree_with_the_reference_and_every_refusal_comes() {
        let mut refusals = Refusals::default();
        for call in CALLS {
            assert!(passes(&Plain, call, 300, 1, &mut refusals));
        }
        println!("refusals of all calls: {refusals}");
        let numbers = [0].into_iter().chain(TESTS).chain(OF_CALLS);
        let missing: Vec<u64> = numbers.filter(|number| refusals.of(number) == 0).collect();
        assert_eq!(missing, []);
    }

    /// Refuses everything.
    struct Refusing;

    impl Calls for Refusing {
        fn check(&self, _: &[u8]) -> Answer {
            Answer { number: 1, ..Answer::default() }
        }

        fn run(&self, job: &[u8], _: Draws<'_>, _: &[u64], _: Rows<'_>) -> Answer {
            self.check(job)
        }

        fn settle(&self, job: &[u8], _: Draws<'_>, _: &[u64], _: &mut [u8]) -> Answer {
            self.check(job)
        }

        fn run_shared(&self, job: &[u8], _: Draws<'_>, _: &[u64], _: Rows<'_>, _: Share<'_>) -> Answer {
            self.check(job)
        }

        fn settle_shared(&self, job: &[u8], _: Draws<'_>, _: &[u64], _: Share<'_>, _: &mut [u8]) -> Answer {
            self.check(job)
        }

        fn walk(&self, job: &[u8], _: u64, _: &[u64]) -> Answer {
            self.check(job)
        }

        fn annotate(&self, job: &[u8], _: u64, _: &mut [u8]) -> Answer {
            self.check(job)
        }

        fn locations(&self, job: &[u8]) -> Answer {
            self.check(job)
        }

        fn correlation(&self, job: &[u8]) -> Answer {
            self.check(job)
        }

        fn fault_table(&self, job: &[u8], _: &[u64], _: &mut [u8]) -> Answer {
            self.check(job)
        }

        fn by_shot(&self, _: u64, _: u64, _: &[u64], _: &mut [u64]) -> Answer {
            self.check(&[])
        }

        fn by_outcome(&self, _: u64, _: u64, _: &[u64], _: &mut [u64]) -> Answer {
            self.check(&[])
        }

        fn fill(&self, _: u64, _: &mut [u64]) -> Answer {
            self.check(&[])
        }

        fn make(&self, _: Asked, _: &mut [u8]) -> Answer {
            self.check(&[])
        }

        fn print(&self, _: &[u8]) -> Option<Vec<u8>> {
            Some(b"ok=0 refusal=1 line=0\n".to_vec())
        }
    }

    #[test]
    fn a_wrong_call_is_found() {
        for call in CALLS {
            assert!(!passes(&Refusing, call, 20, 1, &mut Refusals::default()));
        }
    }
}
