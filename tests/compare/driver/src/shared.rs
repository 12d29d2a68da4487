//! Callers with shares of one main list (note 14 of document 02): sequences of runs and settlings, each with the marks that the last one left.
//!
//! A call is compared with the same one by hand, and with the plain call on the words that are available, by the calls under test themselves. An account of the
//! words of the list is kept beside the marks: none is handed out twice, and those handed out and those left are all.

use checker::calls::{Calls, Share};
use checker::job::{Header, MAX_CALLERS, usize_of};
use checker::plain::Plain;
use checker::plain::shares::{Available, need_marks};
use generator::damage::damaged;
use generator::inputs::{damage_share, lent, main_list};
use generator::jobs::{DENSE, Shape, job_of};
use generator::random::Random;
use reference::vectors::{Call, Input, Output, input_bytes};

/// Most calls of a sequence.
const MOST_CALLS: u64 = 20;

/// Make `count` sequences of calls, and print what was found.
pub fn passes(under_test: &dyn Calls, count: u64, seed: u64) -> bool {
    let mut found = Found::default();
    for seed in (0..count).map(|k| seed.wrapping_add(k)) {
        if let Some((what, call, input)) = sequence(under_test, &mut Random::new(seed), &mut found) {
            found.differences += 1;
            if found.differences == 1 {
                println!("shares, seed {seed}, {}: {what}", call.name());
                print!("{}", String::from_utf8_lossy(&input_bytes(call, &input)));
            }
        }
    }
    let Found { calls, in_two_parts, alone, spent, refused, damaged, differences } = found;
    println!(
        "shares: {count} sequences of {calls} calls, {in_two_parts} with words of both parts, {alone} within the stretch and made again, {spent} spent, \
         {refused} refused otherwise, {damaged} with damaged shares, {differences} differences"
    );
    differences == 0
}

#[derive(Default)]
struct Found {
    calls: u64,
    in_two_parts: u64,
    alone: u64,
    spent: u64,
    refused: u64,
    damaged: u64,
    differences: u64,
}

/// A sequence of calls under the same shares, from nothing taken: what is wrong with one of them, if anything is.
fn sequence(under_test: &dyn Calls, random: &mut Random, found: &mut Found) -> Option<(String, Call, Input)> {
    let mut account = Account::new(random);
    for _ in 0..random.between(1, MOST_CALLS) {
        let call = if random.one_in(3) { Call::SettleShared } else { Call::RunShared };
        let mut input = input(random, call, &account);
        found.calls += 1;
        if random.one_in(12) {
            let mut other = input.clone();
            damage_share(random, &mut other);
            found.damaged += 1;
            if let Err(what) = differs(under_test, call, &other) {
                return Some((what, call, other));
            }
        }
        let wrong = differs(under_test, call, &input).and_then(|output| {
            match output.answer.number {
                0 => {}
                14 => found.spent += 1,
                _ => found.refused += 1,
            }
            account.moved(&input, &output, found)?;
            is_alone(under_test, call, &mut input, &output, found)
        });
        if let Err(what) = wrong {
            return Some((what, call, input));
        }
    }
    None
}

/// The main list, its shares, the marks, and which words have been handed out.
struct Account {
    main: Vec<u64>,
    shares: Vec<u64>,
    marks: Vec<u64>,
    handed: Vec<bool>,
}

impl Account {
    /// Nothing taken. Some lists are short for what the jobs read, and some shares empty, or all of the list.
    fn new(random: &mut Random) -> Self {
        let most = random.pick(&[20, 200, 1000, 4000, 4000]);
        let length = random.index(most + 1);
        let main = main_list(random, length);
        let mut left = length;
        let callers = 1 + random.index(MAX_CALLERS);
        let most = random.pick(&[10, 60, 60, length]);
        let mut shares = Vec::new();
        for _ in 0..callers {
            let share = match random.below(5) {
                0 => 0,
                1 if random.one_in(4) => left,
                _ => random.index(most.min(left) + 1),
            };
            shares.push(share as u64);
            left -= share;
        }
        let beyond = random.index(3);
        let marks = (0..=callers).map(|_| 0).chain((0..beyond).map(|_| random.word())).collect();
        Self { main, shares, marks, handed: vec![false; length] }
    }

    /// Take over the marks that a call left: only those of its caller and of the common part have moved, over words that were free; what is handed out and what
    /// is left make the list's length.
    fn moved(&mut self, input: &Input, output: &Output, found: &mut Found) -> Result<(), String> {
        let callers = self.shares.len();
        let starts: Vec<u64> =
            self.shares.iter().scan(0, |end, share| Some(std::mem::replace(end, *end + share))).collect();
        let common = self.shares.iter().sum();
        let mut parts = 0;
        for (place, (&old, &new)) in self.marks.iter().zip(&output.marks).enumerate() {
            if old == new {
                continue;
            }
            let start = match place {
                _ if place == callers => common,
                _ if place as u64 == input.caller => starts[place],
                _ => return Err(format!("mark {place} has moved")),
            };
            parts += 1;
            for word in start + old..start + new {
                let handed = self.handed.get_mut(usize_of(word)).ok_or("a word past the list")?;
                if std::mem::replace(handed, true) {
                    return Err(format!("word {word} is handed out twice"));
                }
            }
        }
        found.in_two_parts += u64::from(parts == 2);
        self.marks.clone_from(&output.marks);
        let handed = self.handed.iter().filter(|handed| **handed).count() as u64;
        let left: u64 = self.shares.iter().zip(&self.marks).map(|(share, mark)| share - mark).sum();
        let length = self.main.len() as u64;
        if handed + left + (length - common - self.marks[callers]) != length {
            return Err(format!("{handed} words handed out, {left} left in stretches, do not make {length}"));
        }
        Ok(())
    }
}

/// A call of a job of few shots; now and then of a damaged one, with short lists, or by a caller that there isn't.
fn input(random: &mut Random, call: Call, account: &Account) -> Input {
    let limits = Header { edition: None, qubits: 5, outcomes: 6, shots: random.pick(&[1, 2, 5, 20, 66]) };
    let lines = random.between(0, 12);
    let made = job_of(random, limits, lines, &Shape { noise: 12, ..DENSE });
    let mut input = lent(random, call.unshared(), &made.bytes());
    if random.one_in(12) {
        input.job = damaged(random, &input.job);
    }
    let callers = account.shares.len() as u64;
    input.caller = if random.one_in(30) { callers } else { random.below(callers) };
    input.with_totals = true;
    Input { main: account.main.clone(), shares: account.shares.clone(), marks: account.marks.clone(), ..input }
}

/// Make a call under test, by hand, and as the plain call on the available words: what it answers and leaves, or how they differ.
fn differs(under_test: &dyn Calls, call: Call, input: &Input) -> Result<Output, String> {
    let made = |call, input: &Input, calls| Input::make(input, call, calls).expect("a call of the library");
    let output = made(call, input, under_test);
    let by_hand = made(call, input, &Plain);
    if output != by_hand {
        return Err(format!(
            "{:?} with marks {:?}, not {:?} with {:?}",
            output.answer, output.marks, by_hand.answer, by_hand.marks
        ));
    }
    let mut marks = input.marks.clone();
    let share = Share { shares: &input.shares, marks: &mut marks, caller: input.caller };
    if need_marks(&share).is_ok()
        && let Ok(available) = Available::of(&input.main, &share)
    {
        let plain = made(call.unshared(), &Input { main: available.words, ..input.clone() }, under_test);
        if plain != (Output { marks: Vec::new(), ..output.clone() }) {
            return Err(format!("{:?}, and the plain call {:?}", output.answer, plain.answer));
        }
    }
    Ok(output)
}

/// A call whose job stayed within the stretch, made again where the others have taken all that they may: it is the same.
fn is_alone(
    under_test: &dyn Calls,
    call: Call,
    input: &mut Input,
    output: &Output,
    found: &mut Found,
) -> Result<(), String> {
    let (callers, caller) = (input.shares.len(), usize_of(input.caller));
    if output.answer.number != 0 || input.marks[callers] != output.marks[callers] {
        return Ok(());
    }
    found.alone += 1;
    for place in (0..callers).filter(|place| *place != caller) {
        input.marks[place] = input.shares[place];
    }
    input.marks[callers] = input.main.len() as u64 - input.shares.iter().sum::<u64>();
    let mut again = input.make(call, under_test).expect("it was made before");
    if again.marks[caller] != output.marks[caller] {
        return Err("its stretch is marked otherwise where the others took all".into());
    }
    again.marks.clone_from(&output.marks);
    if again != *output { Err(format!("{:?} where the others took all", again.answer)) } else { Ok(()) }
}

#[cfg(test)]
mod tests {
    use checker::plain::Plain;
    use reference::Reference;

    #[test]
    fn the_published_code_on_the_words_available_is_the_plain_form() {
        assert!(super::passes(&Reference, 200, 1));
        assert!(super::passes(&Plain, 200, 1));
    }
}
