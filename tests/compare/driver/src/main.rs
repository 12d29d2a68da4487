//! `compare`: the engine beside the reference, on random jobs.
//!
//! Each comparison prints its seed, what was compared, and the number of differences; a difference gives exit status 1 and its smallest form.

mod bench;
mod block;
mod brute;
mod chosen;
mod clauses;
mod differences;
#[cfg(feature = "linked")]
mod fuzz;
#[cfg(feature = "linked")]
mod linked;
mod made;
mod minimise;
mod pairs;
#[cfg(feature = "linked")]
mod raw;
mod replay;
mod settled;
mod shared;
mod shots;
mod stored;
mod tables;

use checker::calls::Calls;
use differences::Refusals;
use reference::vectors::{CALLS, Call};
use std::path::Path;
use std::process::ExitCode;
use std::time::{SystemTime, UNIX_EPOCH};

const USAGE: &str = "\
usage: compare CALL N [SEED]      N random inputs of a call: check, run, settle, run_shared, settle_shared, walk, annotate,
                                  locations, correlation, fault_table, by_shot, by_outcome, fill, make, print
       compare settled N [SEED]   N jobs run with their draws, and as their settled text
       compare backward N [SEED]  N jobs: for sets and shots, all of a small job's, the sum of deltas is the walk's count modulo 2
       compare apart N [SEED]     N pairs of jobs without noise: where they differ in other shots alone, a shot's frames and deltas are the same
       compare add N [SEED]       N triples of them: where one holds the faults of both others, its frames and deltas are the exclusive or
       compare tables N [SEED]    N jobs with Clifford tables of five to eight qubits: runs, settled texts and walks; how many tables of each width
       compare shares N [SEED]    N sequences of calls with shares of one main list: as plain calls on the words available, and all words accounted for
       compare made N [SEED]      N made jobs: accepted, and what was asked for; every kind of line comes up among the small seeds
       compare pairs              calls by which two notes of document 02 meet, worked out by hand
       compare vectors [CALL]     the stored vectors, or those of a call
       compare all N [SEED]       all of these
       compare write CALL N SEED  N vectors of a call, made by the reference, on standard output
       compare fuzz SECONDS [SEED [FOLDER]]
                                  changed inputs through every call for so long, led by what they reach; FOLDER keeps those that reach something new
       compare replay [more]      the list of the program replay_calls, or of replay_more, on standard output
       compare bench [PART]       times beside the published Rust's and document 01's by hand; PART is checks, runs, tables,
                                  around, faults, shares, seeds, turns, long, or a file with a job
A difference is seen again by `compare CALL 1 SEED` with the seed that it prints.";

/// The calls under test, and which of them are the library's; the others are document 01's plainest form.
#[cfg(feature = "linked")]
const UNDER_TEST: (&dyn Calls, &[Call]) = (&linked::Linked, &CALLS);
#[cfg(not(feature = "linked"))]
const UNDER_TEST: (&dyn Calls, &[Call]) = (&checker::plain::Plain, &[]);

/// A comparison of several calls with each other: the calls, how many jobs, and the seed.
type Comparison = fn(&dyn Calls, u64, u64) -> bool;

/// The comparisons of several calls, by name.
const TOGETHER: [(&str, Comparison); 7] = [
    ("settled", settled::passes),
    ("backward", brute::passes),
    ("apart", shots::apart_passes),
    ("add", shots::add_passes),
    ("tables", tables::passes),
    ("shares", shared::passes),
    ("made", made::passes),
];

fn main() -> ExitCode {
    let arguments: Vec<String> = std::env::args().skip(1).collect();
    let arguments: Vec<&str> = arguments.iter().map(String::as_str).collect();
    let passed = match arguments[..] {
        ["pairs"] => {
            say_under_test();
            pairs::passes(UNDER_TEST.0)
        }
        ["vectors"] => {
            say_under_test();
            stored::passes(UNDER_TEST.0)
        }
        ["vectors", call] => called(call).map_or_else(usage, |call| stored::answers(UNDER_TEST.0, call)),
        ["bench"] => bench::run("all") || usage(),
        ["bench", part] => bench::run(part) || usage(),
        ["write", call, count, seed] => write(call, count, seed),
        ["fuzz", seconds] => fuzzed(seconds, None, None),
        ["fuzz", seconds, seed] => fuzzed(seconds, Some(seed), None),
        ["fuzz", seconds, seed, folder] => fuzzed(seconds, Some(seed), Some(folder)),
        ["replay"] => replay::write(),
        ["replay", "more"] => replay::write_more(),
        [command, count] => counted(command, count, None),
        [command, count, seed] => counted(command, count, Some(seed)),
        _ => usage(),
    };
    if passed { ExitCode::SUCCESS } else { ExitCode::FAILURE }
}

fn usage() -> bool {
    eprintln!("{USAGE}");
    false
}

fn write(call: &str, count: &str, seed: &str) -> bool {
    match (called(call), count.parse(), seed.parse()) {
        (Some(call), Ok(count), Ok(seed)) => stored::write(call, count, seed),
        _ => usage(),
    }
}

/// The call of a name.
fn called(name: &str) -> Option<Call> {
    CALLS.into_iter().find(|call| call.name() == name)
}

fn counted(command: &str, count: &str, seed: Option<&str>) -> bool {
    let (Ok(count), Ok(seed)) = (count.parse(), seed.map_or(Ok(new_seed()), str::parse)) else {
        return usage();
    };
    let asked = |name: &str| command == name || command == "all";
    let calls: Vec<Call> = CALLS.into_iter().filter(|call| asked(call.name())).collect();
    let together: Vec<Comparison> = TOGETHER.into_iter().filter(|(name, _)| asked(name)).map(|(_, all)| all).collect();
    if calls.is_empty() && together.is_empty() {
        return usage();
    }
    println!("seed {seed}");
    say_under_test();
    let mut passed = true;
    let mut refusals = Refusals::default();
    for call in calls {
        passed &= differences::passes(UNDER_TEST.0, call, count, seed, &mut refusals);
    }
    for comparison in together {
        passed &= comparison(UNDER_TEST.0, count, seed);
    }
    if command == "all" {
        passed &= pairs::passes(UNDER_TEST.0);
        passed &= stored::passes(UNDER_TEST.0);
        println!("refusals of all calls: {refusals}");
        println!("{}", if passed { "0 differences" } else { "differences" });
    }
    passed
}

fn fuzzed(seconds: &str, seed: Option<&str>, folder: Option<&str>) -> bool {
    let (Ok(seconds), Ok(seed)) = (seconds.parse(), seed.map_or(Ok(new_seed()), str::parse)) else {
        return usage();
    };
    println!("seed {seed}");
    say_under_test();
    fuzz_for(seconds, seed, folder.map(Path::new))
}

#[cfg(feature = "linked")]
fn fuzz_for(seconds: u64, seed: u64, folder: Option<&Path>) -> bool {
    fuzz::passes(UNDER_TEST.0, seconds, seed, folder)
}

#[cfg(not(feature = "linked"))]
fn fuzz_for(_: u64, _: u64, _: Option<&Path>) -> bool {
    eprintln!("there is nothing to fuzz without the feature linked");
    false
}

/// Say who makes which of the calls under test.
fn say_under_test() {
    let names = |linked: bool| {
        let made = CALLS.into_iter().filter(|call| UNDER_TEST.1.contains(call) == linked);
        made.map(Call::name).collect::<Vec<_>>().join(", ")
    };
    println!(
        "under test: by libkundatrezo: {}; in document 01's plainest form: {}",
        or_none(names(true)),
        or_none(names(false))
    );
}

fn or_none(names: String) -> String {
    if names.is_empty() { "none".into() } else { names }
}

fn new_seed() -> u64 {
    let since = SystemTime::now().duration_since(UNIX_EPOCH).unwrap_or_default();
    since.as_secs() * 1_000_000
}
