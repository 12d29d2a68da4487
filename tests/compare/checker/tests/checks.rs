//! The check of the jobs whose answers were worked out by hand.

use checker::cases::cases;
use checker::job::TESTS;
use checker::read::check;

#[test]
fn jobs_are_answered_as_worked_out_by_hand() {
    for case in cases() {
        let (number, line) = check(&case.job).map_or_else(|refusal| (refusal.number, refusal.line), |()| (0, 0));
        let text = String::from_utf8_lossy(&case.job[..case.job.len().min(400)]);
        assert_eq!((number, line), (case.number, case.line), "{text}");
    }
}

#[test]
fn every_number_is_among_them() {
    let numbers: Vec<u64> = cases().iter().map(|case| case.number).collect();
    assert!(TESTS.iter().chain(&[0]).all(|number| numbers.contains(number)));
}
