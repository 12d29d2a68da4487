//! Every stored vector, answered by the reference and by document 01's plainest form.

use checker::calls::Calls;
use checker::plain::Plain;
use reference::Reference;
use reference::stored::{Case, folder, held};
use reference::vectors::{CALLS, Call};

fn answers_the_vectors(calls: &dyn Calls, call: Call) {
    if !folder().is_dir() {
        println!("skipped: no vectors at {}", folder().display());
        return;
    }
    let cases = held(call);
    assert!(!cases.is_empty());
    println!("{}: {} cases", call.name(), cases.len());
    for case in cases.into_iter().filter(Case::can_be_built) {
        let output = case.input.make(call, calls).expect("both can print");
        assert!(
            case.allows(&output),
            "{} case {}: {:?} instead of {:?}",
            call.name(),
            case.number,
            output.answer,
            case.output.answer
        );
    }
}

#[test]
fn the_reference_answers_the_vectors() {
    for call in CALLS {
        answers_the_vectors(&Reference, call);
    }
}

#[test]
fn the_plain_calls_answer_the_vectors() {
    for call in CALLS {
        answers_the_vectors(&Plain, call);
    }
}
