//! Long jobs: lists, elements, correlations and flips of which a job has as many as fit, and one line that is all of a job.

use super::{Load, Timed, check, engine, measure_correlation, measure_faults, measure_run, seldom_noisy};
use checker::calls::Rows;
use generator::jobs::Made;
use generator::loads;
use reference::vectors::Call;
use std::hint::black_box;

pub(super) fn long() {
    let header = loads::header(256, 4096);
    for (shown, p) in [("0.01", 0.01), ("0.1", 0.1), ("1", 1.0)] {
        let made = loads::cut(loads::weighted(header, 500, p), 1_000_000);
        measure_run(&format!("run, 1,000,000 bytes, d=4 with 64 elements, p = {shown}"), &made);
    }
    let made = loads::cut(loads::controlled(header, 4_000), 1_000_000);
    measure_run("run, 1,000,000 bytes of op=k with lists of 31", &made);
    for (shown, qubits) in [("1 qubit", 1), ("2 qubits", 2), ("3 qubits", 3), ("31 qubits", 31)] {
        let made = loads::depolarized(header, 100, qubits, 1.0);
        measure_long_settle(&format!("settle to 15 by the run, d=2 on {shown}"), &made);
    }
    for (shown, bytes) in [("250,000", 250_000), ("500,000", 500_000), ("1,000,000", 1_000_000)] {
        measure_correlation(
            &format!("correlation, {shown} bytes, each its own"),
            &loads::cut(loads::correlated(header, 16_000), bytes),
        );
        measure_run(&format!("run, {shown} bytes of flips"), &loads::cut(loads::flips(header, 50_000), bytes));
        measure_faults(&format!("fault table, {shown} bytes, 16 groups"), &seldom_noisy(bytes));
        check(&format!("check, one line of {shown} bytes"), &one_line(bytes));
    }
}

/// A job whose second line is a gate with as many operands as fit.
fn one_line(bytes: usize) -> Vec<u8> {
    let mut job = b"op=job qubits=256 outcomes=1024 shots=4096\nop=u g=4 q=0".to_vec();
    while job.len() + 2 < bytes {
        job.extend_from_slice(b",0");
    }
    job.push(b'\n');
    job
}

/// Settling that ends in 15 for a text of any length, beside the engine's run of the same job, which stands in the column `with reading`.
fn measure_long_settle(name: &str, made: &Made) {
    let load = &Load::new(made);
    let header = made.header;
    let mut rows = (vec![0; header.frame_words()], vec![0; header.frame_words()], vec![0; header.outcome_words()]);
    let (Some(run), Some(settle)) = (engine(Call::Run), engine(Call::Settle)) else { return };
    Timed {
        published: None,
        with_reading: Box::new(move || {
            let (x, z, deltas) = (&mut rows.0, &mut rows.1, &mut rows.2);
            let rows = Rows { frames_x: x, frames_z: z, deltas, totals: None };
            assert_eq!(run.run(black_box(&load.bytes), load.draws(), &load.noiseless, rows).number, 0);
        }),
        engine: Some(Box::new(|| {
            assert_eq!(settle.settle(black_box(&load.bytes), load.draws(), &load.noiseless, &mut []).number, 15);
        })),
    }
    .report(name, load.bytes.len());
}
