//! Outcomes by shot, and the way back.

use kundatrezo::{Draws, Frames, Number, Shots, Xorshift, bit, by_outcome, by_shot};

/// Counts around multiples of 64.
const OUTCOMES: [usize; 7] = [0, 1, 63, 64, 65, 128, 1_024];
const SHOTS: [usize; 6] = [1, 63, 64, 65, 129, 4_096];

#[test]
fn each_outcome_of_each_shot_has_its_bit() {
    for (outcomes, shots) in OUTCOMES.into_iter().flat_map(|outcomes| SHOTS.map(|shots| (outcomes, shots))) {
        let words = shots.div_ceil(64);
        let deltas: Vec<u64> = Xorshift::new(8).take(outcomes * words).collect();
        let rows = Shots::new(outcomes, shots, &deltas).expect("counts of a header");
        assert_eq!((rows.outcomes(), rows.shots(), rows.iter().len()), (outcomes, shots, shots));
        for (shot, row) in rows.iter().enumerate() {
            for id in 0..row.len() * 64 {
                assert_eq!(bit(row, id), id < outcomes && bit(&deltas[id * words..], shot));
            }
        }
        let mut back = vec![7; deltas.len() + 1];
        by_outcome(outcomes as u64, shots as u64, rows.words(), &mut back).expect("as many words");
        assert_eq!(back.pop(), Some(7));
        let padding = if shots % 64 == 0 { u64::MAX } else { (1 << (shots % 64)) - 1 };
        for (word, (back, delta)) in back.iter().zip(&deltas).enumerate() {
            let mask = if word % words == words - 1 { padding } else { u64::MAX };
            assert_eq!(*back, delta & mask);
        }
    }
}

#[test]
fn counts_and_words_are_tested() {
    let mut out = [7; 2];
    for (outcomes, shots) in [(1_025, 1), (u64::MAX, 1), (1, 0), (1, 4_097), (1, u64::MAX)] {
        assert_eq!(by_shot(outcomes, shots, &[0; 2], &mut out).unwrap_err().number, Number::HEADER);
        assert_eq!(by_outcome(outcomes, shots, &[0; 2], &mut out).unwrap_err().number, Number::HEADER);
    }
    assert_eq!(by_shot(1, 65, &[0], &mut out).unwrap_err().number, Number::WORDS);
    assert_eq!(by_shot(1, 3, &[0], &mut out).unwrap_err().number, Number::WORDS);
    assert_eq!(out, [7; 2]);
    assert_eq!(Shots::new(usize::MAX, 1, &[]).unwrap_err().number, Number::HEADER);
    assert_eq!(Shots::new(2, 3, &[0]).unwrap_err().number, Number::WORDS);
}

#[test]
fn no_run_has_no_shots() {
    assert_eq!(Shots::from_frames(&Frames::new()), Shots::default());
    let job = b"op=job qubits=1 outcomes=0 shots=3\n";
    let none = Shots::from_frames(&Frames::from_run(job, &[], Draws::default()).expect("it runs"));
    assert_eq!((none.shots(), none.row(2), none.words()), (3, [].as_slice(), [].as_slice()));
}
