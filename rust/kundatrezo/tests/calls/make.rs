//! Jobs made from a seed.

use crate::single_faults::compare_with_forward_runs;
use kundatrezo::{
    Draws, Frames, JobParameters, MAX_BYTES, MAX_OUTCOMES, MAX_QUBITS, MAX_SHOTS, Number, Xorshift, check, correlation,
    examine, fill, locations, make, make_job, settled, walk,
};
use std::collections::BTreeSet;

const ASKED: JobParameters = JobParameters { qubits: 7, outcomes: 20, shots: 100, lines: 60, seed: 1 };

/// The lines after the header, the element lines of noise left out.
fn lines(job: &[u8]) -> Vec<&str> {
    let text = std::str::from_utf8(job).expect("text");
    text.lines().skip(1).filter(|line| line.starts_with("op=")).collect()
}

#[test]
fn every_made_job_passes_the_checks() {
    let mut random = Xorshift::new(7);
    let mut below = |n: u64| random.next().expect("words without end") % n;
    let most = [MAX_QUBITS, MAX_OUTCOMES, MAX_SHOTS].map(|most| most as u64);
    for round in 0..2_000 {
        let [qubits, outcomes, shots] = match round % 4 {
            0 => [1, 0, 1],
            1 => most,
            2 => [1 + below(5), below(3), 1 + below(64)],
            _ => [1 + below(most[0]), below(most[1] + 1), 1 + below(most[2])],
        };
        let asked = JobParameters { qubits, outcomes, shots, lines: below(80), seed: 1 + below(u64::MAX) };
        let job = make_job(asked).expect("few lines always fit");
        let numbers = examine(&job).unwrap_or_else(|refusal| panic!("{asked:?}: {refusal}"));
        assert_eq!(
            [numbers.qubits, numbers.outcomes, numbers.shots].map(|number| number as u64),
            [qubits, outcomes, shots]
        );
        assert_eq!(lines(&job).len() as u64, asked.lines, "{asked:?}");
        assert_eq!(make_job(asked), Ok(job));
    }
}

/// A line's kind: the letter of its `op=`, with the kind of noise.
fn kind(line: &str) -> String {
    let letter = line.split(' ').next().expect("a field");
    let noise = line.split(' ').find(|field| field.starts_with("d=")).unwrap_or_default();
    format!("{letter} {noise}")
}

/// Every kind that the header and the number of lines allow comes up among small seeds.
#[test]
fn every_kind_comes_up() {
    let always = "u c p e k m f z i b".split(' ').map(|letter| format!("op={letter} "));
    let always: BTreeSet<String> = always.chain((1..=4).map(|d| format!("op=n d={d}"))).collect();
    let recording: BTreeSet<String> = always.iter().cloned().chain(["op=o ".into(), "op=r ".into()]).collect();
    let all: BTreeSet<String> = recording.iter().cloned().chain(["op=t ".into()]).collect();
    for (outcomes, lines_asked, seeds, expected) in [
        (0, 1, 200, &always),
        (0, 40, 200, &always),
        (1, 1, 200, &recording),
        (1, 2, 3_000, &all),
        (1_024, 1_000, 20, &all),
    ] {
        let mut seen = BTreeSet::new();
        for seed in 1..=seeds {
            let job = make_job(JobParameters { qubits: 3, outcomes, shots: 4_096, lines: lines_asked, seed });
            seen.extend(lines(&job.expect("it fits")).into_iter().map(kind));
        }
        assert_eq!(&seen, expected, "{outcomes} outcomes, {lines_asked} lines");
    }
}

/// The pairs of a table of docs/MAKING.md: what comes up, and the seed.
fn seeds_of(heading: &str) -> Vec<(&'static str, u64)> {
    let (_, table) = include_str!("../../../../docs/MAKING.md").split_once(heading).expect("a table");
    let rows = table.lines().skip(2).take_while(|line| line.starts_with('|'));
    let cells: Vec<&str> = rows.flat_map(|row| row.trim_matches('|').split('|').map(str::trim)).collect();
    let pairs = cells.chunks(2).filter(|pair| !pair[0].is_empty());
    pairs.map(|pair| (pair[0], pair[1].parse().expect("a seed"))).collect()
}

/// Headers with few and with many qubits, outcomes and shots.
const HEADERS: [(u64, u64, u64); 5] = [(1, 0, 1), (1, 1, 1), (2, 3, 64), (5, 1_024, 4_096), (256, 1, 100)];

/// The seeds of docs/MAKING.md, with which a job begins with a line of each kind.
#[test]
fn seeds_of_the_kinds() {
    let seeds = seeds_of("| kind | seed |");
    assert_eq!(seeds.len(), 17);
    for (name, seed) in seeds {
        let wanted = match name.strip_prefix('n') {
            Some(d) => format!("op=n d={d}"),
            None => format!("op={} ", &name[..1]),
        };
        let place = usize::from(name == "t");
        for (qubits, outcomes, shots) in HEADERS {
            let several = name == "z, several qubits";
            if outcomes == 0 && ["o", "r", "t"].contains(&name) || several && qubits == 1 {
                continue;
            }
            let job = make_job(JobParameters { qubits, outcomes, shots, lines: 2, seed }).expect("it fits");
            let line = lines(&job)[place];
            assert_eq!(kind(line), wanted, "{name}");
            assert!(!wanted.starts_with("op=z") || line.contains(',') == several, "{name}: {line}");
        }
    }
}

#[test]
fn seeds_of_the_gates() {
    let seeds = seeds_of("| g | seed |");
    let mut codes: Vec<u64> = seeds.iter().map(|(code, _)| code.parse().expect("a code")).collect();
    codes.sort_unstable();
    assert_eq!(codes, (0..16).collect::<Vec<u64>>());
    for (code, seed) in seeds {
        let operands = if code.parse::<u64>().expect("a code") < 11 { 1 } else { 2 };
        for (qubits, outcomes, shots) in HEADERS.into_iter().filter(|header| header.0 >= operands) {
            let job = make_job(JobParameters { qubits, outcomes, shots, lines: 1, seed }).expect("it fits");
            assert!(lines(&job)[0].starts_with(&format!("op=u g={code} ")), "{code}: {}", lines(&job)[0]);
        }
    }
}

#[test]
fn refusals_come_in_their_order() {
    let refused = |asked: JobParameters, room: usize| {
        let mut out = vec![7; room];
        let refusal = make(asked, &mut out).expect_err("it is refused");
        assert!(out.iter().all(|byte| *byte == 7) && refusal.bytes_needed == 0 && refusal.line == 0);
        refusal.number
    };
    let out_of_range = [
        JobParameters { qubits: 0, ..ASKED },
        JobParameters { qubits: 257, ..ASKED },
        JobParameters { outcomes: 1_025, ..ASKED },
        JobParameters { shots: 0, ..ASKED },
        JobParameters { shots: 4_097, ..ASKED },
        JobParameters { qubits: u64::MAX, outcomes: u64::MAX, shots: u64::MAX, ..ASKED },
    ];
    for asked in out_of_range {
        assert_eq!(refused(JobParameters { seed: 0, ..asked }, 0), Number::HEADER);
    }
    assert_eq!(refused(JobParameters { seed: 0, ..ASKED }, 0), Number::SEED);
    // exactly its bytes are enough, and one less is not
    let job = make_job(ASKED).expect("it fits");
    assert_eq!(refused(ASKED, job.len() - 1), Number::ROOM);
    let mut out = vec![7; job.len() + 1];
    assert_eq!(make(ASKED, &mut out[..job.len()]), Ok(job.len()));
    assert_eq!((&out[..job.len()], out[job.len()]), (job.as_slice(), 7));
    // any number of lines comes to an end
    for lines in [200_000, 1 << 40, u64::MAX] {
        assert_eq!(refused(JobParameters { lines, ..ASKED }, 2 * MAX_BYTES), Number::ROOM);
    }
    assert_eq!(lines(&make_job(JobParameters { lines: 0, ..ASKED }).expect("it fits")).len(), 0);
}

/// A load for the other calls: each does its work on made jobs, or refuses by a number of its own.
#[test]
fn made_jobs_are_a_load_for_all_calls() {
    let words: Vec<u64> = Xorshift::new(1).take(40_000).collect();
    let mut walked = 0;
    for seed in 1..=200 {
        let job = make_job(JobParameters { seed, ..ASKED }).expect("it fits");
        assert_eq!(check(&job), Ok(()));
        let numbers = examine(&job).expect("it passes");
        let noiseless = vec![0x5555_3333_0f0f_00ff; numbers.outcome_words()];
        let draws = Draws::new(&words).with_second(&words[20_000..], 0);
        let frames = Frames::from_run(&job, &noiseless, draws).expect("there are words enough");
        let text = settled(&job, &noiseless, draws).expect("there is room");
        assert_eq!(lines(&text).iter().filter(|line| line.starts_with("op=n ")).count(), 0);
        let again = Frames::from_run(&text, &noiseless, Draws::default()).expect("it runs");
        assert_eq!((frames.deltas(), frames.totals()), (again.deltas(), again.totals()));
        if numbers.recorded > 0 {
            let count = walk(&text, 5, &[0]).expect("no noise");
            assert_eq!(count % 2 == 1, kundatrezo::bit(frames.delta_row(0), 5));
            walked += 1;
        }
        compare_with_forward_runs(std::str::from_utf8(&job).expect("text"));
        assert!(locations(&job).is_ok());
        assert!(correlation(&job).is_ok() || correlation(&job).is_err_and(|refusal| refusal.number == Number::SIZES));
    }
    assert!(walked > 150);
}

/// What docs/MAKING.md says of small seeds: bit 0 of the third word is that of the first, and so no even gate code begins a job of the second edition.
#[test]
fn small_seeds_tie_the_third_word_to_the_first() {
    let tied = |seed: u64| {
        let mut words = [0; 3];
        fill(seed, &mut words).expect("not zero");
        (words[0] ^ words[2]) & 1 == 0
    };
    const FIRST_FREE: u64 = 1 << 14;
    assert!((1..FIRST_FREE).all(tied) && !tied(FIRST_FREE));
    // the gate code of a job of the second edition whose first line is a gate
    let code = |seed: u64| -> Option<u64> {
        let job = make_job(JobParameters { qubits: 2, outcomes: 0, shots: 1, lines: 1, seed }).expect("it fits");
        let line = lines(&job)[0].strip_prefix("op=u g=").filter(|_| job.starts_with(b"op=job edition=2 "))?;
        line.split(' ').next()?.parse().ok()
    };
    let small: BTreeSet<u64> = (1..FIRST_FREE).filter_map(code).collect();
    assert_eq!(small, BTreeSet::from([1, 3, 5, 7, 9, 11, 13, 15]));
    let large: BTreeSet<u64> = Xorshift::new(1).take(2_000).filter_map(code).collect();
    assert_eq!(large, (0..16).collect());
}
