//! The table of single faults beside forward runs, and error models in the hands of a small decoder.

use kundatrezo::{
    Draws, Frames, MAX_GROUPS, MAX_SHOTS, Number, Shots, Xorshift, bit, error_model, examine, fault_table,
    write_fault_table,
};

const REPETITION: &str = include_str!("../../../../examples/repetition.job");
const SYNDROME: &str = include_str!("../../../../examples/syndrome.job");

/// Every kind of line and of noise, both editions, with injections and flips of the job's own.
const ALL_KINDS: &str = "op=job edition=2 qubits=6 outcomes=8 shots=70
op=i shot=3 x=0 z=1
op=n p=3fe0000000000000 corr=- cond=- parity=0 d=2 q=4,0 size=15
op=u g=4 q=0
op=r id=0 angle=0
op=t shot=2 id=0
op=n p=bff0000000000000 corr=7 cond=0 parity=1 d=1 x=1 z=2 size=1
op=u g=15 q=0,1
op=k x=0,1 z=- u=0,2 v=-
op=e x=2 z=0
op=b q=0,1
op=c q=0,1,2,3,4 t=9f818c52929c601f,00000008ab05648c
op=o x=0 z=1,2 id=1
op=n p=0000000000000000 corr=- cond=- parity=0 d=3 n=3 size=3
x=0 z=-
x=- z=-
x=1,3 z=1
op=f x=3 z=4 id=0,1 parity=0
op=m s=1,2,0 q=2,3,4
op=n p=3ff0000000000000 corr=- cond=1 parity=0 d=4 n=3 size=3
w=0000000000000000 x=4 z=-
w=3ff0000000000000 x=3 z=0
w=4000000000000000 x=- z=5
op=o x=- z=3,5 id=2
op=t shot=0 id=2
op=z q=3,0
op=n p=3fe0000000000000 corr=- cond=- parity=0 d=2 q=3 size=3
op=f x=0 z=3 id=1,2 parity=1
op=u g=14 q=3,0
op=p x=1 z=1
op=o x=3 z=- id=3
op=o x=- z=0,3 id=4
op=o x=4 z=2 id=5
";

/// A job with a shot for each element of the noise, which holds that element alone, placed at its noise line.
fn forwards(job: &str) -> (String, Vec<(usize, usize)>) {
    let field = |line: &str, key: &str| line.split(' ').find_map(|field| field.strip_prefix(key).map(str::to_owned));
    let (mut text, mut faults) = (String::new(), Vec::new());
    let lines: Vec<&str> = job.lines().collect();
    for (place, line) in lines.iter().enumerate() {
        let mut inject = |element: usize, pauli: &str| {
            text += &format!("op=i shot={} {pauli}\n", faults.len());
            faults.push((place + 1, element));
        };
        match line.split(' ').next() {
            Some("op=n") => {
                let (_, kind) = line.split_once(" d=").expect("a kind");
                let elements = field(line, "size=").and_then(|size| size.parse().ok()).expect("a size");
                for element in 0..elements {
                    match &kind[..1] {
                        "1" => inject(element, kind[2..].split(" size").next().expect("a Pauli")),
                        "2" => inject(element, &depolarizing(&field(line, "q=").expect("qubits"), element)),
                        _ => inject(
                            element,
                            &lines[place + 1 + element][lines[place + 1 + element].find("x=").expect("a Pauli")..],
                        ),
                    }
                }
            }
            Some("op=i" | "op=t") => {}
            Some(first) if !first.starts_with("op=") => {}
            _ => text += &format!("{line}\n"),
        }
    }
    let shots = field(job.lines().next().expect("a header"), "shots=").expect("shots");
    (text.replace(&format!("shots={shots}\n"), &format!("shots={}\n", faults.len().max(1))), faults)
}

/// The element of depolarizing noise by its number: two bits to a qubit, of the number plus 1.
fn depolarizing(qubits: &str, element: usize) -> String {
    let mut parts: Vec<(usize, usize)> = qubits
        .split(',')
        .enumerate()
        .map(|(place, qubit)| (qubit.parse().expect("a qubit"), (element + 1) >> (2 * place) & 3))
        .collect();
    parts.sort_unstable();
    let list = |part: usize| {
        let members: Vec<String> =
            parts.iter().filter(|(_, bits)| bits & part != 0).map(|(qubit, _)| qubit.to_string()).collect();
        if members.is_empty() { "-".into() } else { members.join(",") }
    };
    format!("x={} z={}", list(1), list(2))
}

#[test]
fn a_table_has_what_forward_runs_give() {
    for job in [ALL_KINDS, SYNDROME, REPETITION] {
        compare_with_forward_runs(job);
    }
}

/// That the table of some groups of a job's outcomes has what a run with each element in a shot of its own gives.
pub fn compare_with_forward_runs(job: &str) {
    let groups = [vec![1], vec![2], vec![], vec![0, 1, 2, 3, 4, 5], vec![4], vec![1, 5], vec![3]];
    let recorded = examine(job.as_bytes()).expect("it passes").recorded as u64;
    let groups: Vec<Vec<u64>> = groups.iter().filter(|group| group.iter().all(|id| *id < recorded)).cloned().collect();
    let (alone, faults) = forwards(job);
    let words = examine(alone.as_bytes()).expect("it passes").outcome_words();
    let frames = Frames::from_run(alone.as_bytes(), &vec![0; words], Draws::default()).expect("it runs");
    let table = fault_table(job.as_bytes(), &groups).expect("a table");
    assert_eq!((table.groups(), table.iter().count()), (groups.len(), faults.len()));
    for (shot, (fault, place)) in table.iter().zip(&faults).enumerate() {
        assert_eq!((fault.line, fault.element), *place);
        for (place, group) in groups.iter().enumerate() {
            let sum = group.iter().fold(false, |sum, id| sum ^ bit(frames.delta_row(*id as usize), shot));
            assert_eq!(fault.flips(place), sum, "{fault:?} of group {group:?}");
            assert_eq!(fault.flipped().any(|flipped| flipped == place), sum);
        }
    }
    let rows = table.iter().map(|fault| {
        let flips: String = (0..groups.len()).map(|group| if fault.flips(group) { '1' } else { '0' }).collect();
        format!("line={} el={} groups={flips}\n", fault.line, fault.element)
    });
    assert_eq!(table.text(), rows.collect::<String>());
}

#[test]
fn groups_are_tested() {
    let refused = |job: &str, groups: &[u64]| {
        let mut out = [7; 3000];
        let refusal = write_fault_table(job.as_bytes(), groups, &mut out).expect_err("it is refused");
        assert_eq!((out, refusal.bytes_needed), ([7; 3000], 0));
        (refusal.number, refusal.line)
    };
    for groups in [&[1][..], &[2, 0], &[u64::MAX, 0], &[1, 0, 1], &[2, 1, 0], &[2, 1, 1], &[1, 5], &[1, u64::MAX]] {
        assert_eq!(refused(REPETITION, groups), (Number::WALK, 0), "{groups:?}");
    }
    assert_eq!(refused(REPETITION, &[]), (Number::GROUPS, 0));
    assert_eq!(refused(REPETITION, &[0; MAX_GROUPS + 1]), (Number::GROUPS, 0));
    // 17 is looked for in all groups, before their number
    assert_eq!(refused(REPETITION, &[&[0; MAX_GROUPS][..], &[1]].concat()), (Number::WALK, 0));
    let wide = REPETITION.replace("d=1 x=3 z=- size=1", "d=2 q=4,2,0,1,3 size=1023");
    assert_eq!(refused(&wide, &[1, 0]), (Number::GROUPS, 9));
    assert_eq!(refused(&wide, &[]), (Number::GROUPS, 0));
    assert_eq!(refused("op=job qubits=1 outcomes=0 shots=1\nop=z q=1\n", &[]), (Number::QUBIT, 2));
    // a table fits bytes that are just as many, and no fewer
    let groups = vec![Vec::new(); MAX_GROUPS];
    let text = fault_table(REPETITION.as_bytes(), &groups).expect("a table");
    let mut out = vec![7; text.text().len() + 1];
    let mut write = |bytes: usize| write_fault_table(REPETITION.as_bytes(), &[0; MAX_GROUPS], &mut out[..bytes]);
    assert_eq!(write(text.text().len() - 1).expect_err("too few").number, Number::ROOM);
    assert_eq!(write(text.text().len()), Ok(text.text().len()));
    assert_eq!((&out[..text.text().len()], out[text.text().len()]), (text.text().as_bytes(), 7));
    let quiet = fault_table(b"op=job qubits=1 outcomes=0 shots=1\n", &[vec![]]).expect("a table");
    assert_eq!((quiet.text(), quiet.iter().next()), ("", None));
}

#[test]
fn probabilities_of_elements() {
    let third = 1.0_f64 / 3.0;
    let p = third.to_bits();
    let job = format!(
        "op=job qubits=4 outcomes=1 shots=1
op=n p={p:016x} corr=- cond=- parity=0 d=1 x=0 z=- size=1
op=n p={p:016x} corr=- cond=- parity=0 d=2 q=0 size=3
op=n p={p:016x} corr=- cond=- parity=0 d=2 q=0,1,2,3 size=255
op=n p={p:016x} corr=- cond=- parity=0 d=3 n=2 size=2
x=0 z=-
x=1 z=-
op=n p={p:016x} corr=- cond=- parity=0 d=4 n=3 size=3
w=4020000000000000 x=0 z=-
w=3ff0000000000000 x=0 z=0
w=0000000000000000 x=0 z=-
op=n p=8000000000000000 corr=- cond=- parity=0 d=1 x=0 z=- size=1
op=n p=fff0000000000000 corr=- cond=- parity=0 d=1 x=0 z=- size=1
op=o x=- z=0 id=0
"
    );
    let model = error_model(job.as_bytes(), &[], &[vec![0]]).expect("a model");
    let of_line = |line: usize| -> Vec<f64> {
        model.mechanisms().iter().filter(|mechanism| mechanism.line == line).map(|mechanism| mechanism.p).collect()
    };
    assert_eq!(of_line(2), [third]);
    assert_eq!(of_line(3), [third / 3.0; 3]);
    assert_eq!(of_line(4), [third / 255.0; 255]);
    assert_eq!(of_line(5), [third / 2.0; 2]);
    assert_eq!(of_line(8), [third * (8.0 / 9.0), third * (1.0 / 9.0), 0.0]);
    assert_eq!((of_line(12), of_line(13)), (vec![0.0], vec![0.0]));
    // what is written gives the same number back; what never falls or flips nothing is left out
    let text = model.to_string();
    assert_eq!(text.lines().next(), Some("error(0.3333333333333333) L0"));
    let expected = [1, 2, 128, 1, 2].iter().sum::<usize>();
    let written: Vec<f64> = decoded(&text).0.into_iter().map(|(p, _)| p).collect();
    let falling =
        model.mechanisms().iter().filter(|mechanism| mechanism.p > 0.0 && mechanism.observables().count() == 1);
    assert_eq!((written.len(), written), (expected, falling.map(|mechanism| mechanism.p).collect()));
}

/// A measurement that gives a wrong outcome and does no other harm, as two faults of one correlation: one error of the model.
#[test]
fn faults_that_fall_together_are_one_error() {
    let fault = |corr: &str, p: &str| format!("op=n p={p} corr={corr} cond=- parity=0 d=1 x=0 z=- size=1\n");
    let model = |[before, after]: [String; 2]| {
        let job = format!("op=job qubits=1 outcomes=2 shots=1\n{before}op=o x=- z=0 id=0\n{after}op=o x=- z=0 id=1\n");
        let model = error_model(job.as_bytes(), &[vec![0], vec![1]], &[]).expect("a model");
        (model.to_string(), Vec::from_iter(model.mixed_correlations()))
    };
    let expected = |text: &str, mixed: &[u64]| (text.to_owned(), mixed.to_vec());
    let (one, other) = ("3fe0000000000000", "3fd0000000000000");
    assert_eq!(model([fault("9", one), fault("9", one)]), expected("error(0.5) D0\ndetector D1\n", &[]));
    let apart = expected("error(0.5) D0 D1\nerror(0.5) D1\n", &[]);
    assert_eq!(model([fault("9", one), fault("8", one)]), apart);
    assert_eq!(model([fault("-", one), fault("-", one)]), apart);
    assert_eq!(model([fault("9", one), fault("9", other)]), expected("error(0.5) D0 D1\nerror(0.25) D1\n", &[9]));
    assert_eq!(model([fault("9", one), fault("9", "bff0000000000000")]), expected("error(0.5) D0 D1\n", &[]));
    // all elements of one line fall together with those of the other, each with its own
    let two = |corr: &str| format!("op=n p={one} corr={corr} cond=- parity=0 d=3 n=2 size=2\nx=0 z=-\nx=- z=0\n");
    assert_eq!(model([two("9"), two("9")]), expected("error(0.25) D0\ndetector D1\n", &[]));
    // weights of 0 and -0 draw alike
    let weighted =
        |zero: &str| format!("op=n p={one} corr=9 cond=- parity=0 d=4 n=2 size=2\nw={zero} x=0 z=-\nw={one} x=0 z=-\n");
    let together = expected("error(0.5) D0\ndetector D1\n", &[]);
    assert_eq!(model(["0000000000000000", "8000000000000000"].map(weighted)), together);
}

#[test]
fn more_detectors_than_a_table_has_groups() {
    let detectors: Vec<Vec<u64>> = (0..40).map(|place| vec![[0, 1, 2, 3, 4][place % 5]]).collect();
    let model = error_model(REPETITION.as_bytes(), &detectors, &[vec![2], vec![4]]).expect("a model");
    assert_eq!((model.detectors(), model.observables(), model.mechanisms().len()), (40, 2, 5));
    let first = &model.mechanisms()[0];
    let flipped: Vec<usize> = (0..40).filter(|place| [0, 2].contains(&(place % 5))).collect();
    assert_eq!((first.detectors().collect::<Vec<_>>(), first.observables().collect::<Vec<_>>()), (flipped, vec![0]));
    assert_eq!(error_model(REPETITION.as_bytes(), &[], &[]).unwrap_err().number, Number::GROUPS);
    assert_eq!(error_model(REPETITION.as_bytes(), &[vec![0, 0]], &[]).unwrap_err().number, Number::WALK);
}

/// Noise of three kinds, again and again, whose table would be longer than any may be: the model is made of several.
#[test]
fn more_elements_than_a_table_has_room_for() {
    let noise = "op=n p=3fe0000000000000 corr=- cond=- parity=0 d=2 q=0,1 size=15
op=n p=3fe0000000000000 corr=- cond=- parity=0 d=3 n=2 size=2
x=1 z=-
x=0 z=1
op=i shot=0 x=0 z=-
op=n p=3fe0000000000000 corr=- cond=- parity=0 d=1 x=0 z=- size=1
";
    let job = |times: usize| {
        let header = "op=job qubits=2 outcomes=2 shots=1\n";
        format!("{header}{}op=o x=- z=0 id=0\nop=o x=0 z=1 id=1\n", noise.repeat(times))
    };
    let (groups, times) = ([vec![0], vec![0, 1], vec![1]], 2_500);
    assert_eq!(fault_table(job(times).as_bytes(), &groups).unwrap_err().number, Number::ROOM);
    let [one, many] = [1, times].map(|times| error_model(job(times).as_bytes(), &groups, &[]).expect("a model"));
    assert_eq!((one.mechanisms().len(), many.mechanisms().len()), (18, 18 * times));
    let told =
        |mechanism: &kundatrezo::Mechanism| (mechanism.element, mechanism.p, mechanism.detectors().collect::<Vec<_>>());
    for (time, part) in many.mechanisms().chunks(18).enumerate() {
        assert!(part.iter().map(told).eq(one.mechanisms().iter().map(told)), "time {time}");
        assert_eq!(part[17].line, one.mechanisms()[17].line + noise.lines().count() * time);
    }
}

/// The independent errors by which docs/FAULTS.md says that depolarizing noise can be had exactly, over one to three qubits.
#[test]
fn depolarizing_noise_as_independent_errors() {
    for (qubits, p) in [(1, 0.1), (1, 0.75), (2, 0.02), (2, 0.5), (3, 0.3)] {
        let paulis = 4_f64.powi(qubits);
        let q = (1.0 - (1.0 - paulis * p / (paulis - 1.0)).powf(2.0 / paulis)) / 2.0;
        let errors: Vec<(f64, usize)> = (1..1 << (2 * qubits)).map(|element| (q, element)).collect();
        let together = patterns(&errors, 2 * qubits as usize);
        assert!((together[0] - (1.0 - p)).abs() < 1e-12, "{together:?}");
        assert!(together[1..].iter().all(|element| (element - p / (paulis - 1.0)).abs() < 1e-12), "{together:?}");
    }
}

// ---- a small decoder, which reads the text of a model

/// The errors of a model, each with its probability and what it flips: a bit for each detector, then for each observable; and the number of detectors.
fn decoded(text: &str) -> (Vec<(f64, usize)>, usize) {
    let targets = |line: &str| -> Vec<(char, usize)> {
        let target = |word: &str| Some((word.chars().next()?, word.get(1..)?.parse().ok()?));
        line.split(' ').skip(1).map(|word| target(word).expect("a target")).collect()
    };
    let detectors =
        text.lines().flat_map(targets).filter(|(kind, _)| *kind == 'D').map(|(_, place)| place + 1).max().unwrap_or(0);
    let error = |line: &str| {
        let p = line.strip_prefix("error(")?.split(')').next()?.parse().ok()?;
        let flips = targets(line).into_iter().map(|(kind, place)| match kind {
            'D' => 1 << place,
            _ => 1 << (detectors + place),
        });
        Some((p, flips.fold(0, |bits, bit: usize| bits ^ bit)))
    };
    (text.lines().filter_map(error).collect(), detectors)
}

/// The probability of each pattern of flipped detectors and observables, of errors that fall independently.
fn patterns(errors: &[(f64, usize)], bits: usize) -> Vec<f64> {
    let mut patterns = vec![0.0; 1 << bits];
    patterns[0] = 1.0;
    for (p, flips) in errors {
        patterns =
            (0..patterns.len()).map(|pattern| (1.0 - p) * patterns[pattern] + p * patterns[pattern ^ flips]).collect();
    }
    patterns
}

/// For each pattern of detectors whether the one observable is likelier flipped than not: a decoder by a table.
fn lookup(patterns: &[f64], detectors: usize) -> Vec<bool> {
    (0..1 << detectors).map(|syndrome| patterns[1 << detectors | syndrome] > patterns[syndrome]).collect()
}

/// How often the decoder is wrong, where patterns have these probabilities.
fn failures(decoder: &[bool], patterns: &[f64]) -> f64 {
    let wrong = |(pattern, p): (usize, &f64)| {
        let flipped = pattern >= decoder.len();
        if flipped == decoder[pattern % decoder.len()] { 0.0 } else { *p }
    };
    patterns.iter().enumerate().map(wrong).sum()
}

/// The repetition code of distance 3: two of three flips are a logical error, however the parities are measured.
#[test]
fn a_decoder_finds_the_rate_of_distance_3() {
    let groups = [vec![0], vec![1], vec![0, 2, 3], vec![1, 3, 4]];
    for p in [0.02_f64, 0.1, 0.3] {
        let job = REPETITION.replace("3f947ae147ae147b", &format!("{:016x}", p.to_bits()));
        let text = error_model(job.as_bytes(), &groups, &[vec![2]]).expect("a model").to_string();
        let (errors, detectors) = decoded(&text);
        assert_eq!((errors.len(), detectors), (5, 4));
        let patterns = patterns(&errors, 5);
        let rate = failures(&lookup(&patterns, detectors), &patterns);
        let exact = 3.0 * p * p - 2.0 * p * p * p;
        assert!((rate - exact).abs() < 1e-15, "{rate} and not {exact}");
        // a matching decoder takes it: no error flips more than two detectors, and three errors at least are a logical one
        assert!(errors.iter().all(|(_, flips)| (flips & 0b1111).count_ones() <= 2));
        let undetected = |subset: &u32| {
            let flips = |place: usize| if subset >> place & 1 == 1 { errors[place].1 } else { 0 };
            (0..errors.len()).fold(0, |sum, place| sum ^ flips(place)) == 1 << detectors
        };
        let least = (0..1_u32 << errors.len()).filter(undetected).map(u32::count_ones).min();
        assert_eq!(least, Some(3));
    }
}

/// Depolarizing noise, of whose elements one falls at most: a decoder of the model on what the job's noise really does, exactly and sampled.
#[test]
fn a_model_of_exclusive_elements_is_near() {
    let detectors = [vec![0], vec![1], vec![0, 2], vec![1, 3], vec![2, 4, 5], vec![3, 5, 6]];
    let model = error_model(SYNDROME.as_bytes(), &detectors, &[vec![4]]).expect("a model");
    let (errors, count) = decoded(&model.to_string());
    assert_eq!(count, 6);
    let independent = patterns(&errors, 7);
    let decoder = lookup(&independent, count);

    // line by line: an element falls, or none
    let mut exclusive = vec![0.0; 1 << 7];
    exclusive[0] = 1.0;
    for line in model.mechanisms().chunk_by(|one, other| one.line == other.line) {
        let flips = |mechanism: &kundatrezo::Mechanism| -> usize {
            mechanism.detectors().chain(mechanism.observables().map(|place| count + place)).map(|bit| 1 << bit).sum()
        };
        let none = 1.0 - line.iter().map(|mechanism| mechanism.p).sum::<f64>();
        let moved = |pattern: usize| {
            let falls = |mechanism| exclusive[pattern ^ flips(mechanism)] * mechanism.p;
            none * exclusive[pattern] + line.iter().map(falls).sum::<f64>()
        };
        exclusive = (0..exclusive.len()).map(moved).collect();
    }
    let (rate, exact) = (failures(&decoder, &independent), failures(&decoder, &exclusive));
    assert_eq!(
        format!("{rate:.5} by the model, {exact:.5} by the noise"),
        "0.00547 by the model, 0.00551 by the noise"
    );

    let job = SYNDROME.replace("shots=64", &format!("shots={MAX_SHOTS}"));
    let (mut words, mut stream, mut frames) = (vec![0; 100_000], Xorshift::new(13), Frames::new());
    let (mut shots, mut failed) = (0, 0);
    for _ in 0..16 {
        stream.fill(&mut words);
        frames.run(job.as_bytes(), &vec![0; 7 * MAX_SHOTS / 64], Draws::new(&words)).expect("it runs");
        for row in Shots::from_frames(&frames).iter() {
            let sum = |group: &Vec<u64>| group.iter().fold(false, |sum, id| sum ^ bit(row, *id as usize));
            let syndrome: usize =
                detectors.iter().enumerate().map(|(place, group)| usize::from(sum(group)) << place).sum();
            failed += u32::from(decoder[syndrome] != bit(row, 4));
            shots += 1;
        }
    }
    let deviation = (f64::from(failed) - f64::from(shots) * exact) / (f64::from(shots) * exact * (1.0 - exact)).sqrt();
    assert!(deviation.abs() < 4.0, "{failed} failures of {shots}, {deviation} standard deviations off");
}
