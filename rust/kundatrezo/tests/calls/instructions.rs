//! Jobs read into instructions and written again.

use kundatrezo::{
    Circuit, Form, Gate, Header, Instruction, JobParameters, MAX_BYTES, MAX_OUTCOMES, MAX_QUBITS, MAX_SHOTS, Noise,
    OutcomeCondition, PauliDistribution, SparsePauli, WeightedPauli, Xorshift, check, clifford_line, examine,
    fault_table, make, make_job,
};
use std::collections::BTreeSet;
use std::fs;
use std::path::PathBuf;

/// Read a job, and see that it is written again to the same bytes.
fn round_trip(job: &[u8]) -> Circuit {
    let circuit = Circuit::read(job).unwrap_or_else(|refusal| panic!("{refusal}: {}", String::from_utf8_lossy(job)));
    assert!(circuit.to_job() == job, "{}", String::from_utf8_lossy(job));
    circuit
}

/// The forms of all lines of a circuit.
fn forms(circuit: &Circuit) -> impl Iterator<Item = Form> {
    let header = if circuit.header.edition.is_some() { Form::HeaderWithEdition } else { Form::Header };
    let lines = circuit.instructions.iter().map(Instruction::form);
    [header].into_iter().chain(lines.flat_map(|form| [Some(form), form.elements()]).flatten())
}

fn gates(circuit: &Circuit) -> impl Iterator<Item = Gate> {
    circuit.instructions.iter().filter_map(|instruction| match instruction {
        Instruction::Unitary { gate, .. } => Some(*gate),
        _ => None,
    })
}

#[test]
fn made_jobs_are_written_as_they_are_read() {
    let mut random = Xorshift::new(33);
    let mut below = |n: u64| random.next().expect("words without end") % n;
    let mut out = vec![0; MAX_BYTES];
    let (mut seen_forms, mut seen_gates, mut editions) = (BTreeSet::new(), BTreeSet::new(), [0; 2]);
    for round in 0..100_000 {
        let [qubits, outcomes, shots] = match round % 4 {
            0 => [1 + below(2), below(2), 1 + below(3)],
            1 => [MAX_QUBITS, MAX_OUTCOMES, MAX_SHOTS].map(|most| most as u64),
            _ => [1 + below(20), below(10), 1 + below(100)],
        };
        let lines = if round % 1_000 == 0 { 1_000 } else { below(12) };
        let asked = JobParameters { qubits, outcomes, shots, lines, seed: 1 + below(u64::MAX) };
        let bytes = make(asked, &mut out).expect("few lines always fit");
        let circuit = round_trip(&out[..bytes]);
        let Header { edition, .. } = circuit.header;
        let numbers = [circuit.header.qubits, circuit.header.outcomes, circuit.header.shots];
        assert_eq!(numbers.map(|number| number as u64), [qubits, outcomes, shots]);
        assert_eq!(circuit.instructions.len() as u64, lines);
        assert!(circuit.instructions.iter().all(|instruction| instruction.edition() <= edition.unwrap_or(1)));
        editions[usize::from(edition == Some(2))] += 1;
        seen_forms.extend(forms(&circuit));
        seen_gates.extend(gates(&circuit));
    }
    assert!(editions.iter().all(|jobs| *jobs > 40_000), "{editions:?}");
    assert!(seen_forms.iter().eq(Form::ALL), "{seen_forms:?}");
    assert!(seen_gates.iter().eq(Gate::ALL), "{seen_gates:?}");
}

fn pauli(x: &[usize], z: &[usize]) -> SparsePauli {
    SparsePauli { x: x.to_vec(), z: z.to_vec() }
}

/// What each form of line says.
#[test]
fn each_form_is_read() {
    let plain = |probability, distribution| {
        Instruction::Noise(Noise { probability, correlation: None, condition: None, distribution })
    };
    let condition = OutcomeCondition { outcomes: vec![0, 1], parity: true };
    let cases = [
        ("op=o x=0,1 z=1 id=0", Instruction::Measure { observable: pauli(&[0, 1], &[1]), outcome: 0 }),
        ("op=r id=1 angle=1", Instruction::Allocate { outcome: 1, is_angle: true }),
        ("op=u g=11 q=5,2", Instruction::Unitary { gate: Gate::ControlledX, qubits: vec![5, 2] }),
        ("op=c q=3,0 t=000000000000c423", Instruction::Clifford { qubits: vec![3, 0], table: vec![0xc423] }),
        ("op=p x=- z=4", Instruction::Pauli(pauli(&[], &[4]))),
        ("op=e x=4 z=-", Instruction::PauliExp(pauli(&[4], &[]))),
        ("op=k x=1 z=- u=- v=2", Instruction::ControlledPauli { control: pauli(&[1], &[]), target: pauli(&[], &[2]) }),
        ("op=m s=1,2,0 q=2,4,7", Instruction::Permute { places: vec![1, 2, 0], qubits: vec![2, 4, 7] }),
        (
            "op=f x=3 z=- id=0,1 parity=1",
            Instruction::ConditionalPauli { pauli: pauli(&[3], &[]), outcomes: vec![0, 1], parity: true },
        ),
        ("op=z q=3,0", Instruction::Reset { qubits: vec![3, 0] }),
        ("op=b q=0,5", Instruction::Barrier { qubits: vec![0, 5] }),
        ("op=i shot=99 x=0 z=1", Instruction::Inject { shot: 99, pauli: pauli(&[0], &[1]) }),
        ("op=t shot=98 id=1", Instruction::Flip { shot: 98, outcome: 1 }),
        (
            "op=n p=3fe0000000000000 corr=7 cond=0,1 parity=1 d=1 x=4 z=- size=1",
            Instruction::Noise(Noise {
                probability: 0.5,
                correlation: Some(7),
                condition: Some(condition),
                distribution: PauliDistribution::Single(pauli(&[4], &[])),
            }),
        ),
        (
            "op=n p=3fd0000000000000 corr=- cond=- parity=0 d=2 q=5,0 size=15",
            plain(0.25, PauliDistribution::Depolarizing(vec![5, 0])),
        ),
        (
            "op=n p=3fe0000000000000 corr=- cond=- parity=0 d=3 n=2 size=2\nx=0 z=-\nx=- z=1",
            plain(0.5, PauliDistribution::Uniform(vec![pauli(&[0], &[]), pauli(&[], &[1])])),
        ),
        (
            "op=n p=3fe0000000000000 corr=- cond=- parity=0 d=4 n=2 size=2\nw=4020000000000000 x=1 z=-\nw=3ff0000000000000 x=- z=1",
            plain(
                0.5,
                PauliDistribution::Weighted(vec![
                    WeightedPauli { weight: 8.0, pauli: pauli(&[1], &[]) },
                    WeightedPauli { weight: 1.0, pauli: pauli(&[], &[1]) },
                ]),
            ),
        ),
    ];
    let header = "op=job edition=2 qubits=8 outcomes=9 shots=100";
    let lines: Vec<&str> = cases.iter().map(|(line, _)| *line).collect();
    let circuit = round_trip(format!("{header}\n{}\n", lines.join("\n")).as_bytes());
    assert_eq!(circuit.header, Header { edition: Some(2), qubits: 8, outcomes: 9, shots: 100 });
    assert_eq!(circuit.header.to_string(), header);
    let mut seen: BTreeSet<Form> = forms(&circuit).collect();
    for (read, (line, instruction)) in circuit.instructions.iter().zip(&cases) {
        assert_eq!((read, read.to_string().as_str()), (instruction, *line));
        assert_eq!(read.line_count(), line.lines().count());
    }
    assert_eq!(circuit.instructions.len(), cases.len());
    seen.insert(Form::Header);
    assert!(seen.iter().eq(Form::ALL), "{seen:?}");
}

/// Values that no made job has are kept as they are written.
#[test]
fn unusual_values_are_kept() {
    let all: Vec<String> = (225..256).map(|qubit: usize| qubit.to_string()).collect();
    let all = all.join(",");
    for field in ["", "edition=1 ", "edition=2 "] {
        let before =
            format!("op=job {field}qubits=256 outcomes=1024 shots=4096\nop=o x=- z=- id=0\nop=r id=1 angle=1\n");
        for lines in [
            String::new(),
            format!("op=p x={all} z={all}\n"),
            format!("op=k x={all} z=- u={all} v=-\n"),
            "op=m s=0 q=255\nop=m s=1,0 q=255,0\nop=f x=- z=- id=- parity=1\nop=f x=1 z=- id=0,1 parity=0\n".into(),
            "op=i shot=4095 x=- z=-\nop=t shot=4095 id=1\n".into(),
            "op=n p=8000000000000000 corr=18446744073709551615 cond=0,1 parity=1 d=1 x=- z=- size=1\n".into(),
            "op=n p=fff0000000000000 corr=0 cond=0 parity=0 d=1 x=255 z=0,255 size=1\n".into(),
            format!("op=n p=3ff0000000000000 corr=- cond=- parity=0 d=2 q={all} size=4611686018427387903\n"),
            format!("op=n p=0000000000000001 corr=- cond=- parity=0 d=3 n=64 size=64\n{}", "x=- z=-\n".repeat(64)),
            "op=n p=bff0000000000000 corr=- cond=- parity=0 d=4 n=2 size=2\nw=8000000000000000 x=- z=-\nw=0000000000000001 x=0 z=1\n"
                .into(),
        ] {
            round_trip(format!("{before}{lines}").as_bytes());
        }
    }
    // the identity on one to eight qubits, whose tables have one to four words
    for qubits in 1..=8_usize {
        let image = |letter: char, place: usize| -> String {
            (0..qubits).map(|own| if own == place { letter } else { 'I' }).collect()
        };
        let [x, z] = ['X', 'Z'].map(|letter| (0..qubits).map(|place| image(letter, place)).collect::<Vec<String>>());
        let [x, z] = [&x, &z].map(|images| images.iter().map(String::as_str).collect::<Vec<&str>>());
        let operands: Vec<usize> = (0..qubits).rev().collect();
        let line = clifford_line(&operands, &x, &z).expect("the identity is a Clifford");
        let circuit = round_trip(format!("op=job qubits=8 outcomes=0 shots=1\n{line}\n").as_bytes());
        assert_eq!(circuit.instructions[0].to_string(), line);
    }
}

fn repository() -> PathBuf {
    PathBuf::from(env!("CARGO_MANIFEST_DIR")).join("../..")
}

/// The files of a folder of the repository with an extension, as text.
fn texts(folder: &str, extension: &str) -> Vec<String> {
    let entries = fs::read_dir(repository().join(folder)).expect("the folder is there");
    let paths = entries.map(|entry| entry.expect("an entry").path());
    paths
        .filter(|path| path.extension().is_some_and(|own| own == extension))
        .map(|path| fs::read_to_string(path).expect("text"))
        .collect()
}

/// The jobs that stand on a page, typed or printed.
fn jobs_of(page: &str) -> Vec<String> {
    let mut jobs: Vec<String> = Vec::new();
    let mut in_job = false;
    for line in page.lines() {
        let line = line.strip_prefix("    ").unwrap_or_default();
        let line = line.strip_prefix("> ").unwrap_or(line);
        if line.starts_with("op=job ") {
            jobs.push(String::new());
            in_job = true;
        }
        in_job &= ["op=", "x=", "w="].iter().any(|start| line.starts_with(start));
        if let Some(job) = jobs.last_mut().filter(|_| in_job) {
            job.push_str(line);
            job.push('\n');
        }
    }
    jobs
}

#[test]
fn examples_and_jobs_of_the_pages() {
    let examples = texts("examples", "job");
    assert!(examples.len() >= 5);
    for job in &examples {
        round_trip(job.as_bytes());
    }
    let pages = [texts("docs", "md"), texts(".", "md"), texts("rust", "md"), texts("python", "md")].concat();
    let jobs: Vec<String> = pages.iter().flat_map(|page| jobs_of(page)).collect();
    let (accepted, refused): (Vec<&String>, Vec<&String>) = jobs.iter().partition(|job| check(job.as_bytes()).is_ok());
    for job in &accepted {
        round_trip(job.as_bytes());
    }
    // docs/REFUSALS.md has jobs that are refused
    for job in &refused {
        assert_eq!(Circuit::read(job.as_bytes()).map(drop), check(job.as_bytes()));
    }
    assert!(accepted.len() > 30 && refused.len() > 10, "{} {}", accepted.len(), refused.len());
}

/// Lines are numbered as the engine numbers them.
#[test]
fn noise_has_the_line_numbers_of_the_fault_table() {
    let mut compared = 0;
    for seed in 1..=300 {
        let job = make_job(JobParameters { qubits: 5, outcomes: 3, shots: 10, lines: 40, seed }).expect("it fits");
        let circuit = round_trip(&job);
        let lines = circuit.noise().flat_map(|(line, noise)| (0..noise.distribution.size()).map(move |_| line));
        let table = fault_table(&job, &[vec![]]).expect("the job is accepted");
        assert!(table.iter().map(|fault| fault.line).eq(lines), "{}", String::from_utf8_lossy(&job));
        compared += table.iter().count();

        assert_eq!(circuit.recorded(), examine(&job).expect("the job is accepted").recorded);
        assert!(circuit.noise().all(|(line, noise)| circuit.noise_at(line) == Some(noise)));
        let text = String::from_utf8(job).expect("text");
        for (line, text) in (1..).zip(text.lines()) {
            assert!(circuit.noise_at(line).is_none() || !text.starts_with("op=") || text.starts_with("op=n "));
            let found = circuit.at_line(line).map(ToString::to_string);
            assert_eq!(found.as_ref().is_some_and(|found| found.lines().any(|own| own == text)), line > 1, "{line}");
        }
        assert_eq!((circuit.at_line(0), circuit.at_line(text.lines().count() + 1)), (None, None));
    }
    assert!(compared > 10_000, "{compared}");
}

/// The table of forms is that of the definitions, and the table of gates that of docs/JOBS.md.
#[test]
fn tables_are_those_of_the_definitions() {
    let definitions = fs::read_to_string(repository().join("crates/job/specs/Grammar.antt")).expect("text");
    let quoted = definitions.split('"').skip(1).step_by(2);
    let templates: BTreeSet<&str> =
        quoted.filter(|text| text.ends_with(|last: char| last.is_ascii_uppercase())).collect();
    assert_eq!(templates, Form::ALL.iter().map(|form| form.template()).collect());

    let page = fs::read_to_string(repository().join("docs/JOBS.md")).expect("text");
    let (_, table) = page.split_once("| g | name | qubits |").expect("a table of gates");
    let rows = table.lines().skip(2).take_while(|row| row.starts_with('|'));
    let rows: Vec<(u64, &str, usize)> = rows
        .map(|row| {
            let cells: Vec<&str> = row.split('|').map(str::trim).collect();
            let operands = if cells[3] == "1" { 1 } else { 2 };
            (cells[1].parse().expect("a code"), cells[2], operands)
        })
        .collect();
    let own: Vec<(u64, &str, usize)> =
        Gate::ALL.iter().map(|gate| (gate.code(), gate.name(), gate.operands())).collect();
    assert_eq!(rows, own);
}

#[test]
fn sizes_of_distributions() {
    let size = |qubits: usize| PauliDistribution::Depolarizing((0..qubits).collect()).size();
    assert_eq!([1, 2, 31, 32, 40].map(size), [3, 15, (1 << 62) - 1, u64::MAX, u64::MAX]);
    let paulis = vec![SparsePauli::default(); 5];
    assert_eq!(PauliDistribution::Uniform(paulis).size(), 5);
}

/// Each gate is accepted with its number of qubits alone, from its edition on.
#[test]
fn the_engine_has_the_gates_of_the_table() {
    for gate in Gate::ALL {
        for edition in 1..=2 {
            for qubits in 1..=3_usize {
                let unitary = Instruction::Unitary { gate: *gate, qubits: (0..qubits).collect() };
                let header = Header { edition: Some(edition), qubits: 3, outcomes: 0, shots: 1 };
                let job = Circuit { header, instructions: vec![unitary] }.to_job();
                assert_eq!(check(&job).is_ok(), edition >= gate.edition() && qubits == gate.operands(), "{gate}");
            }
        }
    }
}
