//! docs/JOBS.md: its examples are jobs that pass the checks, its sessions print what stands there, and its tables are those of the engine.

use crate::common::{Done, folder, kundatrezo};
use crate::documents::{document, run, session_folder, steps};
use std::fs;
use std::path::Path;

/// The lines that the page's short examples stand behind.
const BEGINNING: &str = "op=job qubits=8 outcomes=9 shots=100\nop=r id=0 angle=0\nop=r id=1 angle=0\n";

fn page() -> String {
    document("docs/JOBS.md")
}

/// The indented blocks of a text, without their indents.
fn blocks(text: &str) -> Vec<String> {
    let mut blocks = vec![String::new()];
    for line in text.lines() {
        match line.strip_prefix("    ") {
            Some(line) => *blocks.last_mut().expect("there is one") += &format!("{line}\n"),
            None => blocks.push(String::new()),
        }
    }
    blocks.retain(|block| !block.is_empty());
    blocks
}

/// The cells of a text's tables, row by row.
fn rows(text: &str) -> Vec<Vec<String>> {
    let cells = |row: &str| row.trim_matches('|').split('|').map(|cell| cell.trim().to_owned()).collect();
    text.lines().filter(|line| line.starts_with("| ")).map(cells).collect()
}

/// The part of the page under a heading.
fn section(heading: &str) -> String {
    let page = page();
    let (_, rest) = page.split_once(&format!(" {heading}\n")).expect("the heading is there");
    rest.split("\n#").next().expect("a part").to_owned()
}

fn settled(job: &str, words: &[u64], folder: &Path) -> String {
    let path = folder.join("words");
    fs::write(&path, words.iter().flat_map(|word| word.to_le_bytes()).collect::<Vec<u8>>()).expect("it can be written");
    let path = path.to_str().expect("a path in plain text");
    let Done { status, stdout, stderr } = kundatrezo(["settle", "-", "--main", path], job.as_bytes());
    assert_eq!((status, stderr.as_str()), (0, ""), "{job}");
    String::from_utf8(stdout).expect("text")
}

#[test]
fn examples_pass_the_checks() {
    let examples = blocks(&page()).into_iter().filter(|block| block.starts_with("op=")).collect::<Vec<_>>();
    assert!(examples.iter().any(|example| example == BEGINNING));
    for example in &examples {
        let whole = if example.starts_with("op=job") { example.clone() } else { format!("{BEGINNING}{example}") };
        assert_eq!(kundatrezo(["check", "-"], whole.as_bytes()).status, 0, "{example}");
    }
    for file in ["examples/bell.job", "examples/syndrome.job", "examples/five_qubit_code.job", "examples/parity.job"] {
        assert!(examples.contains(&document(file)), "{file}");
    }
}

#[test]
fn sessions() {
    let folder = session_folder("jobs");
    for step in steps(&page()) {
        assert_eq!(run(&step, &folder).status, 0, "{}", step.command);
    }
}

/// Every form of the grammar and every gate is there, by the definitions themselves.
#[test]
fn forms_and_gates() {
    let page = page();
    let grammar = document("crates/job/specs/Grammar.antt");
    let is_form = |text: &&str| ["op=", "x=", "w="].iter().any(|start| text.starts_with(start));
    let forms: Vec<&str> = grammar.split('"').filter(is_form).collect();
    for form in &forms {
        assert!(page.contains(&format!("`{form}`")), "{form}");
    }
    assert!(forms.len() >= 21, "{forms:?}");
    let gates = document("crates/pauli/specs/Gate.antt");
    let names = gates.lines().find_map(|line| line.strip_prefix("gates = ")).expect("the list of gates");
    for (code, name) in names.trim_end_matches(" ∷ []").split(" ∷ ").enumerate() {
        assert!(page.contains(&format!("| {code} | {name} | ")), "{name}");
    }
}

/// A gate and its table take X and Z on each of two qubits, a shot each, to the same frames.
#[test]
fn tables_of_gates() {
    let folder = folder("tables");
    let faults = "op=i shot=0 x=6 z=-\nop=i shot=1 x=- z=6\nop=i shot=2 x=3 z=-\nop=i shot=3 x=- z=3\n";
    let frames = |line: &str| {
        let job = format!("op=job edition=2 qubits=8 outcomes=0 shots=4\n{faults}{line}\n");
        let [x, z] = ["x", "z"].map(|name| folder.join(name));
        let paths = [&x, &z].map(|path| path.to_str().expect("a path in plain text"));
        let done = kundatrezo(["run", "-", "--x", paths[0], "--z", paths[1]], job.as_bytes());
        assert_eq!(done.status, 0, "{done:?}");
        [x, z].map(|path| fs::read(path).expect("it was written"))
    };
    let rows = rows(&section("Cliffords: `op=c`"));
    for row in &rows[1..] {
        let [name, code, table] = row.as_slice() else { panic!("{row:?}") };
        let qubits = if code.parse::<u64>().expect("a code") > 10 { "6,3" } else { "6" };
        let gate = frames(&format!("op=u g={code} q={qubits}"));
        assert_eq!(frames(&format!("op=c q={qubits} t={table}")), gate, "{name}");
    }
    assert_eq!(rows.len(), 1 + 8);
}

#[test]
fn probabilities() {
    let rows = rows(&section("Probabilities"));
    for pair in rows[1..].iter().flat_map(|row| row.chunks(2)) {
        let p: f64 = pair[0].parse().expect("a number");
        assert_eq!(pair[1], format!("{:016x}", p.to_bits()));
    }
    assert_eq!(rows.len(), 1 + 10);
}

#[test]
fn elements_of_two_qubits() {
    let folder = folder("elements");
    let header = "op=job qubits=8 outcomes=0 shots=1\n";
    let noise = "op=n p=3ff0000000000000 corr=- cond=- parity=0 d=2 q=6,3 size=15\n";
    let rows = rows(&section("Which words are read"));
    let mut seen = 0;
    for element in rows[1..].iter().flat_map(|row| row.chunks(3)) {
        let choice: u64 = element[0].parse().expect("a number");
        let list = |part: &str| {
            let has = |letter: &str| letter == part || letter == "Y";
            match (has(&element[2]), has(&element[1])) {
                (false, false) => "-",
                (true, false) => "3",
                (false, true) => "6",
                (true, true) => "3,6",
            }
        };
        let injected = format!("{header}op=i shot=0 x={} z={}\n", list("X"), list("Z"));
        assert_eq!(settled(&format!("{header}{noise}"), &[0, choice], &folder), injected, "{choice}");
        seen += 1;
    }
    assert_eq!(seen, 15);
}
