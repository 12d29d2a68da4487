//! A job's data as text. Every value has one form, so that reading the text gives the data back.

use crate::job::{Distribution, Header, Instruction, Noise, Pauli};
use std::fmt::Write;

/// The header's line with its LF.
#[must_use]
pub fn header(header: &Header) -> String {
    let Header { edition, qubits, outcomes, shots } = header;
    let edition = edition.map_or(String::new(), |edition| format!("edition={edition} "));
    format!("op=job {edition}qubits={qubits} outcomes={outcomes} shots={shots}\n")
}

/// An instruction's line, or lines, each with its LF.
#[must_use]
pub fn instruction(instruction: &Instruction) -> String {
    match instruction {
        Instruction::Unitary { gate, qubits } => format!("op=u g={gate} q={}\n", list(qubits)),
        Instruction::Clifford { qubits, table } => format!("op=c q={} t={}\n", list(qubits), words(table)),
        Instruction::Pauli(pauli) => format!("op=p {}\n", parts(pauli)),
        Instruction::Exponential(pauli) => format!("op=e {}\n", parts(pauli)),
        Instruction::Controlled { control, target } => {
            format!("op=k {} u={} v={}\n", parts(control), list(&target.x), list(&target.z))
        }
        Instruction::Permute { places, qubits } => format!("op=m s={} q={}\n", list(places), list(qubits)),
        Instruction::Measure { observable, id } => format!("op=o {} id={id}\n", parts(observable)),
        Instruction::Allocate { id, angle } => format!("op=r id={id} angle={}\n", u8::from(*angle)),
        Instruction::Conditional { pauli, ids, parity } => {
            format!("op=f {} id={} parity={}\n", parts(pauli), list(ids), u8::from(*parity))
        }
        Instruction::Reset { qubits } => format!("op=z q={}\n", list(qubits)),
        Instruction::Barrier { qubits } => format!("op=b q={}\n", list(qubits)),
        Instruction::Inject { shot, pauli } => inject(*shot, pauli),
        Instruction::Flip { shot, id } => format!("op=t shot={shot} id={id}\n"),
        Instruction::Noise(fault) => noise(fault),
    }
}

/// An injection's line with its LF.
#[must_use]
pub fn inject(shot: u64, pauli: &Pauli) -> String {
    format!("op=i shot={shot} {}\n", parts(pauli))
}

/// The noise line that annotation puts, with its LF.
#[must_use]
pub fn annotation(p: u64, qubits: &[u64]) -> String {
    noise(&Noise::unconditional(p, Distribution::Depolarizing(qubits.iter().copied().collect())))
}

fn noise(noise: &Noise) -> String {
    let correlation = noise.correlation.map_or("-".to_owned(), |corr| corr.to_string());
    let condition = list(&noise.condition);
    let parity = u8::from(noise.parity);
    let (distribution, elements) = match &noise.distribution {
        Distribution::Single(pauli) => (format!("d=1 {}", parts(pauli)), String::new()),
        Distribution::Depolarizing(qubits) => (format!("d=2 q={}", list(qubits)), String::new()),
        Distribution::Uniform(paulis) => {
            let elements = paulis.iter().map(|pauli| format!("{}\n", parts(pauli)));
            (format!("d=3 n={}", paulis.len()), elements.collect())
        }
        Distribution::Weighted(weighted) => {
            let elements = weighted.iter().map(|(weight, pauli)| format!("w={weight:016x} {}\n", parts(pauli)));
            (format!("d=4 n={}", weighted.len()), elements.collect())
        }
    };
    let Noise { p, size, .. } = noise;
    format!(
        "op=n p={p:016x} corr={correlation} cond={condition} parity={parity} {distribution} size={size}\n{elements}"
    )
}

fn parts(pauli: &Pauli) -> String {
    format!("x={} z={}", list(&pauli.x), list(&pauli.z))
}

fn list(entries: &[u64]) -> String {
    if entries.is_empty() {
        return "-".to_owned();
    }
    let mut text = String::new();
    for (at, entry) in entries.iter().enumerate() {
        let comma = if at == 0 { "" } else { "," };
        _ = write!(text, "{comma}{entry}");
    }
    text
}

/// A table's words, the least significant first.
fn words(table: &[u64]) -> String {
    table.iter().map(|word| format!("{word:016x}")).collect::<Vec<_>>().join(",")
}
