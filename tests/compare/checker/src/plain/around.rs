//! Annotation, locations and the correlation check.

use crate::job::{Instruction, Job, MAX_LIST, Refusal};
use crate::write;

/// The qubits on which faults are located: the operands, or the support rising (control's, then target's).
fn located_qubits(instruction: &Instruction) -> Vec<u64> {
    match instruction {
        Instruction::Unitary { qubits, .. }
        | Instruction::Clifford { qubits, .. }
        | Instruction::Permute { qubits, .. } => qubits.to_vec(),
        Instruction::Pauli(pauli)
        | Instruction::Exponential(pauli)
        | Instruction::Measure { observable: pauli, .. } => pauli.support(),
        Instruction::Controlled { control, target } => [control.support(), target.support()].concat(),
        Instruction::Allocate { .. }
        | Instruction::Conditional { .. }
        | Instruction::Reset { .. }
        | Instruction::Barrier { .. }
        | Instruction::Inject { .. }
        | Instruction::Flip { .. }
        | Instruction::Noise(_) => Vec::new(),
    }
}

/// The list that annotation gives noise: each of the qubits at its first appearance.
///
/// # Errors
///
/// 18 where that are more than a list may hold.
pub fn noise_list(qubits: &[u64], line: u64) -> Result<Vec<u64>, Refusal> {
    let mut list: Vec<u64> = Vec::new();
    for &qubit in qubits {
        if !list.contains(&qubit) {
            list.push(qubit);
        }
    }
    if list.len() <= MAX_LIST { Ok(list) } else { Err(Refusal::at(18, line)) }
}

/// The annotated job.
pub(super) fn annotated(job: &Job<'_>, p: u64) -> Result<Vec<u8>, Refusal> {
    let mut text = job.header_text.to_vec();
    for line in &job.lines {
        let qubits = noise_list(&located_qubits(&line.instruction), line.number)?;
        let noise = if qubits.is_empty() { String::new() } else { write::annotation(p, &qubits) };
        let before = matches!(line.instruction, Instruction::Measure { .. });
        let parts = if before { [noise.as_bytes(), line.text] } else { [line.text, noise.as_bytes()] };
        text.extend_from_slice(&parts.concat());
    }
    Ok(text)
}

/// Twice the qubits on which faults are located, control's and target's both, summed over the job.
pub(super) fn locations(job: &Job<'_>) -> u64 {
    job.lines.iter().map(|line| 2 * located_qubits(&line.instruction).len() as u64).sum()
}

/// 19 at the first line whose size, as written, differs from that of the first line with its correlation.
pub(super) fn correlation(job: &Job<'_>) -> Result<(), Refusal> {
    let mut sizes: Vec<(u64, u64)> = Vec::new();
    for line in &job.lines {
        let Instruction::Noise(noise) = &line.instruction else {
            continue;
        };
        let Some(correlation) = noise.correlation else { continue };
        match sizes.iter().find(|(earlier, _)| *earlier == correlation) {
            Some((_, first)) if *first != noise.size => return Err(Refusal::at(19, line.number)),
            Some(_) => {}
            None => sizes.push((correlation, noise.size)),
        }
    }
    Ok(())
}
