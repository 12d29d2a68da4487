//! The table of single faults, by a run for each of them (note 13).

use super::draws::elements;
use super::frame::Frame;
use crate::job::{Distribution, Instruction, Job, MAX_GROUPS, MAX_SPREAD, Pauli, Refusal, usize_of};
use std::fmt::Write;

/// The groups of a lent list: a length, its ids, the next length.
///
/// # Errors
///
/// 17 where one is cut short.
fn groups_of(mut list: &[u64]) -> Result<Vec<&[u64]>, Refusal> {
    let mut groups = Vec::new();
    while let [length, rest @ ..] = list {
        let length = usize::try_from(*length).ok().filter(|length| *length <= rest.len());
        let (group, behind) = rest.split_at(length.ok_or(Refusal::of_call(17))?);
        groups.push(group);
        list = behind;
    }
    Ok(groups)
}

/// The groups, after 17 for all of them, 24 for their number and 24 for a noise line.
///
/// # Errors
///
/// The refusal.
pub fn need_groups<'a>(job: &Job<'_>, list: &'a [u64]) -> Result<Vec<&'a [u64]>, Refusal> {
    let groups = groups_of(list)?;
    let rising = |group: &[u64]| group.is_sorted_by(|one, next| one < next);
    let recorded = |group: &[u64]| group.iter().all(|&id| id < job.recorded);
    if !groups.iter().all(|group| rising(group) && recorded(group)) {
        return Err(Refusal::of_call(17));
    }
    if groups.is_empty() || groups.len() > MAX_GROUPS {
        return Err(Refusal::of_call(24));
    }
    let wide = job.lines.iter().find(|line| is_wide(&line.instruction));
    wide.map_or(Ok(groups), |line| Err(Refusal::at(24, line.number)))
}

/// Depolarizing noise over too many qubits.
fn is_wide(instruction: &Instruction) -> bool {
    match instruction {
        Instruction::Noise(noise) => {
            matches!(&noise.distribution, Distribution::Depolarizing(qubits) if qubits.len() > MAX_SPREAD)
        }
        _ => false,
    }
}

/// A row of the table; `sums` says of each group whether its deltas sum to 1.
pub fn row(text: &mut String, line: u64, element: usize, sums: impl Iterator<Item = bool>) {
    let groups: String = sums.map(|sum| if sum { '1' } else { '0' }).collect();
    _ = writeln!(text, "line={line} el={element} groups={groups}");
}

/// The table's text.
///
/// # Errors
///
/// 17 or 24.
pub(super) fn fault_table(job: &Job<'_>, list: &[u64]) -> Result<Vec<u8>, Refusal> {
    let groups = need_groups(job, list)?;
    let mut text = String::new();
    for (place, line) in job.lines.iter().enumerate() {
        let Instruction::Noise(noise) = &line.instruction else { continue };
        for (element, pauli) in elements(&noise.distribution).iter().enumerate() {
            let deltas = faulted(job, place, pauli);
            let sum = |group: &&[u64]| group.iter().fold(false, |sum, &id| sum ^ deltas[usize_of(id)]);
            row(&mut text, line.number, element, groups.iter().map(sum));
        }
    }
    Ok(text.into_bytes())
}

/// The deltas at the end of the job's run in a shot, with a Pauli as the only injection, in the place of a noise line. The job's own injections and flips
/// are left out, so up to that line the frame is clear, and every delta zero.
fn faulted(job: &Job<'_>, place: usize, pauli: &Pauli) -> Vec<bool> {
    let mut frame = Frame::default();
    let mut deltas = vec![false; usize_of(job.header.outcomes)];
    frame.add(pauli);
    for line in &job.lines[place + 1..] {
        if !matches!(line.instruction, Instruction::Inject { .. } | Instruction::Flip { .. }) {
            frame.forward(&line.instruction, 0, &mut deltas);
        }
    }
    deltas
}
