//! Reading a job: its form, and its tests, 1 to 12, 20, 21 and 23.
//!
//! The first bad line counts, and its lowest number. A line is first read by its form (2, in [`crate::form`]); what it says is then put to the
//! tests in the order of their numbers, each a yes or no on the whole line.

use crate::form::{self, Written};
use crate::job::{
    Distribution, EDITIONS, Header, Instruction, Job, Line, MAX_BYTES, MAX_CLIFFORD_QUBITS, MAX_ELEMENTS, MAX_LIST,
    MAX_ONE_QUBIT_GATE, MAX_OUTCOMES, MAX_QUBITS, MAX_SHOTS, Noise, Pauli, Refusal, table_row,
};

/// Make the tests of a job.
///
/// # Errors
///
/// The refusal.
pub fn check(bytes: &[u8]) -> Result<(), Refusal> {
    let mut reader = Reader::begin(bytes)?;
    while reader.next_line()?.is_some() {}
    Ok(())
}

/// Make the tests of a job, and keep what it says.
///
/// # Errors
///
/// The refusal.
pub fn read(bytes: &[u8]) -> Result<Job<'_>, Refusal> {
    let mut reader = Reader::begin(bytes)?;
    let header_text = &bytes[..reader.position];
    let mut lines = Vec::new();
    while let Some(line) = reader.next_line()? {
        lines.push(line);
    }
    Ok(Job { header: reader.header, header_text, lines, recorded: reader.recorded })
}

/// 11: whether bits are a probability that passes.
#[must_use]
pub fn is_probability(bits: u64) -> bool {
    f64::from_bits(bits) <= 1.0
}

// ---- line after line

struct Reader<'a> {
    bytes: &'a [u8],
    position: usize,
    /// The number of the line read last.
    line: u64,
    header: Header,
    recorded: u64,
}

impl<'a> Reader<'a> {
    /// Test 1, and the first line.
    fn begin(bytes: &'a [u8]) -> Result<Self, Refusal> {
        if bytes.is_empty() || bytes.len() > MAX_BYTES || bytes.last() != Some(&b'\n') {
            return Err(Refusal::of_call(1));
        }
        let mut reader = Reader { bytes, position: 0, line: 0, header: Header::default(), recorded: 0 };
        match reader.take_written()? {
            Written::Header(header) if in_range(&header) => reader.header = header,
            _ => return Err(reader.refusal(3)),
        }
        if !EDITIONS.contains(&reader.header.edition()) {
            return Err(reader.refusal(23));
        }
        Ok(reader)
    }

    fn refusal(&self, number: u64) -> Refusal {
        Refusal::at(number, self.line)
    }

    /// The bytes of the next line without its LF.
    fn take_line(&mut self) -> &'a [u8] {
        let rest = &self.bytes[self.position..];
        let length = rest.iter().position(|&byte| byte == b'\n');
        let length = length.expect("test 1 saw a final LF");
        self.position += length + 1;
        self.line += 1;
        &rest[..length]
    }

    /// Whether the line read last is the job's last although element lines are due.
    fn ends_before(&self, due: u64) -> bool {
        due > 0 && self.position == self.bytes.len()
    }

    /// Test 2 of a line that is no element line.
    fn take_written(&mut self) -> Result<Written, Refusal> {
        let text = self.take_line();
        let written = form::written(text, self.header.edition()).ok_or(self.refusal(2))?;
        match written {
            Written::Noise(_, Some(elements)) if self.ends_before(elements) => Err(self.refusal(2)),
            _ => Ok(written),
        }
    }

    /// Test 2 of an element line, after which `due` more are due.
    fn take_element<T>(&mut self, read: impl Fn(&[u8]) -> Option<T>, due: u64) -> Result<T, Refusal> {
        let text = self.take_line();
        let element = read(text).filter(|_| !self.ends_before(due));
        element.ok_or(self.refusal(2))
    }

    /// The next instruction, element lines included.
    fn next_line(&mut self) -> Result<Option<Line<'a>>, Refusal> {
        if self.position == self.bytes.len() {
            return Ok(None);
        }
        let start = self.position;
        let written = self.take_written()?;
        let number = self.line;
        let instruction = match written {
            Written::Header(_) => return Err(self.refusal(3)),
            Written::Instruction(instruction) => {
                self.pass(self.test_instruction(&instruction))?;
                instruction
            }
            Written::Noise(noise, elements) => {
                self.pass(self.test_noise(&noise, elements))?;
                Instruction::Noise(self.take_elements(noise, elements.unwrap_or(0))?)
            }
        };
        if matches!(instruction, Instruction::Measure { .. } | Instruction::Allocate { .. }) {
            self.recorded += 1;
        }
        Ok(Some(Line { number, text: &self.bytes[start..self.position], instruction }))
    }

    /// The element lines of a noise line.
    fn take_elements(&mut self, mut noise: Box<Noise>, count: u64) -> Result<Box<Noise>, Refusal> {
        match &mut noise.distribution {
            Distribution::Single(_) | Distribution::Depolarizing(_) => {}
            Distribution::Uniform(paulis) => {
                for due in (0..count).rev() {
                    let pauli = self.take_element(form::element, due)?;
                    self.pass(self.test_lists(&[&pauli.x, &pauli.z]))?;
                    paulis.push(pauli);
                }
            }
            Distribution::Weighted(elements) => {
                let mut total = 0.0;
                for due in (0..count).rev() {
                    let (weight, pauli) = self.take_element(form::weighted_element, due)?;
                    self.pass(self.test_lists(&[&pauli.x, &pauli.z]))?;
                    total += f64::from_bits(weight);
                    self.pass(test_weight(f64::from_bits(weight), total, due == 0))?;
                    elements.push((weight, pauli));
                }
            }
        }
        Ok(noise)
    }

    // ---- tests by their numbers: the number of the first that fails

    fn pass(&self, fails: Option<u64>) -> Result<(), Refusal> {
        fails.map_or(Ok(()), |number| Err(self.refusal(number)))
    }

    /// 4 and 5 of lists of qubits whose count and order are free.
    fn test_lists(&self, lists: &[&[u64]]) -> Option<u64> {
        if lists.iter().any(|list| has_above(list, self.header.qubits)) {
            Some(4)
        } else if lists.iter().any(|list| list.len() > MAX_LIST) {
            Some(5)
        } else {
            None
        }
    }

    /// 4 and 5 of operands.
    fn test_operands(&self, qubits: &[u64], count_fits: bool) -> Option<u64> {
        let repeats = || !count_fits || has_repeat(qubits);
        self.test_lists(&[qubits]).or_else(|| repeats().then_some(5))
    }

    fn test_pauli(&self, pauli: &Pauli) -> Option<u64> {
        self.test_lists(&[&pauli.x, &pauli.z])
    }

    fn test_instruction(&self, instruction: &Instruction) -> Option<u64> {
        match instruction {
            Instruction::Unitary { gate, qubits } => {
                let operands = if *gate <= MAX_ONE_QUBIT_GATE { 1 } else { 2 };
                self.test_operands(qubits, qubits.len() == operands)
            }
            Instruction::Clifford { qubits, table } => self
                .test_operands(qubits, qubits.len() <= MAX_CLIFFORD_QUBITS)
                .or_else(|| (!is_clifford(table, qubits.len())).then_some(7)),
            Instruction::Pauli(pauli) | Instruction::Exponential(pauli) => self.test_pauli(pauli),
            Instruction::Controlled { control, target } => self
                .test_lists(&[&control.x, &control.z, &target.x, &target.z])
                .or_else(|| control.anticommutes(target).then_some(20)),
            Instruction::Permute { places, qubits } => self
                .test_operands(qubits, places.len() <= MAX_LIST)
                .or_else(|| (!is_permutation(places, qubits.len())).then_some(6)),
            Instruction::Measure { observable, id } => self.test_pauli(observable).or_else(|| self.test_next(*id)),
            Instruction::Allocate { id, .. } => self.test_next(*id),
            Instruction::Conditional { pauli, ids, .. } => self.test_pauli(pauli).or_else(|| self.test_outcomes(ids)),
            Instruction::Reset { qubits } | Instruction::Barrier { qubits } => self.test_operands(qubits, true),
            Instruction::Inject { shot, pauli } => self.test_pauli(pauli).or_else(|| self.test_shot(*shot)),
            Instruction::Flip { shot, id } => self.test_outcomes(&[*id]).or_else(|| self.test_shot(*shot)),
            Instruction::Noise(_) => unreachable!("noise lines have tests of their own"),
        }
    }

    fn test_noise(&self, noise: &Noise, elements: Option<u64>) -> Option<u64> {
        let on_qubits = match &noise.distribution {
            Distribution::Single(pauli) => self.test_pauli(pauli),
            Distribution::Depolarizing(qubits) => self.test_operands(qubits, true),
            Distribution::Uniform(_) | Distribution::Weighted(_) => None,
        };
        on_qubits
            .or_else(|| self.test_outcomes(&noise.condition))
            .or_else(|| (!is_probability(noise.p)).then_some(11))
            .or_else(|| elements.is_some_and(|n| !(1..=MAX_ELEMENTS).contains(&n)).then_some(12))
            .or_else(|| (noise.size != elements.unwrap_or_else(|| noise.distribution.size())).then_some(21))
    }

    /// 8: the id is the next one, and below outcomes.
    fn test_next(&self, id: u64) -> Option<u64> {
        (id != self.recorded || id >= self.header.outcomes).then_some(8)
    }

    /// 5 and 9 of a list of outcomes; no earlier test but 4 is left of either kind of line, and its qubits have passed that.
    fn test_outcomes(&self, ids: &[u64]) -> Option<u64> {
        if ids.len() > MAX_LIST {
            Some(5)
        } else if has_above(ids, self.recorded) {
            Some(9)
        } else {
            None
        }
    }

    fn test_shot(&self, shot: u64) -> Option<u64> {
        (shot >= self.header.shots).then_some(10)
    }
}

/// 3: the limits of a header.
pub(crate) fn in_range(header: &Header) -> bool {
    (1..=MAX_QUBITS).contains(&header.qubits)
        && header.outcomes <= MAX_OUTCOMES
        && (1..=MAX_SHOTS).contains(&header.shots)
}

/// 12 of a weight, and on the last element line of the total, wherever the sum left the finite numbers.
fn test_weight(weight: f64, total: f64, last: bool) -> Option<u64> {
    let fits = weight.is_finite() && weight >= 0.0;
    let total_fits = !last || (total.is_finite() && total != 0.0);
    (!fits || !total_fits).then_some(12)
}

fn has_above(list: &[u64], end: u64) -> bool {
    list.iter().any(|&entry| entry >= end)
}

/// Whether an entry comes twice; for lists that are short.
fn has_repeat(list: &[u64]) -> bool {
    (1..list.len()).any(|at| list[..at].contains(&list[at]))
}

/// 6: each place once.
fn is_permutation(places: &[u64], count: usize) -> bool {
    places.len() == count && !has_above(places, count as u64) && !has_repeat(places)
}

/// 7: no bit beyond the table, and images that commute as the generators do.
fn is_clifford(table: &[u64], qubits: usize) -> bool {
    let used = 4 * qubits * qubits % 64;
    if used > 0 && table[table.len() - 1] >> used != 0 {
        return false;
    }
    let generators = 2 * qubits;
    let row = |generator| table_row(table, qubits, generator);
    (0..generators).all(|one| {
        (0..one).all(|other| {
            let anticommute = one == other + qubits;
            anticommutes(row(one), row(other), qubits) == anticommute
        })
    })
}

/// Whether two images anticommute: X parts of the first on Z parts of the second, plus the reverse, are odd in number.
fn anticommutes(one: u64, other: u64, qubits: usize) -> bool {
    let x_part = |row: u64| row & ((1 << qubits) - 1);
    let z_part = |row: u64| row >> qubits;
    let meetings = (x_part(one) & z_part(other)).count_ones() + (z_part(one) & x_part(other)).count_ones();
    meetings % 2 == 1
}
