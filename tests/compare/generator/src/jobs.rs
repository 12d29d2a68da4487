//! Jobs that the checks accept.

use crate::random::Random;
use checker::job::{
    Distribution, Header, Instruction, List, MAX_CLIFFORD_QUBITS, MAX_LIST, Noise, Pauli, max_gate, table_of_rows,
    usize_of,
};
use checker::write;

/// Which jobs to make.
#[derive(Debug, Clone, Copy)]
pub struct Shape {
    /// Most qubits, outcomes and shots; jobs are of either edition, whatever stands here.
    pub limits: Header,
    /// Most instructions.
    pub lines: u64,
    /// Most instructions of nine jobs out of ten.
    pub usual_lines: u64,
    /// Whether the header has as many outcomes as it may, so that none of its measurements is the last for long.
    pub all_outcomes: bool,
    /// How often noise lines come, in eighteenths of how often all other lines do.
    pub noise: u64,
    /// How often Cliffords of five to eight qubits come beside those of any width, in eighteenths too.
    pub tables: u64,
    /// Whether noise lines need draws.
    pub draws: bool,
    /// Most qubits of depolarizing noise, where all numbers up to it come alike.
    pub spread: Option<usize>,
    /// Whether correlations are next to each other, so that the draws of all can lie in one list.
    pub near_correlations: bool,
}

/// Any job of a header's limits.
pub const ANY: Shape = Shape {
    limits: Header { edition: None, qubits: 256, outcomes: 1024, shots: 4096 },
    lines: 1500,
    usual_lines: 25,
    all_outcomes: false,
    noise: 2,
    tables: 0,
    draws: true,
    spread: None,
    near_correlations: false,
};

/// Jobs small enough to go through every set and shot.
pub const SMALL: Shape = Shape { limits: Header { edition: None, qubits: 8, outcomes: 5, shots: 5 }, lines: 40, ..ANY };

/// Jobs with little room and many lines, so that what a line does is noticed by others.
pub const DENSE: Shape = Shape {
    limits: Header { edition: None, qubits: 9, outcomes: 40, shots: 70 },
    lines: 150,
    usual_lines: 80,
    all_outcomes: true,
    ..ANY
};

/// A job as data.
#[derive(Debug, Clone)]
#[allow(missing_docs)]
pub struct Made {
    pub header: Header,
    pub instructions: Vec<Instruction>,
}

impl Made {
    /// The job's bytes.
    #[must_use]
    pub fn bytes(&self) -> Vec<u8> {
        let mut text = write::header(&self.header);
        for instruction in &self.instructions {
            text += &write::instruction(instruction);
        }
        text.into_bytes()
    }
}

/// A random job of a shape.
pub fn job(random: &mut Random, shape: &Shape) -> Made {
    let header = header(random, shape);
    let lines = line_count(random, shape, header.shots);
    job_of(random, header, lines, shape)
}

/// A random job with this header and number of instructions.
pub fn job_of(random: &mut Random, header: Header, lines: u64, shape: &Shape) -> Made {
    let mut maker = Maker {
        sizes_agree: !random.one_in(4),
        busy_qubits: busy(random, header.qubits),
        busy_shots: busy(random, header.shots),
        random,
        header,
        shape: *shape,
        recorded: 0,
        sizes: Vec::new(),
    };
    let instructions = (0..lines).map(|_| maker.instruction()).collect();
    Made { header, instructions }
}

/// A few numbers below `end`, often with the last one.
fn busy(random: &mut Random, end: u64) -> Vec<u64> {
    let count = 1 + random.index(6);
    let mut chosen = random.distinct(end, count);
    if random.one_in(2) && !chosen.contains(&(end - 1)) {
        chosen[0] = end - 1;
    }
    chosen
}

fn header(random: &mut Random, shape: &Shape) -> Header {
    let limits = &shape.limits;
    let qubits = [1, 2, 3, 4, 5, 8, 9, 31, 32, 33, 64, 65, 255, 256];
    let outcomes = [0, 1, 2, 3, 8, 40, 64, 256, 1023, 1024];
    let shots = [1, 2, 3, 5, 63, 64, 65, 127, 128, 129, 1000, 4095, 4096];
    Header {
        edition: edition(random),
        qubits: limit(random, &qubits, 1, limits.qubits),
        outcomes: if shape.all_outcomes { limits.outcomes } else { limit(random, &outcomes, 0, limits.outcomes) },
        shots: limit(random, &shots, 1, limits.shots),
    }
}

/// The second edition, the first, or the first without its field.
pub fn edition(random: &mut Random) -> Option<u64> {
    random.pick(&[Some(2), Some(2), Some(1), None])
}

/// A number that often is an interesting one.
fn limit(random: &mut Random, interesting: &[u64], least: u64, most: u64) -> u64 {
    let chosen = random.pick(interesting);
    if chosen > most || random.one_in(4) { random.between(least, most) } else { chosen }
}

/// Few lines mostly, and fewer with many shots, so that a job is soon run.
fn line_count(random: &mut Random, shape: &Shape, shots: u64) -> u64 {
    let cap = match random.below(100) {
        0 => shape.lines,
        1..10 => shape.lines.min(150),
        _ => shape.usual_lines,
    };
    let cap = if shots > 512 { cap.min(20) } else { cap };
    random.between(0, cap)
}

struct Maker<'a> {
    random: &'a mut Random,
    header: Header,
    shape: Shape,
    recorded: u64,
    /// Most lines are on few qubits and shots, so that they act on each other however many there are.
    busy_qubits: Vec<u64>,
    busy_shots: Vec<u64>,
    /// The size of each correlation so far.
    sizes: Vec<(u64, u64)>,
    sizes_agree: bool,
}

impl Maker<'_> {
    fn instruction(&mut self) -> Instruction {
        loop {
            if let Some(instruction) = self.instruction_if_possible() {
                return instruction;
            }
        }
    }

    /// A line of a random kind, unless this header or place has none of it.
    fn instruction_if_possible(&mut self) -> Option<Instruction> {
        let of_second = 2 * (self.header.edition() - 1);
        Some(match self.random.below(18 + self.shape.noise + self.shape.tables + of_second) {
            0..3 | 16 | 17 => self.unitary()?,
            3..5 => self.clifford(1),
            5 => Instruction::Pauli(self.pauli()),
            6 => Instruction::Exponential(self.pauli()),
            7 => self.controlled(),
            8 => self.permute(),
            9..11 => Instruction::Measure { observable: self.pauli(), id: self.next_id()? },
            11 => Instruction::Allocate { id: self.next_id()?, angle: self.random.one_in(2) },
            12 => Instruction::Conditional { pauli: self.pauli(), ids: self.ids(), parity: self.random.one_in(2) },
            13 => self.reset(),
            14 => Instruction::Inject { shot: self.shot(), pauli: self.pauli() },
            15 if self.recorded > 0 => Instruction::Flip { shot: self.shot(), id: self.random.below(self.recorded) },
            kind if (18..18 + self.shape.noise).contains(&kind) => Instruction::Noise(Box::new(self.noise())),
            kind if (18..18 + self.shape.noise + self.shape.tables).contains(&kind) => self.clifford(5),
            18.. => Instruction::Barrier { qubits: self.operands(MAX_LIST) },
            _ => return None,
        })
    }

    fn next_id(&mut self) -> Option<u64> {
        let id = self.recorded;
        (id < self.header.outcomes).then(|| {
            self.recorded += 1;
            id
        })
    }

    /// Some outcomes recorded so far, often none.
    fn ids(&mut self) -> List {
        let count = self.count();
        self.random.subset(self.recorded, count).into_iter().collect()
    }

    /// How many entries a list gets: few, but now and then as many as it may hold.
    fn count(&mut self) -> usize {
        match self.random.below(40) {
            0 => MAX_LIST,
            1 => self.random.index(MAX_LIST + 1),
            _ => self.random.index(4),
        }
    }

    fn pauli(&mut self) -> Pauli {
        if self.random.one_in(12) {
            return Pauli::default();
        }
        let (x, z) = (self.count(), self.count());
        Pauli { x: self.rising_qubits(x), z: self.rising_qubits(z) }
    }

    /// At least one qubit, in any order.
    fn operands(&mut self, most: usize) -> List {
        let count = self.count().clamp(1, most);
        self.qubits(count)
    }

    /// The qubits of depolarizing noise.
    fn spread(&mut self) -> List {
        match self.shape.spread {
            Some(most) => {
                let count = 1 + self.random.index(most);
                self.qubits(count)
            }
            None => self.operands(MAX_LIST),
        }
    }

    /// Qubits to permute: from three on, there and back can differ.
    fn places(&mut self) -> List {
        if self.random.one_in(3) {
            return self.operands(MAX_LIST);
        }
        let count = self.random.pick(&[3, 3, 4, 5, 6]);
        self.qubits(count)
    }

    /// So many different qubits in any order, where the header has as many.
    fn qubits(&mut self, count: usize) -> List {
        if count > self.busy_qubits.len() || self.random.one_in(4) {
            return self.random.distinct(self.header.qubits, count).into_iter().collect();
        }
        let places = self.random.distinct(self.busy_qubits.len() as u64, count);
        places.into_iter().map(|place| self.busy_qubits[usize_of(place)]).collect()
    }

    fn rising_qubits(&mut self, count: usize) -> List {
        let mut qubits = self.qubits(count);
        qubits.sort_unstable();
        qubits
    }

    fn shot(&mut self) -> u64 {
        if self.random.one_in(4) { self.random.below(self.header.shots) } else { self.random.pick(&self.busy_shots) }
    }

    fn unitary(&mut self) -> Option<Instruction> {
        let last = max_gate(self.header.edition());
        let gate = if self.random.one_in(3) { self.random.between(11, last) } else { self.random.below(last + 1) };
        let count = if gate <= 10 { 1 } else { 2 };
        let qubits = self.qubits(count);
        (qubits.len() == count).then_some(Instruction::Unitary { gate, qubits })
    }

    /// One qubit, and in the second edition several.
    fn reset(&mut self) -> Instruction {
        let qubits = if self.header.edition() == 1 { self.qubits(1) } else { self.operands(MAX_LIST) };
        Instruction::Reset { qubits }
    }

    /// A Clifford on so many qubits at least.
    fn clifford(&mut self, least: usize) -> Instruction {
        let count = least + self.random.index(MAX_CLIFFORD_QUBITS + 1 - least);
        let qubits = self.block(count);
        let gates = self.random.index(12 * qubits.len());
        let table = clifford_table(self.random, qubits.len(), gates);
        Instruction::Clifford { qubits, table }
    }

    /// So many different qubits in any order, the busy ones among them, so that a wide line acts on what others have left.
    fn block(&mut self, count: usize) -> List {
        if count <= self.busy_qubits.len() {
            return self.qubits(count);
        }
        let mut qubits = self.busy_qubits.clone();
        let others = self.random.distinct(self.header.qubits, count);
        qubits.extend(others.into_iter().filter(|qubit| !self.busy_qubits.contains(qubit)));
        qubits.truncate(count);
        let order = self.random.distinct(qubits.len() as u64, qubits.len());
        order.into_iter().map(|place| qubits[usize_of(place)]).collect()
    }

    /// Control and target that commute; they often meet at several qubits.
    fn controlled(&mut self) -> Instruction {
        let control = self.pauli();
        let mut target = self.pauli();
        if self.random.one_in(3) {
            // The other letter on the control's qubits.
            target = Pauli { x: control.z.clone(), z: control.x.clone() };
        }
        if control.anticommutes(&target) {
            part_toggled(&control, &mut target);
        }
        Instruction::Controlled { control, target: Box::new(target) }
    }

    fn permute(&mut self) -> Instruction {
        let qubits = self.places();
        let places = self.random.distinct(qubits.len() as u64, qubits.len());
        Instruction::Permute { places: places.into_iter().collect(), qubits }
    }

    // ---- noise

    fn noise(&mut self) -> Noise {
        let correlation = self.random.one_in(3).then(|| self.correlation());
        let size = correlation.and_then(|id| self.size(id));
        let condition = if self.random.one_in(2) { List::new() } else { self.ids() };
        let p = probability(self.random, self.shape.draws);
        let parity = !condition.is_empty() && self.random.one_in(2);
        let distribution = self.distribution(size);
        let size = distribution.size();
        Noise { p, correlation, condition, parity, distribution, size }
    }

    fn correlation(&mut self) -> u64 {
        if self.shape.near_correlations {
            return self.random.below(4);
        }
        match self.random.below(8) {
            0 => self.random.word(),
            _ => self.random.pick(&[0, 1, 2, 3, 7, 1 << 63, u64::MAX - 1, u64::MAX]),
        }
    }

    /// The size that a correlation has had, or a new one; none where sizes needn't agree.
    fn size(&mut self, correlation: u64) -> Option<u64> {
        if !self.sizes_agree {
            return None;
        }
        let known = self.sizes.iter().find(|(id, _)| *id == correlation);
        let size = match known {
            Some((_, size)) => *size,
            None => {
                let size = match self.random.below(3) {
                    0 => 1,
                    1 => 3,
                    _ => self.random.between(1, 8),
                };
                self.sizes.push((correlation, size));
                size
            }
        };
        Some(size)
    }

    fn distribution(&mut self, size: Option<u64>) -> Distribution {
        let kind = self.random.below(4);
        match (kind, size) {
            (0, None | Some(1)) => Distribution::Single(self.pauli()),
            (1, Some(3)) => Distribution::Depolarizing(self.operands(1)),
            (1, None) => Distribution::Depolarizing(self.spread()),
            (0 | 2, _) => {
                let count = self.elements(size);
                Distribution::Uniform((0..count).map(|_| self.pauli()).collect())
            }
            _ => {
                let count = self.elements(size);
                let weights = weights(self.random, count);
                Distribution::Weighted(weights.into_iter().map(|weight| (weight, self.pauli())).collect())
            }
        }
    }

    fn elements(&mut self, size: Option<u64>) -> usize {
        let few = self.random.between(1, 6);
        let many = self.random.pick(&[63, 64]);
        let free = if self.random.one_in(15) { many } else { few };
        usize_of(size.unwrap_or(free))
    }
}

/// A part of the target changed at one of the control's qubits, so that the two meet once more or once less.
fn part_toggled(control: &Pauli, target: &mut Pauli) {
    let (qubit, list) = match control.x.first() {
        Some(&qubit) => (qubit, &mut target.z),
        None => (control.z[0], &mut target.x),
    };
    match list.binary_search(&qubit) {
        Ok(place) => _ = list.remove(place),
        Err(place) if list.len() < MAX_LIST => list.insert(place, qubit),
        Err(_) => *target = Pauli::default(),
    }
}

/// A probability's bits; without draws, one at or below zero.
fn probability(random: &mut Random, draws: bool) -> u64 {
    let never = [0.0, -0.0, -1.0, f64::NEG_INFINITY, -f64::MIN_POSITIVE];
    let often = [1.0, 0.5, 0.25, 0.75, 0.9, 1.0 - f64::EPSILON / 2.0, 0.001, f64::EPSILON / 2.0];
    let rare = [f64::MIN_POSITIVE, f64::from_bits(1), f64::EPSILON / 4.0];
    let p = match random.below(8) {
        0 => random.pick(&never),
        _ if !draws => random.pick(&never),
        1 => random.pick(&rare),
        2..6 => random.pick(&often),
        _ => random.unit(),
    };
    p.to_bits()
}

/// Weights' bits whose total passes.
fn weights(random: &mut Random, count: usize) -> Vec<u64> {
    let special = [0.0, -0.0, 1.0, 2.0, 9.0, f64::from_bits(1), f64::MIN_POSITIVE, f64::MAX / 64.0];
    let mut weights: Vec<f64> = Vec::new();
    for _ in 0..count {
        weights.push(if random.one_in(3) { random.pick(&special) } else { random.unit() });
    }
    // Zeros at the front or the end, where no earlier or later place can be drawn for them.
    let zeros = random.index(count);
    match random.below(6) {
        0 => weights[..zeros].fill(random.pick(&[0.0, -0.0])),
        1 => weights[count - zeros..].fill(random.pick(&[0.0, -0.0])),
        _ => {}
    }
    if weights.iter().sum::<f64>() == 0.0 {
        weights[random.index(count)] = 0.5;
    }
    weights.into_iter().map(f64::to_bits).collect()
}

/// A random Clifford's table: the identity's, changed by so many random gates on its columns, each of which keeps commutation.
pub(crate) fn clifford_table(random: &mut Random, qubits: usize, gates: usize) -> List {
    let mut rows: Vec<u64> = (0..2 * qubits).map(|row| 1 << row).collect();
    for _ in 0..gates {
        let (one, other) = (random.index(qubits), random.index(qubits));
        let kind = random.below(3);
        for row in &mut rows {
            let has = |column: usize| *row >> column & 1;
            *row ^= match kind {
                0 => (has(one) ^ has(qubits + one)) * (1 << one | 1 << (qubits + one)),
                1 => has(one) << (qubits + one),
                _ if one != other => has(one) << other | has(qubits + other) << (qubits + one),
                _ => 0,
            };
        }
    }
    table_of_rows(&rows)
}

#[cfg(test)]
mod tests {
    use super::{ANY, SMALL, job};
    use crate::random::Random;
    use checker::read::read;

    #[test]
    fn the_checks_accept_every_job_and_read_what_was_written() {
        let mut random = Random::new(1);
        for count in 0..2000 {
            let shape = if count % 2 == 0 { ANY } else { SMALL };
            let made = job(&mut random, &shape);
            let bytes = made.bytes();
            let read =
                read(&bytes).unwrap_or_else(|refusal| panic!("{refusal:?}\n{}", String::from_utf8_lossy(&bytes)));
            assert_eq!(read.header, made.header);
            let instructions: Vec<_> = read.lines.into_iter().map(|line| line.instruction).collect();
            assert_eq!(instructions, made.instructions);
        }
    }
}
