//! From jobs to the published code, and back to words.

use crate::FramePropagator;
use crate::circuit::{Circuit, Instruction as Published};
use crate::noise::{PauliDistribution, PauliFault};
use crate::sampling::{GeometricSampler, set_shots};
use binar::{BitMatrix, Bitwise, IndexSet, Words, WordsMut};
use checker::calls::Draws;
use checker::job::{Distribution, Header, Instruction, Job, List, Noise, Pauli, Refusal, table_row, usize_of};
use paulimer::pauli::{Pauli as _, SparsePauli};
use paulimer::{CliffordUnitary, UnitaryOp};
use rand::rngs::SmallRng;
use rand::{LentWords, RngExt, SeedableRng, Spent};
use std::panic::{AssertUnwindSafe, catch_unwind, resume_unwind};

/// A job as the published code takes it.
pub struct Program {
    header: Header,
    recorded: usize,
    steps: Vec<(u64, Step)>,
}

/// A line: an instruction of a circuit, one of the three things that `FramePropagator` is told directly, or one of the second edition.
#[derive(Clone)]
enum Step {
    Instruction(Published),
    ControlledY { control: usize, target: usize },
    Reset(Vec<usize>),
    Barrier,
    Inject(usize, SparsePauli),
    Flip(usize, usize),
}

/// Noiseless bits as the published code looks at them: a row for each shot.
pub struct NoiselessOutcomes(BitMatrix);

/// Frames and deltas at the end of a run.
pub struct Executed {
    propagator: FramePropagator,
    header: Header,
    recorded: usize,
    /// How many words of the main list were read.
    pub words_read: usize,
}

impl Program {
    /// The job's lines, one by one.
    #[must_use]
    pub fn new(job: &Job<'_>) -> Self {
        let steps = job.lines.iter().map(|line| (line.number, step(&line.instruction)));
        Self { header: job.header, recorded: usize_of(job.recorded), steps: steps.collect() }
    }

    /// `execute` from a `new` frame, with resets, injections and flips at their own lines. The second list is lent by [`rand::lend_second`].
    ///
    /// # Errors
    ///
    /// 14 at the noise line whose draws are spent.
    pub fn execute(&self, base: u64, main: &[u64], noiseless: &NoiselessOutcomes) -> Result<Executed, Refusal> {
        let header = &self.header;
        let (qubits, shots) = (usize_of(header.qubits), usize_of(header.shots));
        set_shots(shots);
        // Rows past the outcomes are for reading the frames: see `Executed::frames`.
        let mut propagator = FramePropagator::new(qubits, usize_of(header.outcomes) + 2 * qubits, shots);
        let mut rng = LentWords::new(main);
        let mut at = 0;
        let run = || {
            for (line, step) in &self.steps {
                at = *line;
                let mut execute =
                    |instruction: &Published| propagator.execute(instruction, base, &noiseless.0, &mut rng);
                match step {
                    Step::Instruction(instruction) => execute(instruction),
                    Step::ControlledY { control, target } => controlled_y(*control, *target).iter().for_each(execute),
                    Step::Reset(qubits) => qubits.iter().for_each(|&qubit| propagator.reset_qubit(qubit)),
                    Step::Barrier => {}
                    Step::Inject(shot, pauli) => propagator.inject_pauli(*shot, pauli),
                    Step::Flip(shot, id) => propagator.inject_outcome_flip(*shot, *id),
                }
            }
        };
        until_spent(run).ok_or(Refusal::at(14, at))?;
        Ok(Executed { propagator, header: self.header, recorded: self.recorded, words_read: rng.read() })
    }

    /// The header's numbers.
    #[must_use]
    pub fn header(&self) -> Header {
        self.header
    }

    /// The program with the elements of its noise lines as its only injections, each in a shot of its own, in the order of the published `elements`; its own
    /// injections, flips and noise are left out. Beside it, the number of each noise line and how many elements it has.
    #[must_use]
    pub fn single_faults(&self) -> (Self, Vec<(u64, usize)>) {
        let (mut steps, mut sizes, mut shots) = (Vec::new(), Vec::new(), 0);
        for (line, step) in &self.steps {
            match step {
                Step::Instruction(Published::Noise { fault }) => {
                    let elements = fault.distribution.elements();
                    sizes.push((*line, elements.len()));
                    for (pauli, _) in elements {
                        steps.push((*line, Step::Inject(shots, pauli)));
                        shots += 1;
                    }
                }
                Step::Inject(..) | Step::Flip(..) => {}
                _ => steps.push((*line, step.clone())),
            }
        }
        (Self { header: Header { shots: shots as u64, ..self.header }, recorded: self.recorded, steps }, sizes)
    }

    /// The job's instructions as a circuit, which has no resets, barriers, injections and flips.
    pub fn circuit(&self) -> Circuit {
        self.first_instructions(self.steps.len())
    }

    fn first_instructions(&self, count: usize) -> Circuit {
        let mut circuit = Circuit::new();
        for (_, step) in &self.steps[..count] {
            step.in_circuit().into_iter().for_each(|instruction| circuit.push(instruction));
        }
        circuit
    }

    /// `validate_correlated_faults`. The published function names no line: it is the last of the shortest beginning that fails.
    ///
    /// # Errors
    ///
    /// 19 at the line.
    pub fn validate_correlated_faults(&self) -> Result<(), Refusal> {
        let fails = |count: usize| self.first_instructions(count).validate_correlated_faults().is_err();
        if !fails(self.steps.len()) {
            return Ok(());
        }
        let (mut passing, mut failing) = (0, self.steps.len());
        while passing + 1 < failing {
            let middle = usize::midpoint(passing, failing);
            if fails(middle) {
                failing = middle;
            } else {
                passing = middle;
            }
        }
        Err(Refusal::at(19, self.steps[failing - 1].0))
    }

    /// `with_depolarizing_noise` on each line: the qubits of the noise that it adds, and whether that comes before the line.
    pub fn annotations(&self, p: f64) -> impl Iterator<Item = Option<Annotation>> {
        self.steps.iter().map(move |(_, step)| annotation(&step.in_circuit()?, p))
    }

    /// The draws of each noise line, by the published condition and distribution.
    ///
    /// # Errors
    ///
    /// 14 at the noise line whose draws are spent.
    pub fn faults(&self, base: u64, main: &[u64], noiseless: &NoiselessOutcomes) -> Result<Vec<Vec<Fault>>, Refusal> {
        self.faults_from(base, &mut LentWords::new(main), noiseless)
    }

    /// How many words of the main list these draws read, also where they are spent.
    #[must_use]
    pub fn words_read(&self, base: u64, main: &[u64], noiseless: &NoiselessOutcomes) -> usize {
        let mut rng = LentWords::new(main);
        _ = self.faults_from(base, &mut rng, noiseless);
        rng.read()
    }

    fn faults_from(
        &self,
        base: u64,
        main: &mut LentWords<'_>,
        noiseless: &NoiselessOutcomes,
    ) -> Result<Vec<Vec<Fault>>, Refusal> {
        set_shots(usize_of(self.header.shots));
        let mut all = Vec::with_capacity(self.steps.len());
        for (line, step) in &self.steps {
            let drawn = until_spent(|| match step {
                Step::Instruction(Published::Noise { fault }) => draw(fault, base, noiseless, main),
                _ => Vec::new(),
            });
            all.push(drawn.ok_or(Refusal::at(14, *line))?);
        }
        Ok(all)
    }
}

impl Step {
    /// The instruction that annotation and locations see; ControlledY is one as ControlledX is.
    fn in_circuit(&self) -> Option<Published> {
        match self {
            Step::Instruction(instruction) => Some(instruction.clone()),
            Step::ControlledY { control, target } => Some(unitary(UnitaryOp::ControlledX, vec![*control, *target])),
            Step::Reset(_) | Step::Barrier | Step::Inject(..) | Step::Flip(..) => None,
        }
    }
}

/// A fault that fell: its shot and its Pauli.
pub type Fault = (u64, Pauli);

/// Noise that annotation adds to a line.
pub struct Annotation {
    /// Before the line, or after it.
    pub before: bool,
    /// Over these qubits.
    pub qubits: Vec<u64>,
}

/// Run until draws are spent: none then. Any other panic goes on.
fn until_spent<T>(run: impl FnOnce() -> T) -> Option<T> {
    match catch_unwind(AssertUnwindSafe(run)) {
        Ok(value) => Some(value),
        Err(payload) if payload.is::<Spent>() => None,
        Err(payload) => resume_unwind(payload),
    }
}

impl NoiselessOutcomes {
    /// From lent words, a row for each outcome. Only the outcomes of some condition are looked at, so only they are turned.
    #[must_use]
    pub fn new(job: &Job<'_>, words: &[u64]) -> Self {
        let (outcomes, shots) = (usize_of(job.header.outcomes), usize_of(job.header.shots));
        let mut looked_at = vec![false; outcomes];
        for line in &job.lines {
            if let Instruction::Noise(noise) = &line.instruction {
                noise.condition.iter().for_each(|&id| looked_at[usize_of(id)] = true);
            }
        }
        let mut bits = BitMatrix::with_shape(shots, outcomes);
        let rows = words.chunks_exact(job.header.row_words()).enumerate();
        for (outcome, row) in rows.take(outcomes).filter(|(outcome, _)| looked_at[*outcome]) {
            for shot in (0..shots).filter(|shot| row[shot / 64] >> (shot % 64) & 1 == 1) {
                bits.negate((shot, outcome));
            }
        }
        Self(bits)
    }
}

impl Executed {
    /// The deltas of an outcome, a bit for each shot.
    #[must_use]
    pub fn deltas(&self, outcome: usize) -> Vec<u64> {
        self.propagator.outcome_deltas().row(outcome).words().to_vec()
    }

    /// The X rows, then the Z rows, of the frames.
    ///
    /// The published fields are private. Measuring Z on a qubit tells its X row, and measuring X its Z row; what is measured goes to rows past
    /// the job's outcomes.
    #[must_use]
    pub fn frames(mut self) -> (Vec<u64>, Vec<u64>) {
        for _ in self.recorded..usize_of(self.header.outcomes) {
            self.propagator.skip_outcome();
        }
        let (mut x_rows, mut z_rows) = (Vec::new(), Vec::new());
        for qubit in 0..usize_of(self.header.qubits) {
            let of_x = self.propagator.measure(&sparse(&[], &[qubit as u64]));
            let of_z = self.propagator.measure(&sparse(&[qubit as u64], &[]));
            x_rows.extend(self.deltas(of_x));
            z_rows.extend(self.deltas(of_z));
        }
        (x_rows, z_rows)
    }
}

/// Lend what a run of the published code reads besides the main list, and give the noiseless bits in its form.
#[must_use]
pub fn lend(job: &Job<'_>, draws: &Draws<'_>, noiseless: &[u64]) -> NoiselessOutcomes {
    rand::lend_second(draws.second);
    NoiselessOutcomes::new(job, noiseless)
}

/// Rows of bits with rows and columns exchanged, by `transposed`, as `sample_with_rng` turns deltas.
#[must_use]
pub fn transposed(words: &[u64], rows: usize, columns: usize) -> Vec<u64> {
    let mut matrix = BitMatrix::with_shape(rows, columns);
    let stride = columns.div_ceil(64);
    for row in 0..rows {
        matrix.row_mut(row).words_mut().copy_from_slice(&words[row * stride..][..stride]);
    }
    let turned = matrix.transposed();
    (0..columns).flat_map(|row| turned.row(row).words().to_vec()).collect()
}

fn annotation(instruction: &Published, p: f64) -> Option<Annotation> {
    let mut alone = Circuit::new();
    alone.push(instruction.clone());
    let noisy = alone.with_depolarizing_noise(p);
    if noisy.len() == 1 {
        return None;
    }
    let before = instruction.noise_before();
    let noise = if before { noisy.iter().next() } else { noisy.iter_rev().next() };
    let Some(Published::Noise { fault }) = noise else { panic!("the instruction and its noise") };
    let PauliDistribution::DepolarizingOnQubits(qubits) = &fault.distribution else {
        panic!("depolarizing noise");
    };
    assert!(fault.probability.to_bits() == p.to_bits() && fault.correlation_id.is_none() && fault.condition.is_none());
    Some(Annotation { before, qubits: qubits.iter().map(|&qubit| qubit as u64).collect() })
}

/// What `inject_noise` draws, with the faults kept instead of injected.
fn draw(fault: &PauliFault, base: u64, noiseless: &NoiselessOutcomes, main: &mut LentWords<'_>) -> Vec<Fault> {
    if fault.probability <= 0.0 {
        return Vec::new();
    }
    match fault.correlation_id {
        Some(id) => draw_from(fault, noiseless, &mut SmallRng::seed_from_u64(base.wrapping_add(id))),
        None => draw_from(fault, noiseless, main),
    }
}

fn draw_from(fault: &PauliFault, noiseless: &NoiselessOutcomes, rng: &mut impl RngExt) -> Vec<Fault> {
    let mut sampler = GeometricSampler::new(fault.probability);
    let mut drawn = Vec::new();
    let mut shot: usize = 0;
    loop {
        shot = shot.saturating_add(sampler.next_skip(rng));
        if shot == usize::MAX {
            return drawn;
        }
        let active = |condition: &crate::OutcomeCondition| condition.is_satisfied(&noiseless.0, shot);
        if fault.condition.as_ref().is_none_or(active) {
            drawn.push((shot as u64, written(&fault.distribution.sample(rng))));
        }
        shot += 1;
    }
}

// ---- from lines to instructions

fn step(instruction: &Instruction) -> Step {
    Step::Instruction(match instruction {
        Instruction::Unitary { gate: 15, qubits } => {
            return Step::ControlledY { control: usize_of(qubits[0]), target: usize_of(qubits[1]) };
        }
        Instruction::Unitary { gate, qubits } => unitary(opcode(*gate), indices(qubits)),
        Instruction::Clifford { qubits, table } => {
            Published::Clifford { clifford: clifford(table, qubits.len()), qubits: indices(qubits) }
        }
        Instruction::Pauli(pauli) => Published::Pauli { pauli: of(pauli) },
        Instruction::Exponential(pauli) => Published::PauliExp { pauli: of(pauli) },
        Instruction::Controlled { control, target } => {
            Published::ControlledPauli { control: of(control), target: of(target) }
        }
        Instruction::Permute { places, qubits } => {
            Published::Permute { permutation: indices(places), qubits: indices(qubits) }
        }
        Instruction::Measure { observable, id } => {
            Published::Measure { observable: of(observable), outcome_id: usize_of(*id) }
        }
        Instruction::Allocate { id, angle } => {
            Published::AllocateRandomBit { outcome_id: usize_of(*id), symbolic_angle: *angle }
        }
        Instruction::Conditional { pauli, ids, parity } => {
            Published::ConditionalPauli { pauli: of(pauli), outcomes: indices(ids), parity: *parity }
        }
        Instruction::Noise(noise) => Published::noise(fault(noise)),
        Instruction::Reset { qubits } => return Step::Reset(indices(qubits)),
        Instruction::Barrier { .. } => return Step::Barrier,
        Instruction::Inject { shot, pauli } => return Step::Inject(usize_of(*shot), of(pauli)),
        Instruction::Flip { shot, id } => return Step::Flip(usize_of(*shot), usize_of(*id)),
    })
}

/// ControlledY, which the published code does not have, as it is run: SqrtZInv on the target, ControlledX, SqrtZ.
fn controlled_y(control: usize, target: usize) -> [Published; 3] {
    [
        unitary(UnitaryOp::SqrtZInv, vec![target]),
        unitary(UnitaryOp::ControlledX, vec![control, target]),
        unitary(UnitaryOp::SqrtZ, vec![target]),
    ]
}

fn unitary(opcode: UnitaryOp, qubits: Vec<usize>) -> Published {
    Published::Unitary { opcode, qubits }
}

/// A weighted distribution: the published one, where all weights are positive. Elsewhere an element of weight zero is never drawn (note 2): the sums
/// of the leading ones lie below every u, and that of the last positive one is 1.
fn weighted(elements: &[(u64, Pauli)]) -> PauliDistribution {
    let pairs = elements.iter().map(|(weight, pauli)| (of(pauli), f64::from_bits(*weight)));
    let mut distribution = PauliDistribution::weighted(pairs.collect());
    if let PauliDistribution::Weighted { cdf, .. } = &mut distribution {
        let is_positive = |(weight, _): &(u64, Pauli)| f64::from_bits(*weight) > 0.0;
        let first = elements.iter().position(is_positive).expect("a total above zero");
        let last = elements.iter().rposition(is_positive).expect("a total above zero");
        cdf[..first].fill(-1.0);
        cdf[last..].fill(1.0);
    }
    distribution
}

/// The published fault, which says nothing of its distribution's size.
fn fault(noise: &Noise) -> PauliFault {
    let distribution = match &noise.distribution {
        Distribution::Single(pauli) => PauliDistribution::single(of(pauli)),
        Distribution::Depolarizing(qubits) => PauliDistribution::depolarizing(&indices(qubits)),
        Distribution::Uniform(paulis) => PauliDistribution::uniform(paulis.iter().map(of).collect()),
        Distribution::Weighted(elements) => weighted(elements),
    };
    let fault = PauliFault {
        probability: noise.probability(),
        distribution,
        correlation_id: noise.correlation,
        condition: None,
    };
    if noise.condition.is_empty() { fault } else { fault.with_condition(&indices(&noise.condition), noise.parity) }
}

fn opcode(gate: u64) -> UnitaryOp {
    use UnitaryOp::{
        ControlledX, ControlledZ, Hadamard, I, PrepareBell, SqrtX, SqrtXInv, SqrtY, SqrtYInv, SqrtZ, SqrtZInv, Swap, X,
        Y, Z,
    };
    const BY_CODE: [UnitaryOp; 15] = [
        I,
        X,
        Y,
        Z,
        Hadamard,
        SqrtZ,
        SqrtZInv,
        SqrtX,
        SqrtXInv,
        SqrtY,
        SqrtYInv,
        ControlledX,
        ControlledZ,
        Swap,
        PrepareBell,
    ];
    BY_CODE[usize_of(gate)]
}

fn clifford(table: &[u64], qubits: usize) -> CliffordUnitary {
    let row = |row| u32::try_from(table_row(table, qubits, row)).expect("a row has 16 bits at most");
    CliffordUnitary::from_rows(qubits, (0..2 * qubits).map(row))
}

fn indices(list: &[u64]) -> Vec<usize> {
    list.iter().map(|&entry| usize_of(entry)).collect()
}

fn sparse(x: &[u64], z: &[u64]) -> SparsePauli {
    let set = |list: &[u64]| indices(list).into_iter().collect::<IndexSet>();
    SparsePauli::from_bits(set(x), set(z), 0)
}

fn of(pauli: &Pauli) -> SparsePauli {
    sparse(&pauli.x, &pauli.z)
}

fn written(pauli: &SparsePauli) -> Pauli {
    let list = |bits: &IndexSet| bits.support().map(|qubit| qubit as u64).collect::<List>();
    Pauli { x: list(pauli.x_bits()), z: list(pauli.z_bits()) }
}
