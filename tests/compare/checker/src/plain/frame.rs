//! One shot's Pauli, and what lines do to it.

use crate::job::{Instruction, MAX_QUBITS, Pauli, table_row, usize_of};

/// A Pauli: whether each qubit has an X part, and a Z part.
#[derive(Clone, PartialEq, Eq)]
pub(super) struct Frame {
    pub x: [bool; MAX_QUBITS as usize],
    pub z: [bool; MAX_QUBITS as usize],
}

impl Default for Frame {
    fn default() -> Self {
        Self { x: [false; MAX_QUBITS as usize], z: [false; MAX_QUBITS as usize] }
    }
}

impl Frame {
    /// Multiply by a Pauli.
    pub fn add(&mut self, pauli: &Pauli) {
        for &qubit in &pauli.x {
            self.x[usize_of(qubit)] ^= true;
        }
        for &qubit in &pauli.z {
            self.z[usize_of(qubit)] ^= true;
        }
    }

    /// X parts of the one on Z parts of the other, plus the reverse, are odd in number.
    pub fn anticommutes(&self, pauli: &Pauli) -> bool {
        let on_x = pauli.x.iter().filter(|&&qubit| self.z[usize_of(qubit)]).count();
        let on_z = pauli.z.iter().filter(|&&qubit| self.x[usize_of(qubit)]).count();
        (on_x + on_z) % 2 == 1
    }

    /// Forget some qubits.
    pub fn clear(&mut self, qubits: &[u64]) {
        for &qubit in qubits {
            self.x[usize_of(qubit)] = false;
            self.z[usize_of(qubit)] = false;
        }
    }

    /// What a line does to the frame and the deltas of a shot; noise, which settling has replaced, does nothing.
    pub fn forward(&mut self, instruction: &Instruction, shot: u64, deltas: &mut [bool]) {
        match instruction {
            Instruction::Unitary { gate, qubits } => self.gate(*gate, qubits, Frame::prepare_bell),
            Instruction::Clifford { qubits, table } => self.clifford(table, qubits),
            Instruction::Exponential(pauli) => self.exponential(pauli),
            Instruction::Controlled { control, target } => self.controlled(control, target),
            Instruction::Permute { places, qubits } => self.permute(places, qubits),
            Instruction::Measure { observable, id } => deltas[usize_of(*id)] ^= self.anticommutes(observable),
            Instruction::Conditional { pauli, ids, .. } => {
                if ids.iter().fold(false, |sum, &id| sum ^ deltas[usize_of(id)]) {
                    self.add(pauli);
                }
            }
            Instruction::Reset { qubits } => self.clear(qubits),
            Instruction::Inject { shot: injected, pauli } if *injected == shot => self.add(pauli),
            Instruction::Flip { shot: flipped, id } if *flipped == shot => deltas[usize_of(*id)] ^= true,
            Instruction::Pauli(_)
            | Instruction::Barrier { .. }
            | Instruction::Allocate { .. }
            | Instruction::Inject { .. }
            | Instruction::Flip { .. }
            | Instruction::Noise(_) => {}
        }
    }

    // ---- gates

    /// A gate by its code; forward and back differ in PrepareBell alone.
    pub fn gate(&mut self, gate: u64, qubits: &[u64], prepare_bell: fn(&mut Frame, usize, usize)) {
        let first = usize_of(qubits[0]);
        let second = qubits.get(1).map(|&qubit| usize_of(qubit));
        match (gate, second) {
            (0..=3, _) => {}
            (4 | 9 | 10, _) => self.hadamard(first),
            (5 | 6, _) => self.z[first] ^= self.x[first],
            (7 | 8, _) => self.x[first] ^= self.z[first],
            (11, Some(target)) => self.controlled_x(first, target),
            (12, Some(second)) => {
                self.z[second] ^= self.x[first];
                self.z[first] ^= self.x[second];
            }
            (13, Some(second)) => {
                self.x.swap(first, second);
                self.z.swap(first, second);
            }
            (14, Some(second)) => prepare_bell(self, first, second),
            (15, Some(target)) => self.controlled_y(first, target),
            _ => unreachable!("a checked gate"),
        }
    }

    fn hadamard(&mut self, qubit: usize) {
        std::mem::swap(&mut self.x[qubit], &mut self.z[qubit]);
    }

    fn controlled_x(&mut self, control: usize, target: usize) {
        self.x[target] ^= self.x[control];
        self.z[control] ^= self.z[target];
    }

    /// The target's old parts are both added to the control's Z part.
    fn controlled_y(&mut self, control: usize, target: usize) {
        let (x, z) = (self.x[target], self.z[target]);
        self.x[target] ^= self.x[control];
        self.z[target] ^= self.x[control];
        self.z[control] ^= x ^ z;
    }

    fn prepare_bell(&mut self, first: usize, second: usize) {
        self.hadamard(first);
        self.controlled_x(first, second);
    }

    /// PrepareBell with its halves reversed.
    pub fn prepare_bell_back(&mut self, first: usize, second: usize) {
        self.controlled_x(first, second);
        self.hadamard(first);
    }

    pub fn exponential(&mut self, pauli: &Pauli) {
        if self.anticommutes(pauli) {
            self.add(pauli);
        }
    }

    pub fn controlled(&mut self, control: &Pauli, target: &Pauli) {
        let (with_control, with_target) = (self.anticommutes(control), self.anticommutes(target));
        if with_control {
            self.add(target);
        }
        if with_target {
            self.add(control);
        }
    }

    /// The sum of the images of the frame's parts.
    fn clifford(&mut self, table: &[u64], qubits: &[u64]) {
        let count = qubits.len();
        let has = |frame: &Frame, generator: usize| {
            let qubit = usize_of(qubits[generator % count]);
            if generator < count { frame.x[qubit] } else { frame.z[qubit] }
        };
        let images = (0..2 * count).filter(|&generator| has(self, generator));
        let sum = images.fold(0, |sum, generator| sum ^ table_row(table, count, generator));
        for (place, &qubit) in qubits.iter().enumerate() {
            self.x[usize_of(qubit)] = sum >> place & 1 == 1;
            self.z[usize_of(qubit)] = sum >> (count + place) & 1 == 1;
        }
    }

    /// Back through a Clifford: a new X part where the frame anticommutes with Z's image, a new Z part where with X's.
    pub fn clifford_back(&mut self, table: &[u64], qubits: &[u64]) {
        let count = qubits.len();
        let with_image = |generator: usize| {
            let image = table_row(table, count, generator);
            let meets = |place: usize| {
                let qubit = usize_of(qubits[place]);
                let image_has = |column: usize| image >> column & 1 == 1;
                (image_has(place) && self.z[qubit]) ^ (image_has(count + place) && self.x[qubit])
            };
            (0..count).fold(false, |sum, place| sum ^ meets(place))
        };
        let parts: Vec<_> = (0..count).map(|place| (with_image(count + place), with_image(place))).collect();
        for (&qubit, (x, z)) in qubits.iter().zip(parts) {
            self.x[usize_of(qubit)] = x;
            self.z[usize_of(qubit)] = z;
        }
    }

    /// Old content of place i goes to place s_i.
    fn permute(&mut self, places: &[u64], qubits: &[u64]) {
        self.move_places(qubits, |place| (place, usize_of(places[place])));
    }

    /// Back through a permutation: place i gets what is at place s_i.
    pub fn permute_back(&mut self, places: &[u64], qubits: &[u64]) {
        self.move_places(qubits, |place| (usize_of(places[place]), place));
    }

    fn move_places(&mut self, qubits: &[u64], from_to: impl Fn(usize) -> (usize, usize)) {
        let old = self.clone();
        for place in 0..qubits.len() {
            let (from, to) = from_to(place);
            let (from, to) = (usize_of(qubits[from]), usize_of(qubits[to]));
            self.x[to] = old.x[from];
            self.z[to] = old.z[from];
        }
    }
}
