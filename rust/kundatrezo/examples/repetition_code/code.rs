//! The repetition code's memory experiment: data qubits, whose neighbours' parities are measured by ancillas in each round, and which are measured at
//! the end, under depolarizing noise of probability p.

use std::fmt::Write;

/// Which faults the code corrects. The two codes are the same circuit in the bases of Z and X, and depolarizing noise treats both alike, so that they
/// have the same rates, by the two halves of the gate's rule.
#[derive(Debug, Clone, Copy, PartialEq, Eq)]
pub enum Basis {
    /// Flips of bits: data qubits control, and carry X to the ancillas.
    Bit,
    /// Flips of phases: ancillas control, and take Z from the data qubits.
    Phase,
}

/// A step of the circuit, in the words of the bits that the basis measures.
#[derive(Debug, Clone, PartialEq, Eq)]
pub enum Step {
    /// Depolarizing noise over qubits.
    Noise(Vec<usize>),
    /// A data qubit's bit is added to an ancilla's, by ControlledX.
    Copy {
        data: usize,
        ancilla: usize,
    },
    Measure(usize),
    Reset(usize),
}

/// A code of some distance, and how often its parities are measured.
#[derive(Debug, Clone, Copy, PartialEq, Eq)]
pub struct Code {
    pub distance: usize,
    pub rounds: usize,
}

impl Code {
    pub fn qubits(self) -> usize {
        2 * self.distance - 1
    }

    /// The parities of all rounds, then the data qubits.
    pub fn outcomes(self) -> usize {
        self.rounds * (self.distance - 1) + self.distance
    }

    /// The outcomes that a flip of all data qubits changes, which no parity shows: the logical operator.
    pub fn logical(self) -> usize {
        let parities = self.rounds * (self.distance - 1);
        ((1 << self.distance) - 1) << parities
    }

    /// Noise on each data qubit as a round begins, over the qubits of each gate after it, and on each qubit before it is measured.
    pub fn steps(self) -> Vec<Step> {
        let data = 0..self.distance;
        let ancilla = |place: usize| self.distance + place;
        let mut steps = Vec::new();
        for _ in 0..self.rounds {
            steps.extend(data.clone().map(|qubit| Step::Noise(vec![qubit])));
            for place in 0..self.distance - 1 {
                for data in [place, place + 1] {
                    let ancilla = ancilla(place);
                    steps.extend([Step::Copy { data, ancilla }, Step::Noise(vec![data, ancilla])]);
                }
            }
            for qubit in (0..self.distance - 1).map(ancilla) {
                steps.extend([Step::Noise(vec![qubit]), Step::Measure(qubit), Step::Reset(qubit)]);
            }
        }
        steps.extend(data.flat_map(|qubit| [Step::Noise(vec![qubit]), Step::Measure(qubit)]));
        steps
    }

    /// The job of these steps.
    pub fn job(self, basis: Basis, p: f64, shots: usize) -> String {
        let mut job = format!("op=job qubits={} outcomes={} shots={shots}\n", self.qubits(), self.outcomes());
        let mut id = 0;
        for step in self.steps() {
            match (step, basis) {
                (Step::Noise(qubits), _) => {
                    let (bits, size) = (p.to_bits(), (1 << (2 * qubits.len())) - 1);
                    let qubits = qubits.iter().map(usize::to_string).collect::<Vec<_>>().join(",");
                    writeln!(job, "op=n p={bits:016x} corr=- cond=- parity=0 d=2 q={qubits} size={size}")
                }
                (Step::Copy { data, ancilla }, Basis::Bit) => writeln!(job, "op=u g=11 q={data},{ancilla}"),
                (Step::Copy { data, ancilla }, Basis::Phase) => writeln!(job, "op=u g=11 q={ancilla},{data}"),
                (Step::Measure(qubit), _) => {
                    id += 1;
                    let (x, z) = if basis == Basis::Bit {
                        ("-".into(), qubit.to_string())
                    } else {
                        (qubit.to_string(), "-".into())
                    };
                    writeln!(job, "op=o x={x} z={z} id={}", id - 1)
                }
                (Step::Reset(qubit), _) => writeln!(job, "op=z q={qubit}"),
            }
            .expect("a string takes all");
        }
        job
    }
}

#[cfg(test)]
mod tests {
    use super::*;

    #[test]
    fn the_job_of_distance_2() {
        let code = Code { distance: 2, rounds: 1 };
        let noise = |list: &str| format!("op=n p=3fe0000000000000 corr=- cond=- parity=0 d=2 q={list}\n");
        let [n0, n1, n2, n02, n12] = ["0 size=3", "1 size=3", "2 size=3", "0,2 size=15", "1,2 size=15"].map(noise);
        let job = format!(
            "op=job qubits=3 outcomes=3 shots=7\n{n0}{n1}op=u g=11 q=0,2\n{n02}op=u g=11 q=1,2\n{n12}{n2}op=o x=- z=2 id=0\nop=z q=2\n\
             {n0}op=o x=- z=0 id=1\n{n1}op=o x=- z=1 id=2\n"
        );
        assert_eq!(code.job(Basis::Bit, 0.5, 7), job);
        assert_eq!(code.logical(), 0b110);
        let phase = job.replace("q=0,2\nop=n", "q=2,0\nop=n");
        assert_ne!(code.job(Basis::Phase, 0.5, 7), phase);
        assert!(
            code.job(Basis::Phase, 0.5, 7).contains("op=u g=11 q=2,0\n")
                && code.job(Basis::Phase, 0.5, 7).contains("op=o x=2 z=- id=0\n")
        );
        for basis in [Basis::Bit, Basis::Phase] {
            assert_eq!(kundatrezo::check(code.job(basis, 0.5, 7).as_bytes()), Ok(()));
        }
    }
}
