//! The form of a line: test 2, for a line by itself.

use crate::job::{Distribution, Header, Instruction, List, MAX_CLIFFORD_QUBITS, Noise, Pauli, max_gate, table_words};

/// What a line says that is no element line. A noise line of d=3 or d=4 has its n, and an empty list for the elements that follow.
pub(crate) enum Written {
    Header(Header),
    Instruction(Instruction),
    Noise(Box<Noise>, Option<u64>),
}

/// What a line says by its form in a job of an edition, or nothing.
pub(crate) fn written(line: &[u8], edition: u64) -> Option<Written> {
    let (mark, rest) = line.split_at_checked(4)?;
    let fields = Fields(rest);
    match mark {
        b"op=j" => fields.header().map(Written::Header),
        b"op=n" => fields.noise().map(|(noise, elements)| Written::Noise(noise, elements)),
        _ => fields.instruction(mark, edition).map(Written::Instruction),
    }
}

/// An element line of d=3.
pub(crate) fn element(line: &[u8]) -> Option<Pauli> {
    let mut fields = Fields(line);
    let pauli = fields.pauli(b"x=", b" z=")?;
    fields.end(pauli)
}

/// An element line of d=4.
pub(crate) fn weighted_element(line: &[u8]) -> Option<(u64, Pauli)> {
    let mut fields = Fields(line);
    let weight = fields.word(b"w=")?;
    let pauli = fields.pauli(b" x=", b" z=")?;
    fields.end((weight, pauli))
}

/// What is left of a line.
struct Fields<'a>(&'a [u8]);

impl Fields<'_> {
    // ---- whole lines, after their first four bytes

    fn header(mut self) -> Option<Header> {
        self.literal(b"ob")?;
        let edition = if self.0.starts_with(b" edition=") { Some(self.number(b" edition=")?) } else { None };
        let qubits = self.number(b" qubits=")?;
        let outcomes = self.number(b" outcomes=")?;
        let shots = self.number(b" shots=")?;
        self.end(Header { edition, qubits, outcomes, shots })
    }

    /// Code 15, a barrier and a reset of several qubits are forms of the second edition.
    fn instruction(mut self, mark: &[u8], edition: u64) -> Option<Instruction> {
        let instruction = match mark {
            b"op=u" => Instruction::Unitary {
                gate: self.number(b" g=").filter(|&gate| gate <= max_gate(edition))?,
                qubits: self.list(b" q=")?,
            },
            b"op=c" => self.clifford()?,
            b"op=p" => Instruction::Pauli(self.pauli(b" x=", b" z=")?),
            b"op=e" => Instruction::Exponential(self.pauli(b" x=", b" z=")?),
            b"op=k" => Instruction::Controlled {
                control: self.pauli(b" x=", b" z=")?,
                target: Box::new(self.pauli(b" u=", b" v=")?),
            },
            b"op=m" => Instruction::Permute { places: self.list(b" s=")?, qubits: self.list(b" q=")? },
            b"op=o" => Instruction::Measure { observable: self.pauli(b" x=", b" z=")?, id: self.number(b" id=")? },
            b"op=r" => Instruction::Allocate { id: self.number(b" id=")?, angle: self.bit(b" angle=")? },
            b"op=f" => Instruction::Conditional {
                pauli: self.pauli(b" x=", b" z=")?,
                ids: self.rising(b" id=")?,
                parity: self.bit(b" parity=")?,
            },
            b"op=z" => {
                Instruction::Reset { qubits: self.list(b" q=").filter(|qubits| edition == 2 || qubits.len() == 1)? }
            }
            b"op=b" if edition == 2 => Instruction::Barrier { qubits: self.list(b" q=")? },
            b"op=i" => Instruction::Inject { shot: self.number(b" shot=")?, pauli: self.pauli(b" x=", b" z=")? },
            b"op=t" => Instruction::Flip { shot: self.number(b" shot=")?, id: self.number(b" id=")? },
            _ => return None,
        };
        self.end(instruction)
    }

    /// A Clifford: as many words as its table needs. Where it has too many qubits, which is 5, their number is free.
    fn clifford(&mut self) -> Option<Instruction> {
        let qubits = self.list(b" q=")?;
        let table = self.words(b" t=")?;
        let fits = qubits.len() > MAX_CLIFFORD_QUBITS || table.len() == table_words(qubits.len());
        fits.then_some(Instruction::Clifford { qubits, table })
    }

    fn noise(mut self) -> Option<(Box<Noise>, Option<u64>)> {
        let p = self.word(b" p=")?;
        let correlation = self.number_or_none(b" corr=")?;
        let condition = self.rising(b" cond=")?;
        let parity = self.bit(b" parity=")?;
        if condition.is_empty() && parity {
            return None;
        }
        self.literal(b" d=")?;
        let (distribution, elements) = match self.byte()? {
            b'1' => (Distribution::Single(self.pauli(b" x=", b" z=")?), None),
            b'2' => (Distribution::Depolarizing(self.list(b" q=")?), None),
            b'3' => (Distribution::Uniform(Vec::new()), Some(self.number(b" n=")?)),
            b'4' => (Distribution::Weighted(Vec::new()), Some(self.number(b" n=")?)),
            _ => return None,
        };
        let size = self.number(b" size=")?;
        let noise = Noise { p, correlation, condition, parity, distribution, size };
        self.end((Box::new(noise), elements))
    }

    // ---- fields by the kind of their value

    fn literal(&mut self, key: &[u8]) -> Option<()> {
        self.0 = self.0.strip_prefix(key)?;
        Some(())
    }

    fn byte(&mut self) -> Option<u8> {
        let (&byte, rest) = self.0.split_first()?;
        self.0 = rest;
        Some(byte)
    }

    /// Take the byte if it is the next one.
    fn skip(&mut self, byte: u8) -> bool {
        let found = self.0.first() == Some(&byte);
        if found {
            self.0 = &self.0[1..];
        }
        found
    }

    fn number(&mut self, key: &[u8]) -> Option<u64> {
        self.literal(key)?;
        self.digits()
    }

    /// A number, or `-` for none.
    fn number_or_none(&mut self, key: &[u8]) -> Option<Option<u64>> {
        self.literal(key)?;
        if self.skip(b'-') { Some(None) } else { self.digits().map(Some) }
    }

    fn word(&mut self, key: &[u8]) -> Option<u64> {
        self.literal(key)?;
        self.hexadecimal()
    }

    /// 16 lower-case hexadecimal digits.
    fn hexadecimal(&mut self) -> Option<u64> {
        let (digits, rest) = self.0.split_at_checked(16)?;
        self.0 = rest;
        digits.iter().try_fold(0, |word, &digit| {
            let value = match digit {
                b'0'..=b'9' => digit - b'0',
                b'a'..=b'f' => digit - b'a' + 10,
                _ => return None,
            };
            Some(word << 4 | u64::from(value))
        })
    }

    fn bit(&mut self, key: &[u8]) -> Option<bool> {
        self.literal(key)?;
        match self.byte()? {
            b'0' => Some(false),
            b'1' => Some(true),
            _ => None,
        }
    }

    /// Q, and s: numbers in any order, never empty.
    fn list(&mut self, key: &[u8]) -> Option<List> {
        self.pieces(key, Self::digits)
    }

    /// A table's words, never none.
    fn words(&mut self, key: &[u8]) -> Option<List> {
        self.pieces(key, Self::hexadecimal)
    }

    /// A value that `read` reads, and more of them behind commas.
    fn pieces(&mut self, key: &[u8], read: fn(&mut Self) -> Option<u64>) -> Option<List> {
        self.literal(key)?;
        let mut list = List::new();
        list.push(read(self)?);
        while self.skip(b',') {
            list.push(read(self)?);
        }
        Some(list)
    }

    /// L: a strictly rising list, `-` when empty.
    fn rising(&mut self, key: &[u8]) -> Option<List> {
        if self.0.strip_prefix(key)?.first() == Some(&b'-') {
            self.0 = &self.0[key.len() + 1..];
            return Some(List::new());
        }
        self.list(key).filter(|list| list.is_sorted_by(|one, next| one < next))
    }

    fn pauli(&mut self, x: &[u8], z: &[u8]) -> Option<Pauli> {
        Some(Pauli { x: self.rising(x)?, z: self.rising(z)? })
    }

    /// A decimal number below 2^64 without leading zeros.
    fn digits(&mut self) -> Option<u64> {
        let first = self.byte().filter(u8::is_ascii_digit)?;
        let mut number = u64::from(first - b'0');
        while let Some(digit) = self.0.first().filter(|byte| byte.is_ascii_digit()) {
            if first == b'0' {
                return None;
            }
            number = number.checked_mul(10)?.checked_add(u64::from(digit - b'0'))?;
            self.0 = &self.0[1..];
        }
        Some(number)
    }

    /// What was read, if nothing is left of the line.
    fn end<T>(&self, value: T) -> Option<T> {
        self.0.is_empty().then_some(value)
    }
}
