//! The gates, in one table.

use std::fmt;

/// Makes the gates and what is known of each from the rows of one table: code, name, operands, edition, other names.
macro_rules! gates {
    ($($code:literal $name:ident $operands:literal $edition:literal [$($alias:literal),*])*) => {
        /// A gate of `op=u` lines, by the name that pauliverse has for it. docs/JOBS.md of the repository says what each does to a frame.
        ///
        /// ```
        /// use kundatrezo::Gate;
        ///
        /// let gate = Gate::from_name("CNOT").expect("a gate");
        /// assert_eq!((gate, gate.code(), gate.operands()), (Gate::ControlledX, 11, 2));
        /// assert_eq!(Gate::from_code(4).map(Gate::name), Some("Hadamard"));
        /// ```
        #[derive(Debug, Clone, Copy, PartialEq, Eq, PartialOrd, Ord, Hash)]
        pub enum Gate {
            $(
                #[doc = concat!("Code ", $code, ".")]
                $name = $code,
            )*
        }

        impl Gate {
            /// Every gate, in the order of the codes, which begin with 0.
            pub const ALL: &'static [Self] = &[$(Self::$name),*];

            /// The name.
            #[must_use]
            pub const fn name(self) -> &'static str {
                match self {
                    $(Self::$name => stringify!($name),)*
                }
            }

            /// Other names in common use.
            #[must_use]
            pub const fn aliases(self) -> &'static [&'static str] {
                match self {
                    $(Self::$name => &[$($alias),*],)*
                }
            }

            /// The number of qubits that the gate takes. A control is the first of them.
            #[must_use]
            pub const fn operands(self) -> usize {
                match self {
                    $(Self::$name => $operands,)*
                }
            }

            /// The first edition of jobs that has the gate.
            #[must_use]
            pub const fn edition(self) -> u64 {
                match self {
                    $(Self::$name => $edition,)*
                }
            }
        }
    };
}

gates! {
    0 I 1 1 ["Id"]
    1 X 1 1 []
    2 Y 1 1 []
    3 Z 1 1 []
    4 Hadamard 1 1 ["H"]
    5 SqrtZ 1 1 ["S", "SQRT_Z"]
    6 SqrtZInv 1 1 ["Sdg", "SDag", "S_DAG", "SQRT_Z_DAG"]
    7 SqrtX 1 1 ["SX", "V", "SQRT_X"]
    8 SqrtXInv 1 1 ["SXdg", "Vdg", "SQRT_X_DAG"]
    9 SqrtY 1 1 ["SQRT_Y"]
    10 SqrtYInv 1 1 ["SQRT_Y_DAG"]
    11 ControlledX 2 1 ["CX", "CNOT"]
    12 ControlledZ 2 1 ["CZ"]
    13 Swap 2 1 []
    14 PrepareBell 2 1 ["Bell"]
    15 ControlledY 2 2 ["CY"]
}

impl Gate {
    /// The code, by which `op=u` lines name the gate.
    #[must_use]
    pub const fn code(self) -> u64 {
        self as u64
    }

    /// The gate of a code.
    #[must_use]
    pub fn from_code(code: u64) -> Option<Self> {
        Self::ALL.get(usize::try_from(code).ok()?).copied()
    }

    /// The gate of a name or an alias, in upper or lower case.
    #[must_use]
    pub fn from_name(name: &str) -> Option<Self> {
        let is_named = |gate: &Self| gate.names().any(|own| own.eq_ignore_ascii_case(name));
        Self::ALL.iter().copied().find(is_named)
    }

    /// The name and the aliases.
    pub fn names(self) -> impl Iterator<Item = &'static str> {
        [self.name()].into_iter().chain(self.aliases().iter().copied())
    }
}

impl fmt::Display for Gate {
    fn fmt(&self, f: &mut fmt::Formatter<'_>) -> fmt::Result {
        f.write_str(self.name())
    }
}

#[cfg(test)]
mod tests {
    use super::*;
    use std::collections::HashSet;

    #[test]
    fn codes_and_names_are_unique() {
        let mut seen = HashSet::new();
        for (code, gate) in (0..).zip(Gate::ALL.iter().copied()) {
            assert_eq!((gate.code(), Gate::from_code(code)), (code, Some(gate)));
            for name in gate.names() {
                assert!(seen.insert(name.to_ascii_lowercase()), "{name}");
                assert_eq!(Gate::from_name(&name.to_ascii_lowercase()), Some(gate));
            }
        }
        assert_eq!((Gate::from_code(Gate::ALL.len() as u64), Gate::from_code(u64::MAX)), (None, None));
        assert_eq!(Gate::from_name("T"), None);
    }
}
