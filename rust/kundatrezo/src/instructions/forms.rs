//! The forms of lines, in one table.

/// Makes the forms from the rows of one table: name and template.
macro_rules! forms {
    ($($name:ident $template:literal)*) => {
        /// The form of a line.
        ///
        /// A capital letter of the template stands for a value: N for a number, H for 16 hexadecimal digits, B for a bit, L for a strictly rising
        /// list, Q for a list in any order, T for one or more H, C for a number or `-`. docs/JOBS.md of the repository explains them.
        ///
        /// ```
        /// use kundatrezo::Form;
        ///
        /// assert_eq!(Form::Unitary.template(), "op=u g=N q=Q");
        /// assert_eq!(Form::Unitary.op(), Some("u"));
        /// assert_eq!(Form::Unitary.fields().collect::<Vec<_>>(), [("g", "N"), ("q", "Q")]);
        /// ```
        #[derive(Debug, Clone, Copy, PartialEq, Eq, PartialOrd, Ord, Hash)]
        pub enum Form {
            $(
                #[doc = concat!("`", $template, "`")]
                $name,
            )*
        }

        impl Form {
            /// Every form.
            pub const ALL: &'static [Self] = &[$(Self::$name),*];

            /// The template.
            #[must_use]
            pub const fn template(self) -> &'static str {
                match self {
                    $(Self::$name => $template,)*
                }
            }
        }
    };
}

forms! {
    Header "op=job qubits=N outcomes=N shots=N"
    HeaderWithEdition "op=job edition=N qubits=N outcomes=N shots=N"
    Unitary "op=u g=N q=Q"
    Clifford "op=c q=Q t=T"
    Pauli "op=p x=L z=L"
    PauliExp "op=e x=L z=L"
    ControlledPauli "op=k x=L z=L u=L v=L"
    Permute "op=m s=Q q=Q"
    Measure "op=o x=L z=L id=N"
    Allocate "op=r id=N angle=B"
    ConditionalPauli "op=f x=L z=L id=L parity=B"
    Reset "op=z q=Q"
    Barrier "op=b q=Q"
    Inject "op=i shot=N x=L z=L"
    Flip "op=t shot=N id=N"
    SingleNoise "op=n p=H corr=C cond=L parity=B d=1 x=L z=L size=N"
    DepolarizingNoise "op=n p=H corr=C cond=L parity=B d=2 q=Q size=N"
    UniformNoise "op=n p=H corr=C cond=L parity=B d=3 n=N size=N"
    WeightedNoise "op=n p=H corr=C cond=L parity=B d=4 n=N size=N"
    Element "x=L z=L"
    WeightedElement "w=H x=L z=L"
}

impl Form {
    /// The text after `op=`. The element lines of noise have no `op=`.
    #[must_use]
    pub fn op(self) -> Option<&'static str> {
        self.template().strip_prefix("op=")?.split(' ').next()
    }

    /// The key of each field after `op=`, and what stands for its value: a capital letter, or the value itself in `d=`.
    pub fn fields(self) -> impl Iterator<Item = (&'static str, &'static str)> {
        self.template().split(' ').filter_map(|field| field.split_once('=')).filter(|(key, _)| *key != "op")
    }

    /// The form of the element lines that follow a noise line of this form.
    #[must_use]
    pub const fn elements(self) -> Option<Self> {
        match self {
            Self::UniformNoise => Some(Self::Element),
            Self::WeightedNoise => Some(Self::WeightedElement),
            _ => None,
        }
    }
}
