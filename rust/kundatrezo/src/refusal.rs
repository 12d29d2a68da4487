//! Why a call refuses its work.

use std::error::Error;
use std::fmt;

/// The number of a refusal. Names and words are those of include/kundatrezo.h; docs/REFUSALS.md has an example and a remedy for each.
///
/// ```
/// use kundatrezo::Number;
///
/// assert_eq!(Number::QUBIT.get(), 4);
/// assert_eq!(Number::QUBIT.to_string(), "4 (a qubit not below the header's qubits)");
/// ```
#[derive(Debug, Clone, Copy, PartialEq, Eq, PartialOrd, Ord, Hash)]
pub struct Number(u64);

/// Gives each number its name and its words.
macro_rules! numbers {
    ($($number:literal $name:ident $words:literal)*) => {
        impl Number {
            $(
                #[doc = concat!($number, ": ", $words, ".")]
                pub const $name: Self = Self($number);
            )*

            /// Every number that this crate knows, rising.
            pub const ALL: &'static [Self] = &[$(Self::$name),*];

            /// What it means, in words.
            #[must_use]
            pub const fn words(self) -> &'static str {
                match self.0 {
                    $($number => $words,)*
                    _ => "a number that this crate does not know",
                }
            }

            /// The name of its constant, here and, after `KUNDATREZO_`, in the C header.
            #[must_use]
            pub const fn name(self) -> &'static str {
                match self.0 {
                    $($number => stringify!($name),)*
                    _ => "",
                }
            }
        }
    };
}

numbers! {
    1 LENGTH "the job is empty, longer than 1,048,576 bytes, or has no LF at its end"
    2 FORM "form of a line in the job's edition, an unknown gate code, or the job ends before its element lines"
    3 HEADER "header missing, repeated or out of range"
    4 QUBIT "a qubit not below the header's qubits"
    5 OPERANDS "number of operands, a repeated operand, or a list of more than 31"
    6 PERMUTATION "s is no permutation of the places"
    7 CLIFFORD "not a Clifford"
    8 NEXT_ID "id of a measurement or an allocation not the next one, or not below the header's outcomes"
    9 NOT_RECORDED "an outcome that is not recorded yet"
    10 SHOT "a shot not below the header's shots"
    11 PROBABILITY "p is NaN or above 1"
    12 ELEMENTS "n not 1 to 64; a weight below zero or not finite; their total zero or not finite"
    13 WORDS "lent words too few"
    14 DRAWS "a needed draw lies past its list"
    15 ROOM "the text is longer than the lent bytes or 1,048,576"
    16 NOISE "noise in a walk"
    17 WALK "the walk's shot not below the header's shots; a set or group cut short, not strictly rising, or with an outcome that is not recorded"
    18 ANNOTATION "annotation over more than 31 qubits"
    19 SIZES "sizes of one correlation differ"
    20 CONTROL "control and target of a controlled Pauli anticommute"
    21 SIZE "the size written differs from the distribution's"
    22 SEED "the seed is zero"
    23 EDITION "the header's edition is neither 1 nor 2"
    24 GROUPS "no groups, more than 16, or noise with d=2 over more than 4 qubits in a table of single faults"
    25 SHARES "the shares total more than the list, there are no callers or more than 8, or more is marked taken than a part holds"
    26 CALLER "the caller's number is not below the number of callers"
}

impl Number {
    /// The number of the C interface; `None` if this crate does not know it.
    #[must_use]
    pub fn new(number: u64) -> Option<Self> {
        Self::ALL.iter().copied().find(|known| known.0 == number)
    }

    /// What a user may do about the refusal of a job by this number at this line, from 1, if that can be said: its likely cause.
    #[must_use]
    pub fn hint(self, line: u64, job: &[u8]) -> Option<String> {
        crate::hints::hint(self, line, job)
    }

    /// One of the causes that its words have, from 0, for a caller who knows which it is.
    #[must_use]
    pub fn cause(self, place: usize) -> &'static str {
        self.words().split("; ").nth(place).unwrap_or(self.words())
    }

    /// The number itself.
    #[must_use]
    pub const fn get(self) -> u64 {
        self.0
    }
}

impl fmt::Display for Number {
    fn fmt(&self, f: &mut fmt::Formatter<'_>) -> fmt::Result {
        write!(f, "{} ({})", self.0, self.words())
    }
}

/// Why a call refuses: the first bad line, and the lowest number that applies to it.
///
/// ```
/// use kundatrezo::{Number, check};
///
/// let job = b"op=job qubits=1 outcomes=0 shots=1\nop=z q=1\n";
/// let refusal = check(job).unwrap_err();
/// assert_eq!((refusal.number, refusal.line), (Number::QUBIT, 2));
/// assert_eq!(refusal.to_string(), "refused: 4 (a qubit not below the header's qubits) at line 2");
/// assert_eq!(format!("{refusal:?}"), refusal.to_string());
/// assert_eq!(refusal.line_of(job), Some(b"op=z q=1".as_slice()));
/// ```
#[derive(Clone, Copy, PartialEq, Eq, Hash)]
#[non_exhaustive]
pub struct Refusal {
    /// The number.
    pub number: Number,
    /// The line of the job, from 1; 0 where none fits.
    pub line: u64,
    /// With [`Number::ROOM`] from settling, the bytes that the settled text needs; else 0.
    pub bytes_needed: u64,
}

impl Refusal {
    /// The refused line of the job, without its LF; `None` if the refusal is of no line.
    #[must_use]
    pub fn line_of<'a>(&self, job: &'a [u8]) -> Option<&'a [u8]> {
        let part = crate::sys::line(job, self.line);
        (part.start < job.len()).then(|| &job[part.start..part.start + part.len])
    }

    /// What a user may do about the refusal of this job, if that can be said: its likely cause.
    ///
    /// ```
    /// let job = b"op=job qubits=1 outcomes=0 shots=1\nop=u g=H q=0\n";
    /// let refusal = kundatrezo::check(job).unwrap_err();
    /// assert_eq!(refusal.hint(job).as_deref(), Some("g= is the code of a gate: Hadamard is 4"));
    /// ```
    #[must_use]
    pub fn hint(&self, job: &[u8]) -> Option<String> {
        self.number.hint(self.line, job)
    }
}

impl fmt::Display for Refusal {
    fn fmt(&self, f: &mut fmt::Formatter<'_>) -> fmt::Result {
        write!(f, "refused: {}", self.number)?;
        if self.line != 0 {
            write!(f, " at line {}", self.line)?;
        }
        Ok(())
    }
}

/// In words, as a program that ends by it shows it.
impl fmt::Debug for Refusal {
    fn fmt(&self, f: &mut fmt::Formatter<'_>) -> fmt::Result {
        write!(f, "{self}")?;
        if self.bytes_needed != 0 {
            write!(f, "; the text needs {} bytes", self.bytes_needed)?;
        }
        Ok(())
    }
}

impl Error for Refusal {}

/// An answer of the library as a result. `figure` is the count or size of a success, and the bytes needed of a refusal for lack of room.
pub(crate) fn result_of(answer: &crate::sys::Answer, figure: u64) -> Result<u64, Refusal> {
    match answer.number {
        0 => Ok(figure),
        number => Err(Refusal { number: Number(number), line: answer.line, bytes_needed: figure }),
    }
}
