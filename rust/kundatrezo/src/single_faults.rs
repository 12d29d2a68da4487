//! The table of single faults.

use crate::refusal::result_of;
use crate::{Refusal, sys};

/// Most groups of outcomes of a table of single faults.
pub const MAX_GROUPS: usize = 16;

/// What each possible fault does: for each noise line of a job, in the job's order, and each element of its distribution, which groups of recorded outcomes
/// it flips as the only fault of a shot. The job's own injections and flips and all other noise count as absent; probabilities, weights, conditions and draws
/// play no part. The outcomes of a group rise strictly.
///
/// Each group is carried back one time for all elements, so a table takes far less time than runs with one fault each, whose deltas it is proved to give
/// (`table-alone` in crates/single_faults/specs/Theorems.antt of the repository).
///
/// # Errors
///
/// The refusal by a test of the job, 17 (a group that doesn't rise strictly, or has an outcome that is not recorded), 24 (no groups or more than
/// [`MAX_GROUPS`], with line 0; else the first noise line with d=2 over more than four qubits) or 15 (a table longer than [`MAX_BYTES`](crate::MAX_BYTES)).
///
/// ```
/// use kundatrezo::fault_table;
///
/// // a bit that is copied to another one, and depolarizing noise on it before
/// let job = b"op=job qubits=2 outcomes=2 shots=1
/// op=n p=3f847ae147ae147b corr=- cond=- parity=0 d=2 q=0 size=3
/// op=u g=11 q=0,1
/// op=o x=- z=0 id=0
/// op=o x=- z=1 id=1
/// ";
/// let table = fault_table(job, &[vec![0], vec![0, 1]])?;
/// assert_eq!(table.text(), "line=2 el=0 groups=10\nline=2 el=1 groups=00\nline=2 el=2 groups=10\n");
/// // X and Y flip outcome 0, and none of the three flips the sum of both
/// let flips: Vec<(usize, bool)> = table.iter().map(|fault| (fault.element, fault.flips(0))).collect();
/// assert_eq!(flips, [(0, true), (1, false), (2, true)]);
/// assert!(table.iter().all(|fault| !fault.flips(1)));
/// # Ok::<(), kundatrezo::Refusal>(())
/// ```
pub fn fault_table(job: &[u8], groups: &[Vec<u64>]) -> Result<FaultTable, Refusal> {
    let list: Vec<u64> = groups.iter().flat_map(|group| [&[group.len() as u64], group.as_slice()].concat()).collect();
    let text = crate::text(|out| write_fault_table(job, &list, out))?;
    Ok(FaultTable { groups: groups.len(), text: String::from_utf8(text).expect("a table is in plain letters") })
}

/// Write the table of single faults at the front of `out`, a line `line=L el=I groups=G` for each row, and say how many bytes it has. `groups` is one list: a
/// group's length, its outcomes, the next group's length, and so on.
///
/// # Errors
///
/// As [`fault_table`]; 17 also for a group that the end of the list cuts short, and 15 where the table is longer than `out`. Nothing is written then.
///
/// ```
/// use kundatrezo::{Number, write_fault_table};
///
/// let job = b"op=job qubits=1 outcomes=1 shots=1
/// op=n p=3f847ae147ae147b corr=- cond=- parity=0 d=1 x=0 z=- size=1
/// op=o x=- z=0 id=0
/// ";
/// let mut out = [0; 100];
/// let bytes = write_fault_table(job, &[1, 0, 0], &mut out)?;
/// assert_eq!(out[..bytes], *b"line=2 el=0 groups=10\n");
/// // a group of two outcomes, of which there is one
/// assert_eq!(write_fault_table(job, &[2, 0], &mut out).unwrap_err().number, Number::WALK);
/// # Ok::<(), kundatrezo::Refusal>(())
/// ```
pub fn write_fault_table(job: &[u8], groups: &[u64], out: &mut [u8]) -> Result<usize, Refusal> {
    let reply = sys::fault_table(job, groups, out);
    result_of(&reply.answer, reply.figure).map(crate::size)
}

/// The table of single faults of a job, by [`fault_table`].
#[derive(Debug, Clone, PartialEq, Eq)]
pub struct FaultTable {
    groups: usize,
    text: String,
}

impl FaultTable {
    /// How many groups each row tells of.
    #[must_use]
    pub fn groups(&self) -> usize {
        self.groups
    }

    /// The table as a text, a line `line=L el=I groups=G` for each row.
    #[must_use]
    pub fn text(&self) -> &str {
        &self.text
    }

    /// The rows, in the order of the job's noise lines and of their elements.
    pub fn iter(&self) -> impl Iterator<Item = SingleFault> {
        self.text.lines().map(SingleFault::read)
    }
}

/// A row of a table: a possible fault, and what it flips.
#[derive(Debug, Clone, Copy, PartialEq, Eq, Hash)]
#[non_exhaustive]
pub struct SingleFault {
    /// The noise line's number in the job, from 1.
    pub line: usize,
    /// The element of its distribution, from 0.
    pub element: usize,
    /// A bit for each group, the first group lowest.
    groups: u16,
}

impl SingleFault {
    /// A line of a table, which the engine wrote.
    fn read(text: &str) -> Self {
        let mut values = text.split(' ').filter_map(|field| field.split_once('=')).map(|(_, value)| value);
        let [line, element] = [(); 2].map(|()| values.next().and_then(|value| value.parse().ok()).expect("a number"));
        let groups = values.next().expect("a character for each group");
        let groups = groups.bytes().rev().fold(0, |bits, byte| bits << 1 | u16::from(byte == b'1'));
        Self { line, element, groups }
    }

    /// Whether the fault flips the sum of a group's outcomes, by the group's place among those of the table; false where there is no such group.
    #[must_use]
    pub fn flips(&self, group: usize) -> bool {
        group < MAX_GROUPS && self.groups >> group & 1 == 1
    }

    /// The groups that it flips, rising.
    pub fn flipped(&self) -> impl Iterator<Item = usize> + use<> {
        let fault = *self;
        (0..MAX_GROUPS).filter(move |group| fault.flips(*group))
    }
}
