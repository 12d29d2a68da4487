//! Callers with shares of one main list.

use crate::draws::sealed;
use crate::{DrawSource, Refusal, Rows, settle, size, sys};
use std::error::Error;
use std::fmt::{self, Write};

/// Most callers with shares of a main list.
pub const MAX_CALLERS: usize = 8;

/// A main list that several callers draw from, with their shares and what is taken of them.
///
/// Each caller has a stretch at the front of the list, in the order of callers; the rest is common. A caller's job takes words of the own stretch first, then
/// common ones, and never another's. Words that are taken stay taken, so no word is handed out twice, and a caller whose jobs stay within the own stretch gets
/// the same frames and deltas whatever the others do. These are theorems (`never-twice`, `others-untouched`, `own-alone-both` and others in
/// crates/shares/specs/Theorems.antt of the repository).
///
/// List, shares and marks are kept together: marks are moved by calls alone, and can't be used with another list. There is no `Clone`, by which words would be
/// handed out twice. [`caller`](Self::caller) is what a run or settling draws from; it borrows the whole, so that two callers on two threads come one after the
/// other (by a `Mutex`).
///
/// ```
/// use kundatrezo::{Frames, Number, SharedDraws, settled};
///
/// // four shots read a word each
/// let job = b"op=job qubits=1 outcomes=0 shots=4\nop=n p=3fe0000000000000 corr=- cond=- parity=0 d=1 x=0 z=- size=1\n";
/// let words: Vec<u64> = (0..16).map(|place| place << 60).collect();
/// let mut draws = SharedDraws::new(&words, &[4, 6])?;
///
/// // caller 1 takes words 4 to 7, then 8, 9 and two of the common part, 10 and 11; caller 0 takes 0 to 3
/// let first = Frames::from_run(job, &[], draws.caller(1))?;
/// let second = Frames::from_run(job, &[], draws.caller(1))?;
/// let other = Frames::from_run(job, &[], draws.caller(0))?;
/// assert_eq!((first.x(), second.x(), other.x()), (&[0b1111][..], &[0b0000][..], &[0b1111][..]));
/// assert_eq!(draws.marks(), [4, 6, 2]);
/// assert_eq!((draws.own_left(0), draws.own_left(1), draws.common_left()), (0, 0, 4));
///
/// // the last four, and then there are none
/// assert!(settled(job, &[], draws.caller(0)).is_ok());
/// assert_eq!(settled(job, &[], draws.caller(0)).unwrap_err().number, Number::DRAWS);
/// # Ok::<(), kundatrezo::Refusal>(())
/// ```
#[derive(Debug, PartialEq, Eq)]
pub struct SharedDraws<'a> {
    main: &'a [u64],
    shares: Vec<u64>,
    marks: Vec<u64>,
}

/// A job that draws nothing, by which the engine is asked whether shares and marks fit a list.
const NOTHING: &[u8] = b"op=job qubits=1 outcomes=0 shots=1\n";

impl<'a> SharedDraws<'a> {
    /// A list of which nothing is taken, and the length of each caller's stretch.
    ///
    /// # Errors
    ///
    /// The refusal by 25: no shares, more than [`MAX_CALLERS`], or more words than the list has.
    pub fn new(main: &'a [u64], shares: &[u64]) -> Result<Self, Refusal> {
        Self { main, shares: shares.to_vec(), marks: vec![0; shares.len() + 1] }.checked()
    }

    /// The same, if the engine accepts them.
    fn checked(mut self) -> Result<Self, Refusal> {
        settle(NOTHING, &[], self.caller(0), &mut [0; NOTHING.len()])?;
        Ok(self)
    }

    /// The words that the caller of this number, from 0, may draw: no second list, which [`Caller::with_second`] adds. A number that is not below the callers'
    /// is refused by 26 when it is used.
    pub fn caller(&mut self, number: usize) -> Caller<'_> {
        Caller { main: self.main, shares: &self.shares, marks: &mut self.marks, number, second: &[], base: 0 }
    }

    /// How many callers there are.
    #[must_use]
    pub fn callers(&self) -> usize {
        self.shares.len()
    }

    /// The length of each caller's stretch.
    #[must_use]
    pub fn shares(&self) -> &[u64] {
        &self.shares
    }

    /// How many words are taken of each stretch, and after these how many of the common part.
    #[must_use]
    pub fn marks(&self) -> &[u64] {
        &self.marks
    }

    /// The words that a caller's next job may take: what is left of the stretch, and after it what is left of the common part. The job does what it would with
    /// a main list of the two, one after the other (`shared-run-is-plain`).
    ///
    /// # Panics
    ///
    /// Panics if there is no such caller.
    ///
    /// ```
    /// use kundatrezo::SharedDraws;
    ///
    /// let words = [1, 2, 3, 4, 5];
    /// let draws = SharedDraws::new(&words, &[2, 1])?;
    /// assert_eq!(draws.available(1), [&[3][..], &[4, 5]]);
    /// # Ok::<(), kundatrezo::Refusal>(())
    /// ```
    #[must_use]
    pub fn available(&self, caller: usize) -> [&'a [u64]; 2] {
        let part = |first: u64, taken: u64, length: u64| &self.main[size(first + taken)..size(first + length)];
        let before = |caller: usize| self.shares[..caller].iter().sum();
        [
            part(before(caller), self.marks[caller], self.shares[caller]),
            part(before(self.callers()), self.marks[self.callers()], self.common()),
        ]
    }

    /// How many words a caller's stretch has left.
    ///
    /// # Panics
    ///
    /// Panics if there is no such caller.
    #[must_use]
    pub fn own_left(&self, caller: usize) -> u64 {
        self.shares[caller] - self.marks[caller]
    }

    /// How many words of the common part are left.
    #[must_use]
    pub fn common_left(&self) -> u64 {
        self.common() - self.marks[self.callers()]
    }

    /// How many words the common part has.
    fn common(&self) -> u64 {
        self.main.len() as u64 - self.shares.iter().sum::<u64>()
    }

    /// The list of an account, with what was taken of it: `account` is what [`to_string`](ToString::to_string) gave, here or in another process.
    ///
    /// # Errors
    ///
    /// [`AccountError`]: the text is no account, was edited, or is that of another list.
    ///
    /// ```
    /// use kundatrezo::{AccountError, SharedDraws};
    ///
    /// let words = [1, 2, 3, 4, 5];
    /// let draws = SharedDraws::new(&words, &[2, 1])?;
    /// let account = draws.to_string();
    /// let lines = "list=5 sum=a73c4fcedb1fd5a4\ncaller=0 share=2 taken=0\ncaller=1 share=1 taken=0\ncommon=2 taken=0\n";
    /// assert_eq!(account, format!("{lines}seal=a5339cb1b6887c7a\n"));
    /// assert_eq!(SharedDraws::from_account(&words, &account).as_ref(), Ok(&draws));
    /// assert_eq!(SharedDraws::from_account(&[1, 2, 3, 4, 6], &account), Err(AccountError::OtherList));
    /// assert_eq!(SharedDraws::from_account(&words, &account.replace("taken=0", "taken=1")), Err(AccountError::Edited));
    /// # Ok::<(), kundatrezo::Refusal>(())
    /// ```
    pub fn from_account(main: &'a [u64], account: &str) -> Result<Self, AccountError> {
        let read = Account::read(account)?;
        if read.list != main.len() as u64 || read.sum != sum(main) {
            return Err(AccountError::OtherList);
        }
        let draws = Self { main, shares: read.shares, marks: read.marks }.checked();
        draws.ok().filter(|draws| draws.to_string() == account).ok_or(AccountError::Form)
    }

    /// How many words the list of an account has; none if the text is no account, or was edited.
    #[must_use]
    pub fn length_of(account: &str) -> Option<u64> {
        Account::read(account).ok().map(|account| account.list)
    }

    /// How many words are taken of each stretch of an account and of its common part, as [`marks`](Self::marks), without the list.
    ///
    /// # Errors
    ///
    /// [`AccountError`]: the text is no account, or was edited.
    ///
    /// ```
    /// use kundatrezo::SharedDraws;
    ///
    /// let account = SharedDraws::new(&[1, 2, 3, 4, 5], &[2, 1])?.to_string();
    /// assert_eq!(SharedDraws::marks_of(&account), Ok(vec![0, 0, 0]));
    /// # Ok::<(), kundatrezo::Refusal>(())
    /// ```
    pub fn marks_of(account: &str) -> Result<Vec<u64>, AccountError> {
        Account::read(account).map(|account| account.marks)
    }
}

/// The account: the list's length and check sum, then each stretch and the common part with what is taken of it, and last the seal, a check sum of
/// the lines before it. [`SharedDraws::from_account`] reads it. The seal shows an edit by mistake. It is no secret: whoever wants to cheat can compute it.
impl fmt::Display for SharedDraws<'_> {
    fn fmt(&self, f: &mut fmt::Formatter<'_>) -> fmt::Result {
        let mut lines = format!("list={} sum={:016x}\n", self.main.len(), sum(self.main));
        for (caller, (share, taken)) in self.shares.iter().zip(&self.marks).enumerate() {
            writeln!(lines, "caller={caller} share={share} taken={taken}")?;
        }
        writeln!(lines, "common={} taken={}", self.common(), self.marks[self.callers()])?;
        writeln!(f, "{lines}seal={:016x}", hash(lines.bytes()))
    }
}

/// The numbers of an account.
struct Account {
    list: u64,
    sum: u64,
    shares: Vec<u64>,
    marks: Vec<u64>,
}

impl Account {
    fn read(text: &str) -> Result<Self, AccountError> {
        let (lines, seal) = text.rsplit_once("seal=").ok_or(AccountError::Form)?;
        match u64::from_str_radix(seal.trim_end(), 16) {
            Ok(seal) if seal == hash(lines.bytes()) => Self::read_lines(lines).ok_or(AccountError::Form),
            _ => Err(AccountError::Edited),
        }
    }

    fn read_lines(text: &str) -> Option<Self> {
        let number = |field: Option<&str>| field?.split_once('=')?.1.parse().ok();
        let mut lines = text.lines();
        let (list, sum) = lines.next()?.split_once(" sum=")?;
        let (list, sum) = (number(Some(list))?, u64::from_str_radix(sum, 16).ok()?);
        let (mut shares, mut marks) = (Vec::new(), Vec::new());
        for mut fields in lines.map(|line| line.rsplit(' ')) {
            marks.push(number(fields.next())?);
            shares.push(number(fields.next())?);
        }
        // the last is the common part
        shares.pop().map(|_: u64| Self { list, sum, shares, marks })
    }
}

/// A check sum of a list, by which an account knows it: that of its words, lowest byte first.
fn sum(words: &[u64]) -> u64 {
    hash(words.iter().flat_map(|word| word.to_le_bytes()))
}

/// The hash FNV-1a.
fn hash(bytes: impl Iterator<Item = u8>) -> u64 {
    bytes.fold(0xcbf2_9ce4_8422_2325, |sum, byte| (sum ^ u64::from(byte)).wrapping_mul(0x0100_0000_01b3))
}

/// Why [`SharedDraws::from_account`] gives no list.
#[derive(Debug, Clone, Copy, PartialEq, Eq)]
#[non_exhaustive]
pub enum AccountError {
    /// The text is no account.
    Form,
    /// The seal is not that of the lines before it: the account was edited, or is not whole.
    Edited,
    /// It is the account of a list of another length, or of other words.
    OtherList,
}

impl fmt::Display for AccountError {
    fn fmt(&self, f: &mut fmt::Formatter<'_>) -> fmt::Result {
        f.write_str(match self {
            Self::Form => "the text is no account of a shared list",
            Self::Edited => "the account was edited or is not whole: its seal does not fit",
            Self::OtherList => "the account is that of another list",
        })
    }
}

impl Error for AccountError {}

/// What a caller with a share of a main list draws from, by [`SharedDraws::caller`]. The marks of the list are moved by each job that is done, and by one that
/// is refused by 14; a job that is refused by another number takes no word.
#[derive(Debug)]
pub struct Caller<'a> {
    main: &'a [u64],
    shares: &'a [u64],
    marks: &'a mut [u64],
    number: usize,
    second: &'a [u64],
    base: u64,
}

impl<'a> Caller<'a> {
    /// The same with a second list and its base, as [`Draws::with_second`](crate::Draws::with_second).
    #[must_use]
    pub fn with_second(self, second: &'a [u64], base: u64) -> Self {
        Self { second, base, ..self }
    }
}

impl DrawSource for Caller<'_> {}

impl sealed::DrawSource for Caller<'_> {
    fn run(&mut self, job: &[u8], rows: Rows<'_>, noiseless: &[u64]) -> sys::Answer {
        sys::run_shared(job, rows, noiseless, &mut self.lent())
    }

    fn settle(&mut self, job: &[u8], noiseless: &[u64], out: &mut [u8]) -> sys::TextAnswer {
        sys::settle_shared(job, noiseless, &mut self.lent(), out)
    }
}

impl Caller<'_> {
    fn lent(&mut self) -> sys::Shared<'_> {
        sys::Shared {
            main: self.main,
            second: self.second,
            base: self.base,
            shares: self.shares,
            marks: self.marks,
            caller: self.number as u64,
        }
    }
}
