//! What passes through the C interface: the arguments and the reply of a call.

use kundatrezo::{Number, Refusal};
use std::any::Any;
use std::panic::{AssertUnwindSafe, catch_unwind};
use std::{ptr, slice};

/// Bytes that a call reads.
#[repr(C)]
#[derive(Debug, Clone, Copy)]
pub struct Bytes {
    /// The first byte.
    pub first: *const u8,
    /// How many there are.
    pub len: usize,
}

/// Words that a call reads.
#[repr(C)]
#[derive(Debug, Clone, Copy)]
pub struct Words {
    /// The first word.
    pub first: *const u64,
    /// How many there are.
    pub len: usize,
}

/// Words that a call writes.
#[repr(C)]
#[derive(Debug, Clone, Copy)]
pub struct WordsMut {
    /// The first word.
    pub first: *mut u64,
    /// How many there are.
    pub len: usize,
}

/// Bytes that a call reads if they are given: the pointer is null if they are not.
#[repr(transparent)]
#[derive(Debug, Clone, Copy)]
pub struct GivenBytes(pub Bytes);

/// Words that a call reads if they are given: the pointer is null if they are not.
#[repr(transparent)]
#[derive(Debug, Clone, Copy)]
pub struct GivenWords(pub Words);

/// An argument of a call through the C interface.
pub trait Argument {
    /// What the call works with: a slice of a list, or the number itself.
    type Value;

    /// The argument as this value.
    ///
    /// # Safety
    ///
    /// The list has as many initialised elements as it says, is not null unless it is empty, and is aligned; if it is written, nothing else uses it
    /// meanwhile.
    unsafe fn value(self) -> Self::Value;
}

macro_rules! list_arguments {
    ($($list:ident: $value:ty, $make:ident;)*) => {$(
        impl Argument for $list {
            type Value = $value;

            unsafe fn value(self) -> Self::Value {
                if self.len == 0 {
                    return Default::default();
                }
                // SAFETY: the caller's promise
                unsafe { slice::$make(self.first, self.len) }
            }
        }
    )*};
}

list_arguments! {
    Bytes: &'static [u8], from_raw_parts;
    Words: &'static [u64], from_raw_parts;
    WordsMut: &'static mut [u64], from_raw_parts_mut;
}

macro_rules! optional_arguments {
    ($($list:ident: $value:ty;)*) => {$(
        impl Argument for $list {
            type Value = Option<$value>;

            unsafe fn value(self) -> Self::Value {
                // SAFETY: the caller's promise
                (!self.0.first.is_null()).then(|| unsafe { self.0.value() })
            }
        }
    )*};
}

optional_arguments! {
    GivenBytes: &'static [u8];
    GivenWords: &'static [u64];
}

impl Argument for u64 {
    type Value = Self;

    unsafe fn value(self) -> Self {
        self
    }
}

/// What a call replies: the finished work, or why not. `kundatrezo_edge_free` frees it.
///
/// With `number` 0 the call has done its work, and `count`, `text` and `words` are what it gives. With the number of a refusal `text` has three
/// parts, with a zero byte between: the one cause, if it is known of a number with several, the hint, and the refused line. With [`FAULT`] the text
/// says what is wrong with an argument, with [`PANIC`] what broke.
#[repr(C)]
#[derive(Debug)]
pub struct Reply {
    /// 0, the number of a refusal, [`FAULT`] or [`PANIC`].
    pub number: u64,
    /// The line of the job that is refused, from 1; 0 if none fits.
    pub line: u64,
    /// A number that the call gives; with a refusal of settling by 15, the bytes that the text needs.
    pub count: u64,
    /// The first byte of the text; null if it is empty.
    pub text: *mut u8,
    /// The bytes of the text.
    pub text_len: usize,
    /// The first word; null if there are none.
    pub words: *mut u64,
    /// How many words there are.
    pub words_len: usize,
}

/// The number of a reply to a wrong argument.
pub const FAULT: u64 = 1000;
/// The number of a reply to a call that found an error in this library.
pub const PANIC: u64 = 1001;

/// What a call gives.
#[derive(Debug, Default)]
pub struct Given {
    pub count: u64,
    pub text: Vec<u8>,
    pub words: Vec<u64>,
}

impl Given {
    pub fn count(count: u64) -> Self {
        Self { count, ..Self::default() }
    }

    pub fn text(text: impl Into<Vec<u8>>) -> Self {
        Self { text: text.into(), ..Self::default() }
    }

    pub fn words(words: impl IntoIterator<Item = u64>) -> Self {
        Self { words: words.into_iter().collect(), ..Self::default() }
    }
}

/// Why a call gives nothing.
#[derive(Debug)]
pub enum Failure {
    Refused { number: u64, line: u64, needed: u64, text: Vec<u8> },
    Fault(String),
}

impl Failure {
    /// A refusal of a job, with the likely cause that the crate finds unless there is a better hint.
    pub fn refused(refusal: &Refusal, job: &[u8], hint: Option<String>) -> Self {
        let hint = hint.or_else(|| refusal.hint(job)).unwrap_or_default();
        Self::by_parts(refusal, "", &hint, refusal.line_of(job).unwrap_or_default())
    }

    /// A refusal by 17, by one of its two causes.
    pub fn walk(refusal: &Refusal, cause: usize, hint: &str) -> Self {
        Self::by_parts(refusal, Number::WALK.cause(cause), hint, b"")
    }

    fn by_parts(refusal: &Refusal, cause: &str, hint: &str, line: &[u8]) -> Self {
        let text = [cause.as_bytes(), hint.as_bytes(), line].join(&0);
        Self::Refused { number: refusal.number.get(), line: refusal.line, needed: refusal.bytes_needed, text }
    }

    pub fn fault(text: impl ToString) -> Self {
        Self::Fault(text.to_string())
    }
}

/// An answer of the crate on a job.
pub trait OnJob<T> {
    /// Its refusal as a failure, with a hint.
    fn on(self, job: &[u8]) -> Result<T, Failure>;
}

impl<T> OnJob<T> for Result<T, Refusal> {
    fn on(self, job: &[u8]) -> Result<T, Failure> {
        self.map_err(|refusal| Failure::refused(&refusal, job, None))
    }
}

impl Reply {
    /// The reply of a call. No panic leaves it.
    pub fn of(call: impl FnOnce() -> Result<Given, Failure>) -> Self {
        match catch_unwind(AssertUnwindSafe(call)) {
            Ok(Ok(given)) => Self::new(0, 0, given.count, given.text, given.words),
            Ok(Err(Failure::Refused { number, line, needed, text })) => {
                Self::new(number, line, needed, text, Vec::new())
            }
            Ok(Err(Failure::Fault(text))) => Self::new(FAULT, 0, 0, text.into_bytes(), Vec::new()),
            Err(panic) => Self::new(PANIC, 0, 0, message(panic.as_ref()).into(), Vec::new()),
        }
    }

    fn new(number: u64, line: u64, count: u64, text: Vec<u8>, words: Vec<u64>) -> Self {
        let (text_len, words_len) = (text.len(), words.len());
        let [text, words] = [into_raw(text).cast::<u64>(), into_raw(words)];
        Self { number, line, count, text: text.cast(), text_len, words, words_len }
    }

    /// Free what it has.
    ///
    /// # Safety
    ///
    /// It is the reply of a call, and nothing uses it any more.
    pub unsafe fn free(self) {
        // SAFETY: both were made by `into_raw`
        unsafe {
            from_raw(self.text, self.text_len);
            from_raw(self.words, self.words_len);
        }
    }
}

fn into_raw<T>(list: Vec<T>) -> *mut T {
    if list.is_empty() { ptr::null_mut() } else { Box::into_raw(list.into_boxed_slice()).cast() }
}

/// Drop what `into_raw` made.
unsafe fn from_raw<T>(first: *mut T, len: usize) {
    if !first.is_null() {
        // SAFETY: this is the boxed slice of `into_raw`
        drop(unsafe { Box::from_raw(ptr::slice_from_raw_parts_mut(first, len)) });
    }
}

fn message(panic: &(dyn Any + Send)) -> &str {
    let text = panic.downcast_ref::<String>().map(String::as_str);
    text.or_else(|| panic.downcast_ref::<&str>().copied()).unwrap_or("an error in the library")
}
