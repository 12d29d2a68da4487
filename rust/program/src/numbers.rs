//! Probabilities and weights in decimal and by the bits of their binary64.

use crate::arguments::Arguments;
use crate::files::shown;
use crate::{Failure, print};
use std::ffi::OsString;

/// The commands `bits` and `decimal` say this of themselves.
pub const BITS: &str = "\
Prints the 16 hexadecimal digits of the binary64 that is nearest to each number: what p= and w= of a job
are written by.";
pub const DECIMAL: &str = "\
Prints the number of each 16 hexadecimal digits in decimal, with the fewest digits that 'bits' takes back
to the same.";

/// The digits of a number.
pub fn bits_of(number: f64) -> String {
    format!("{:016x}", number.to_bits())
}

/// The number of 16 hexadecimal digits.
pub fn binary64(text: &str) -> Option<f64> {
    let digits = text.len() == 16 && text.bytes().all(|byte| byte.is_ascii_hexdigit());
    if digits { u64::from_str_radix(text, 16).ok().map(f64::from_bits) } else { None }
}

/// A number in decimal.
pub fn decimal(text: &str) -> Option<f64> {
    text.parse().ok()
}

pub fn print_bits(arguments: &Arguments) -> Result<(), Failure> {
    convert(arguments, "a number in decimal", |text| decimal(text).map(bits_of))
}

pub fn print_decimal(arguments: &Arguments) -> Result<(), Failure> {
    convert(arguments, "16 hexadecimal digits", |text| binary64(text).map(|number| format!("{number:?}")))
}

/// Print what becomes of each operand, a line for each.
fn convert(arguments: &Arguments, what: &str, conversion: fn(&str) -> Option<String>) -> Result<(), Failure> {
    let converted = |operand: &OsString| {
        let text = operand.to_str().and_then(conversion).map(|text| format!("{text}\n"));
        text.ok_or_else(|| Failure::Other(format!("'{}' is not {what}", shown(operand))))
    };
    print(arguments.operands().iter().map(converted).collect::<Result<String, Failure>>()?)
}
