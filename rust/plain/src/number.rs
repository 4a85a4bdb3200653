//! Reading a number text into its operands.

use crate::Refusal;

/// Most bytes of a number text.
const MAX_BYTES: usize = 64;
/// Largest exponent of an admitted number.
pub(crate) const MAX_E: u32 = 14;
/// Most fraction digits of an admitted number.
pub(crate) const MAX_V: u32 = 9;
/// Most integer digits of an admitted number.
const MAX_INTEGER_DIGITS: usize = 15;

/// A read number: its sign and the operands of its absolute value.
#[derive(Clone, Copy, Debug, PartialEq, Eq)]
pub struct Number {
    /// Whether a `-` was written.
    pub negative: bool,
    /// Exponent, 0 if none was written.
    pub e: u32,
    /// Count of visible fraction digits.
    pub v: u32,
    /// Integer part.
    pub i: u64,
    /// Value of the visible fraction digits.
    pub f: u64,
    /// Count of fraction digits without trailing zeros.
    pub w: u32,
    /// Value of the fraction digits without trailing zeros.
    pub t: u64,
}

/// The parts of a number text, still as digits.
struct Parts<'a> {
    negative: bool,
    integer: &'a [u8],
    fraction: &'a [u8],
    exponent: &'a [u8],
}

/// Reads a number text; refusals 10 to 15.
pub fn read_number(text: &[u8]) -> Result<Number, Refusal> {
    if text.len() > MAX_BYTES {
        return Err(Refusal::NumberTooLong);
    }
    let parts = split(text).ok_or(Refusal::NumberGrammar)?;
    let e = exponent(&parts)?;
    let (integer, fraction) = shift(&parts, e as usize);
    if integer.len() > MAX_INTEGER_DIGITS {
        return Err(Refusal::TooManyIntegerDigits);
    }
    if fraction.len() > MAX_V as usize {
        return Err(Refusal::TooManyFractionDigits);
    }
    let significant = trim_end_zeros(fraction);
    Ok(Number {
        negative: parts.negative,
        e,
        v: fraction.len() as u32,
        i: value(&integer),
        f: value(fraction),
        w: significant.len() as u32,
        t: value(significant),
    })
}

/// Splits a text by the number grammar, or `None` if it does not follow it.
fn split(text: &[u8]) -> Option<Parts<'_>> {
    let (negative, rest) = match text.strip_prefix(b"-") {
        Some(rest) => (true, rest),
        None => (false, text),
    };
    let (integer, mut rest) = digits(rest);
    let mut fraction: &[u8] = &[];
    if integer.is_empty() {
        return None;
    }
    if let Some(after) = rest.strip_prefix(b".") {
        (fraction, rest) = digits(after);
        if fraction.is_empty() {
            return None;
        }
    }
    let mut exponent: &[u8] = &[];
    if let [b'c' | b'e', after @ ..] = rest {
        (exponent, rest) = digits(after);
        if !matches!(exponent, [b'1'..=b'9', ..]) {
            return None;
        }
    }
    rest.is_empty().then_some(Parts {
        negative,
        integer,
        fraction,
        exponent,
    })
}

/// Splits off the digits a text begins with.
fn digits(text: &[u8]) -> (&[u8], &[u8]) {
    let count = text.iter().take_while(|b| b.is_ascii_digit()).count();
    text.split_at(count)
}

/// The exponent's value, 0 if none is written; refusals 12 and 13.
fn exponent(parts: &Parts) -> Result<u32, Refusal> {
    // The first digit is not 0, so three digits are above any bound.
    if parts.exponent.len() > 2 || value(parts.exponent) > MAX_E.into() {
        return Err(Refusal::ExponentTooLarge);
    }
    if !parts.exponent.is_empty() && parts.integer.iter().all(|&b| b == b'0') {
        return Err(Refusal::ExponentAfterZero);
    }
    Ok(value(parts.exponent) as u32)
}

/// The integer digits, leading zeros dropped, and the fraction digits after the shift of the point.
fn shift<'a>(parts: &Parts<'a>, e: usize) -> (Vec<u8>, &'a [u8]) {
    let (moved, fraction) = parts.fraction.split_at(e.min(parts.fraction.len()));
    let mut integer = Vec::with_capacity(MAX_BYTES + MAX_E as usize);
    integer.extend_from_slice(parts.integer);
    integer.extend_from_slice(moved);
    integer.resize(parts.integer.len() + e, b'0');
    let zeros = integer.iter().take_while(|&&b| b == b'0').count();
    integer.drain(..zeros);
    (integer, fraction)
}

fn trim_end_zeros(digits: &[u8]) -> &[u8] {
    let end = digits
        .iter()
        .rposition(|&b| b != b'0')
        .map_or(0, |last| last + 1);
    &digits[..end]
}

/// The value of at most 19 digits.
fn value(digits: &[u8]) -> u64 {
    digits
        .iter()
        .fold(0, |sum, b| sum * 10 + u64::from(b - b'0'))
}
