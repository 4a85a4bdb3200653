//! Plural words and printed numbers by Unicode UTS #35 Part 3, from a library whose functions are proved to meet their contracts.
//!
//! Four jobs: reading a number, choosing its plural word by a language's rules, checking a rule pack, printing a number through a pattern. No
//! function has a precondition; any bytes may be handed over.
//!
//! ```
//! let russian = b"one: v = 0 and i % 10 = 1 and i % 100 != 11; \
//!     few: v = 0 and i % 10 = 2..4 and i % 100 != 12..14; \
//!     many: v = 0 and i % 10 = 0 or v = 0 and i % 10 = 5..9 or v = 0 and i % 100 = 11..14";
//! okwazibelu::check(russian)?;
//! assert_eq!(okwazibelu::select(russian, b"22")?, okwazibelu::Keyword::Few);
//! # Ok::<(), okwazibelu::Refusal>(())
//! ```

pub mod raw;
mod refusal;

pub use refusal::{Least, Refusal};

use raw::Figures;
use std::fmt;

/// The Rust code of the repository's README, which is tested as the examples here are.
#[cfg(doctest)]
#[doc = include_str!("../../../README.md")]
pub struct Readme;

/// The sign of a number and the operands of its absolute value.
#[derive(Clone, Copy, Debug, PartialEq, Eq)]
pub struct Operands {
    /// Whether a `-` was written.
    pub negative: bool,
    /// Exponent, 0 if none was written.
    pub e: u32,
    /// Count of visible fraction digits.
    pub v: u32,
    /// Integer part.
    pub i: u64,
    /// Value of the visible fraction digits.
    pub f: u64,
    /// Count of fraction digits without trailing zeros.
    pub w: u32,
    /// Value of the fraction digits without trailing zeros.
    pub t: u64,
}

/// A plural category.
#[derive(Clone, Copy, Debug, PartialEq, Eq, Hash)]
#[allow(missing_docs)]
pub enum Keyword {
    Zero,
    One,
    Two,
    Few,
    Many,
    Other,
}

impl Keyword {
    /// All keywords in the order of their numbers, 0 to 5.
    pub const ALL: [Keyword; 6] = [
        Keyword::Zero,
        Keyword::One,
        Keyword::Two,
        Keyword::Few,
        Keyword::Many,
        Keyword::Other,
    ];

    /// The keyword as a pack writes it.
    ///
    /// ```
    /// assert_eq!(okwazibelu::Keyword::Few.name(), "few");
    /// ```
    pub fn name(self) -> &'static str {
        ["zero", "one", "two", "few", "many", "other"][self as usize]
    }
}

impl fmt::Display for Keyword {
    fn fmt(&self, out: &mut fmt::Formatter) -> fmt::Result {
        out.pad(self.name())
    }
}

/// Reads a number; refusals 10 to 15.
///
/// ```
/// use okwazibelu::{Refusal, read_number};
///
/// let number = read_number(b"1.20050c3")?;
/// assert_eq!((number.i, number.v, number.w), (1200, 2, 1));
/// assert_eq!((number.f, number.t, number.e), (50, 5, 3));
/// assert_eq!(read_number(b"1c15"), Err(Refusal::ExponentAbove14));
/// # Ok::<(), Refusal>(())
/// ```
pub fn read_number(number: &[u8]) -> Result<Operands, Refusal> {
    let mut figures = [0; 8];
    answer(raw::read_number(number, &mut figures), &figures)?;
    let [_, sign, e, v, i, f, w, t] = figures;
    Ok(Operands {
        negative: sign == 1,
        e: e as u32,
        v: v as u32,
        i,
        f,
        w: w as u32,
        t,
    })
}

/// Chooses the word of a number by a pack; tests the pack (20 to 26), the number (10 to 15), then 27.
///
/// ```
/// use okwazibelu::{Keyword, Refusal, select};
///
/// assert_eq!(select(b"one: n = 1; few: n = 2..4", b"3.0"), Ok(Keyword::Few));
/// assert_eq!(select(b"one: n = 1; few: n = 2..4", b"3.5"), Ok(Keyword::Other));
/// assert_eq!(
///     select(b"one: n = 1; few: n = 1..4", b"1"),
///     Err(Refusal::TwoRulesMet { first: 1, second: 2 })
/// );
/// ```
pub fn select(pack: &[u8], number: &[u8]) -> Result<Keyword, Refusal> {
    let mut figures = [0; 8];
    answer(raw::select(pack, number, &mut figures), &figures)?;
    Ok(Keyword::ALL[figures[1] as usize])
}

/// Checks a pack: refusals 20 to 26, or 27 if an admitted number meets two of its rules.
///
/// ```
/// use okwazibelu::{Least, Refusal, check};
///
/// assert_eq!(check(b"one: n = 1; few: n = 2..4"), Ok(()));
/// assert_eq!(
///     check(b"one: i = 1; two: f = 2"),
///     Err(Refusal::Clash { first: 1, second: 2, least: Least { e: 0, v: 1, i: 1, f: 2 } })
/// );
/// assert_eq!(check(b"one: n = 1000000").unwrap_err().to_string(), "refusal 22 at byte 9: relation value above 999,999");
/// ```
pub fn check(pack: &[u8]) -> Result<(), Refusal> {
    let mut figures = [0; 8];
    answer(raw::check(pack, &mut figures), &figures)
}

/// Prints a number through a pattern at the front of `out` and returns the text's length.
///
/// `symbols` is a record of locale symbols; what it lacks is taken from the standard record, so an empty one gives `.`, `,`, `-`, `+`, `%`, `‰`. The
/// body of kind 71 is the minimum grouping digits, a number from 1 to 4 (1 without it): groups are printed where the integer digits, added zeros
/// included, are at least those of the primary group and that number more. Tests the symbols (40, 41), the pattern (30 to 36), the number (10 to 15),
/// then 50 and 51. A refusal leaves `out` untouched, a success writes no byte behind the text.
///
/// ```
/// use okwazibelu::{Refusal, print};
///
/// let mut out = [0; 16];
/// let length = print(b"", b"#,##0.00;(#,##0.00)", b"-1234.565", &mut out)?;
/// assert_eq!(&out[..length], b"(1,234.56)");
///
/// let french = b"\x11,\x21 ";
/// let length = print(french, b"#,##0.##", b"1234.567", &mut out)?;
/// assert_eq!(&out[..length], b"1 234,57");
///
/// let polish = b"\x11,\x21 \x71\x02";
/// let length = print(polish, b"#,##0.##", b"1234.567", &mut out)?;
/// assert_eq!(&out[..length], b"1234,57");
/// let length = print(polish, b"#,##0.##", b"12345.678", &mut out)?;
/// assert_eq!(&out[..length], b"12 345,68");
///
/// assert_eq!(print(b"", b"000", b"1", &mut out[..2]), Err(Refusal::AreaTooSmall { needed: 3 }));
/// # Ok::<(), Refusal>(())
/// ```
pub fn print(
    symbols: &[u8],
    pattern: &[u8],
    number: &[u8],
    out: &mut [u8],
) -> Result<usize, Refusal> {
    let mut figures = [0; 8];
    answer(
        raw::print(symbols, pattern, number, out, &mut figures),
        &figures,
    )?;
    Ok(figures[1] as usize)
}

/// A result from the number the library returned: 0 for an answer.
fn answer(number: u32, figures: &Figures) -> Result<(), Refusal> {
    match number {
        0 => Ok(()),
        _ => {
            Err(Refusal::of(number, figures)
                .expect("the library returns only numbers of the table"))
        }
    }
}
