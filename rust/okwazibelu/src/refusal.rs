//! The refusals of document 01's table, held by tests/table.rs to the one of docs/REFERENCE.md.

use crate::raw::Figures;
use std::fmt;

/// A row of document 01's table with what it returns besides. Places are byte offsets into the pack, rules are counted from 1.
#[derive(Clone, Copy, Debug, PartialEq, Eq)]
pub enum Refusal {
    /// 10: number over 64 bytes.
    NumberTooLong,
    /// 11: not the number grammar.
    NumberGrammar,
    /// 12: exponent above 14.
    ExponentAbove14,
    /// 13: exponent after a zero integer part.
    ExponentAfterZero,
    /// 14: i, leading zeros dropped, has over 15 digits.
    IntegerDigits,
    /// 15: v above 9.
    FractionDigits,
    /// 20: pack over 4,096 bytes.
    PackTooLong,
    /// 21: not the pack grammar; start of the first token or stray byte no well-formed pack could have there, else the length.
    PackGrammar(usize),
    /// 22: relation value above 999,999; its start.
    ValueAbove999999(usize),
    /// 23: modulus not listed; its start.
    ModulusNotListed(usize),
    /// 24: a range `a..b` with a above b; start of b.
    RangeReversed(usize),
    /// 25: keyword unknown or repeated; its start.
    Keyword(usize),
    /// 26: clause, relation or range too many; its start.
    TooMany(usize),
    /// 27 from a selection: the number meets two rules, these first.
    TwoRulesMet {
        /// Place of the first rule met.
        first: usize,
        /// Place of the second rule met.
        second: usize,
    },
    /// 27 from a check: two rules share an admitted number.
    Clash {
        /// Place of the pair's first rule.
        first: usize,
        /// Place of the pair's second rule.
        second: usize,
        /// The least number that meets both.
        least: Least,
    },
    /// 30: pattern over 256 bytes.
    PatternTooLong,
    /// 31: pattern not UTF-8.
    PatternNotUtf8,
    /// 32: bare `¤`, `*`, `@`, or `E` after a number-part byte.
    PatternReserved,
    /// 33: not the pattern grammar, or a quote left open.
    PatternGrammar,
    /// 34: over 15 integer or 9 fraction places.
    TooManyPlaces,
    /// 35: step above 999,999 units of the last place.
    StepTooLarge,
    /// 36: over one percent or permille mark in a subpattern, or the two subpatterns differ in it.
    Marks,
    /// 40: symbol record: unknown kind, body cut short, or symbol twice.
    SymbolRecord,
    /// 41: symbol record: body not one UTF-8 code point, an ASCII digit, or minimum grouping digits not 01 to 04.
    SymbolBody,
    /// 50: printing a number with an exponent.
    PrintExponent,
    /// 51: text longer than the output area.
    AreaTooSmall {
        /// The text's length.
        needed: usize,
    },
}

/// The operands that tell an admitted number, in the order by which the check takes the least.
#[derive(Clone, Copy, Debug, PartialEq, Eq, PartialOrd, Ord)]
pub struct Least {
    /// Exponent.
    pub e: u32,
    /// Count of visible fraction digits.
    pub v: u32,
    /// Integer part.
    pub i: u64,
    /// Value of the visible fraction digits.
    pub f: u64,
}

impl Refusal {
    /// The refusal of a number and figures that a function of [`raw`](crate::raw) returned; `None` where no row of the table has that number.
    ///
    /// ```
    /// use okwazibelu::{Refusal, raw};
    ///
    /// let mut figures = [0; 8];
    /// let number = raw::check(b"one n", &mut figures);
    /// assert_eq!(Refusal::of(number, &figures), Some(Refusal::PackGrammar(4)));
    /// ```
    pub fn of(number: u32, figures: &Figures) -> Option<Refusal> {
        let place = figures[1] as usize;
        Some(match number {
            10 => Refusal::NumberTooLong,
            11 => Refusal::NumberGrammar,
            12 => Refusal::ExponentAbove14,
            13 => Refusal::ExponentAfterZero,
            14 => Refusal::IntegerDigits,
            15 => Refusal::FractionDigits,
            20 => Refusal::PackTooLong,
            21 => Refusal::PackGrammar(place),
            22 => Refusal::ValueAbove999999(place),
            23 => Refusal::ModulusNotListed(place),
            24 => Refusal::RangeReversed(place),
            25 => Refusal::Keyword(place),
            26 => Refusal::TooMany(place),
            27 => Refusal::pair(figures),
            30 => Refusal::PatternTooLong,
            31 => Refusal::PatternNotUtf8,
            32 => Refusal::PatternReserved,
            33 => Refusal::PatternGrammar,
            34 => Refusal::TooManyPlaces,
            35 => Refusal::StepTooLarge,
            36 => Refusal::Marks,
            40 => Refusal::SymbolRecord,
            41 => Refusal::SymbolBody,
            50 => Refusal::PrintExponent,
            51 => Refusal::AreaTooSmall {
                needed: figures[1] as usize,
            },
            _ => return None,
        })
    }

    /// Refusal 27: a pair of rules, from the check with a number.
    fn pair(figures: &Figures) -> Refusal {
        let (first, second) = (figures[1] as usize, figures[2] as usize);
        if figures[0] == 2 {
            return Refusal::TwoRulesMet { first, second };
        }
        let least = Least {
            e: figures[3] as u32,
            v: figures[4] as u32,
            i: figures[5],
            f: figures[6],
        };
        Refusal::Clash {
            first,
            second,
            least,
        }
    }

    /// The number of the table's row.
    pub fn number(&self) -> u32 {
        self.row().0
    }

    /// The table's words for when the refusal is given.
    pub fn reason(&self) -> &'static str {
        self.row().1
    }

    fn row(&self) -> (u32, &'static str) {
        match self {
            Refusal::NumberTooLong => (10, "number over 64 bytes"),
            Refusal::NumberGrammar => (11, "not the number grammar"),
            Refusal::ExponentAbove14 => (12, "exponent above 14"),
            Refusal::ExponentAfterZero => (13, "exponent after a zero integer part"),
            Refusal::IntegerDigits => (14, "i, leading zeros dropped, has over 15 digits"),
            Refusal::FractionDigits => (15, "v above 9"),
            Refusal::PackTooLong => (20, "pack over 4,096 bytes"),
            Refusal::PackGrammar(_) => (21, "not the pack grammar"),
            Refusal::ValueAbove999999(_) => (22, "relation value above 999,999"),
            Refusal::ModulusNotListed(_) => (23, "modulus not listed"),
            Refusal::RangeReversed(_) => (24, "range a..b with a above b"),
            Refusal::Keyword(_) => (25, "keyword unknown or repeated"),
            Refusal::TooMany(_) => (26, "clause, relation or range too many"),
            Refusal::TwoRulesMet { .. } | Refusal::Clash { .. } => (27, "two rules met"),
            Refusal::PatternTooLong => (30, "pattern over 256 bytes"),
            Refusal::PatternNotUtf8 => (31, "pattern not UTF-8"),
            Refusal::PatternReserved => (32, "bare ¤, *, @, or E after a number-part byte"),
            Refusal::PatternGrammar => (33, "not the pattern grammar, or a quote left open"),
            Refusal::TooManyPlaces => (34, "over 15 integer or 9 fraction places"),
            Refusal::StepTooLarge => (35, "step above 999,999 units of the last place"),
            Refusal::Marks => (
                36,
                "over one percent or permille mark in a subpattern, or the two subpatterns differ in it",
            ),
            Refusal::SymbolRecord => (
                40,
                "symbol record: unknown kind, body cut short, or symbol twice",
            ),
            Refusal::SymbolBody => (
                41,
                "symbol record: body not one UTF-8 code point, an ASCII digit, or minimum not 01 to 04",
            ),
            Refusal::PrintExponent => (50, "printing a number with an exponent"),
            Refusal::AreaTooSmall { .. } => (51, "text longer than the output area"),
        }
    }

    /// What the row returns besides its number, in the table's order.
    pub fn figures(&self) -> Vec<u64> {
        match *self {
            Refusal::TwoRulesMet { first, second } => vec![first as u64, second as u64],
            Refusal::Clash {
                first,
                second,
                least: Least { e, v, i, f },
            } => vec![first as u64, second as u64, e.into(), v.into(), i, f],
            Refusal::AreaTooSmall { needed } => vec![needed as u64],
            _ => self.place().map(|place| place as u64).into_iter().collect(),
        }
    }

    /// The byte of the pack that the refusal points at, if it points at one.
    pub fn place(&self) -> Option<usize> {
        match *self {
            Refusal::PackGrammar(place)
            | Refusal::ValueAbove999999(place)
            | Refusal::ModulusNotListed(place)
            | Refusal::RangeReversed(place)
            | Refusal::Keyword(place)
            | Refusal::TooMany(place) => Some(place),
            _ => None,
        }
    }
}

impl fmt::Display for Refusal {
    fn fmt(&self, out: &mut fmt::Formatter) -> fmt::Result {
        let (number, reason) = self.row();
        write!(out, "refusal {number}")?;
        if let Some(place) = self.place() {
            write!(out, " at byte {place}")?;
        }
        write!(out, ": {reason}")?;
        match self {
            Refusal::TwoRulesMet { first, second } => write!(out, ", {first} and {second}"),
            Refusal::Clash {
                first,
                second,
                least: Least { e, v, i, f },
            } => write!(
                out,
                ", {first} and {second}, by e = {e}, v = {v}, i = {i}, f = {f}"
            ),
            Refusal::AreaTooSmall { needed } => write!(out, ", {needed} bytes needed"),
            _ => Ok(()),
        }
    }
}

impl std::error::Error for Refusal {}
