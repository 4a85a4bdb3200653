//! The refusals of document 01's table.

/// A row of the table with its figures; places are byte offsets into the pack.
#[derive(Clone, Copy, Debug, PartialEq, Eq)]
#[allow(missing_docs)]
pub enum Refusal {
    /// 10: number over 64 bytes.
    NumberTooLong,
    /// 11: not the number grammar.
    NumberGrammar,
    /// 12: exponent above 14.
    ExponentTooLarge,
    /// 13: exponent after a zero integer part.
    ExponentAfterZero,
    /// 14: i, leading zeros dropped, has over 15 digits.
    TooManyIntegerDigits,
    /// 15: v above 9.
    TooManyFractionDigits,
    /// 20: pack over 4,096 bytes.
    PackTooLong,
    /// 21: not the pack grammar; the first place no well-formed pack could go on from.
    PackGrammar(usize),
    /// 22: relation value above 999,999; its start.
    ValueTooLarge(usize),
    /// 23: modulus not listed; its start.
    ModulusNotListed(usize),
    /// 24: a range `a..b` with a above b; start of b.
    RangeReversed(usize),
    /// 25: keyword unknown or repeated; its start.
    Keyword(usize),
    /// 26: clause, relation or range too many; its start.
    TooMany(usize),
    /// 27 from a selection: the number meets two rules, these first; rules are counted from 1.
    TwoRulesMet { first: usize, second: usize },
    /// 27 from the check: two rules share an admitted number, of which this is the least.
    Clash {
        first: usize,
        second: usize,
        e: u32,
        v: u32,
        i: u64,
        f: u64,
    },
    /// 30: pattern over 256 bytes.
    PatternTooLong,
    /// 31: pattern not UTF-8.
    PatternNotUtf8,
    /// 32: bare `¤`, `*`, `@`, or `E` after a number-part byte.
    PatternReserved,
    /// 33: not the pattern grammar, quote left open.
    PatternGrammar,
    /// 34: over 15 integer or 9 fraction places.
    TooManyPlaces,
    /// 35: step above 999,999 units of the last place.
    StepTooLarge,
    /// 36: over one percent or permille mark in a subpattern, or the two subpatterns differ in it.
    Marks,
    /// 40: unknown kind, body cut short, symbol twice.
    SymbolRecord,
    /// 41: body not one UTF-8 code point, or an ASCII digit; minimum grouping digits not 1 to 4.
    SymbolBody,
    /// 50: printing a number with an exponent.
    PrintExponent,
    /// 51: text longer than the output area; the bytes needed.
    AreaTooSmall(usize),
}

impl Refusal {
    /// The number of the table's row.
    pub fn number(&self) -> u32 {
        match self {
            Refusal::NumberTooLong => 10,
            Refusal::NumberGrammar => 11,
            Refusal::ExponentTooLarge => 12,
            Refusal::ExponentAfterZero => 13,
            Refusal::TooManyIntegerDigits => 14,
            Refusal::TooManyFractionDigits => 15,
            Refusal::PackTooLong => 20,
            Refusal::PackGrammar(_) => 21,
            Refusal::ValueTooLarge(_) => 22,
            Refusal::ModulusNotListed(_) => 23,
            Refusal::RangeReversed(_) => 24,
            Refusal::Keyword(_) => 25,
            Refusal::TooMany(_) => 26,
            Refusal::TwoRulesMet { .. } | Refusal::Clash { .. } => 27,
            Refusal::PatternTooLong => 30,
            Refusal::PatternNotUtf8 => 31,
            Refusal::PatternReserved => 32,
            Refusal::PatternGrammar => 33,
            Refusal::TooManyPlaces => 34,
            Refusal::StepTooLarge => 35,
            Refusal::Marks => 36,
            Refusal::SymbolRecord => 40,
            Refusal::SymbolBody => 41,
            Refusal::PrintExponent => 50,
            Refusal::AreaTooSmall(_) => 51,
        }
    }

    /// What the row returns besides its number.
    pub fn figures(&self) -> Vec<u64> {
        match *self {
            Refusal::PackGrammar(place)
            | Refusal::ValueTooLarge(place)
            | Refusal::ModulusNotListed(place)
            | Refusal::RangeReversed(place)
            | Refusal::Keyword(place)
            | Refusal::TooMany(place) => vec![place as u64],
            Refusal::TwoRulesMet { first, second } => vec![first as u64, second as u64],
            Refusal::Clash {
                first,
                second,
                e,
                v,
                i,
                f,
            } => vec![first as u64, second as u64, e.into(), v.into(), i, f],
            Refusal::AreaTooSmall(needed) => vec![needed as u64],
            _ => Vec::new(),
        }
    }
}
