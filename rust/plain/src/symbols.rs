//! Reading a symbol record.

use crate::Refusal;

/// A locale symbol; the discriminants are places in a record's table.
#[derive(Clone, Copy, Debug, PartialEq, Eq)]
pub(crate) enum Symbol {
    Decimal,
    Group,
    Minus,
    Plus,
    Percent,
    Permille,
}

/// What a record says: the six symbols to print with, and how long an integer must be for groups.
pub(crate) struct Symbols {
    symbols: [char; 6],
    /// Minimum grouping digits: how many digits, besides those of the primary group, it takes for groups to be printed.
    pub minimum_grouping: usize,
}

impl Symbols {
    pub fn get(&self, symbol: Symbol) -> char {
        self.symbols[symbol as usize]
    }
}

/// The symbols of the standard record.
const STANDARD: [char; 6] = ['.', ',', '-', '+', '%', '‰'];
/// The minimum grouping digits where a record has none.
const STANDARD_MINIMUM: usize = 1;

/// Reads a record; what it lacks is taken from the standard record. Refusals 40 and 41.
pub(crate) fn read_symbols(record: &[u8]) -> Result<Symbols, Refusal> {
    let [bodies @ .., minimum] = split(record).ok_or(Refusal::SymbolRecord)?;
    let mut symbols = STANDARD;
    for (symbol, body) in symbols.iter_mut().zip(bodies) {
        if let Some(body) = body {
            *symbol = code_point(body).ok_or(Refusal::SymbolBody)?;
        }
    }
    let minimum_grouping = match minimum {
        Some(body) => minimum_grouping(body).ok_or(Refusal::SymbolBody)?,
        None => STANDARD_MINIMUM,
    };
    Ok(Symbols {
        symbols,
        minimum_grouping,
    })
}

/// The bodies of the six symbols, then of the minimum grouping digits; `None` for an unknown kind, a body cut short or a kind twice.
fn split(record: &[u8]) -> Option<[Option<&[u8]>; 7]> {
    let mut bodies = [None; 7];
    let mut rest = record;
    while let [kind, after @ ..] = rest {
        let (place, length) = place_and_length(*kind)?;
        let (body, after) = after.split_at_checked(length)?;
        if bodies[place].replace(body).is_some() {
            return None;
        }
        rest = after;
    }
    Some(bodies)
}

/// The place among the bodies and the body's length that a kind byte tells by its upper and lower half.
fn place_and_length(kind: u8) -> Option<(usize, usize)> {
    let (upper, lower) = (usize::from(kind >> 4), usize::from(kind & 15));
    matches!((upper, lower), (1..=6, 1..=4) | (7, 1)).then(|| (upper - 1, lower))
}

/// The one code point of a body, if it is one and no ASCII digit.
fn code_point(body: &[u8]) -> Option<char> {
    let mut chars = std::str::from_utf8(body).ok()?.chars();
    match (chars.next(), chars.next()) {
        (Some(symbol), None) if !symbol.is_ascii_digit() => Some(symbol),
        _ => None,
    }
}

/// The number that a body is, if it is 1 to 4: a byte's value, not a character.
fn minimum_grouping(body: &[u8]) -> Option<usize> {
    match *body {
        [value @ 1..=4] => Some(value.into()),
        _ => None,
    }
}
