//! Printing a number through a pattern.

use crate::pattern::{Affixes, NumberPart, Pattern, Piece, read_pattern};
use crate::symbols::{Symbol, Symbols, read_symbols};
use crate::{Number, Refusal, read_number};

/// Fraction digits in which every admitted number and every permitted value is a whole number of units.
const PLACES: u32 = 9;

/// Prints a number at the front of the area and returns the text's length.
///
/// Tests the symbols, the pattern, the number, then refusals 50 and 51; a refusal leaves the area as it was.
pub fn print(
    symbols: &[u8],
    pattern: &[u8],
    number: &[u8],
    area: &mut [u8],
) -> Result<usize, Refusal> {
    let symbols = read_symbols(symbols)?;
    let pattern = read_pattern(pattern)?;
    let number = read_number(number)?;
    if number.e > 0 {
        return Err(Refusal::PrintExponent);
    }
    let text = format(&symbols, &pattern, &number);
    match area.get_mut(..text.len()) {
        Some(front) => front.copy_from_slice(text.as_bytes()),
        None => return Err(Refusal::AreaTooSmall(text.len())),
    }
    Ok(text.len())
}

fn format(symbols: &Symbols, pattern: &Pattern, number: &Number) -> String {
    let mut text = String::with_capacity(64);
    let affixes = match &pattern.negative {
        Some(negative) if number.negative => negative,
        _ => &pattern.positive,
    };
    if number.negative && pattern.negative.is_none() {
        text.push(symbols.get(Symbol::Minus));
    }
    let Affixes { prefix, suffix } = affixes;
    push_pieces(&mut text, symbols, prefix);
    push_number(
        &mut text,
        symbols,
        &pattern.number,
        rounded(pattern, number),
    );
    push_pieces(&mut text, symbols, suffix);
    text
}

/// The permitted value nearest to the number, ties to the even multiple of the step, in units of the pattern's last place.
fn rounded(pattern: &Pattern, number: &Number) -> u128 {
    let exact = u128::from(number.i) * 10u128.pow(PLACES)
        + u128::from(number.f) * 10u128.pow(PLACES - number.v);
    let exact = exact * pattern.factor;
    let part = &pattern.number;
    let step = part.step * 10u128.pow(PLACES - part.most_fraction as u32);
    let (multiple, rest) = (exact / step, exact % step);
    let up = rest * 2 > step || rest * 2 == step && multiple % 2 == 1;
    (multiple + u128::from(up)) * part.step
}

fn push_pieces(text: &mut String, symbols: &Symbols, pieces: &[Piece]) {
    text.extend(pieces.iter().map(|piece| match *piece {
        Piece::Text(char) => char,
        Piece::Symbol(symbol) => symbols.get(symbol),
    }));
}

/// Prints a value given in units of the last fraction place.
fn push_number(text: &mut String, symbols: &Symbols, part: &NumberPart, value: u128) {
    let unit = 10u128.pow(part.most_fraction as u32);
    push_integer(text, symbols, part, value / unit);
    let digits = format!("{:0width$}", value % unit, width = part.most_fraction);
    let significant = digits.trim_end_matches('0').len();
    // With no fraction places the text is "0", of which nothing is printed.
    let count = significant.max(part.least_fraction).min(part.most_fraction);
    if count > 0 {
        text.push(symbols.get(Symbol::Decimal));
        text.push_str(&digits[..count]);
    }
}

/// Prints the integer digits, grouped if they, added zeros included, are at least the primary group and the minimum grouping digits together.
fn push_integer(text: &mut String, symbols: &Symbols, part: &NumberPart, value: u128) {
    if value == 0 && part.least_integer == 0 {
        return;
    }
    let digits = format!("{value:0width$}", width = part.least_integer);
    let groups = part
        .groups
        .filter(|(primary, _)| digits.len() >= primary + symbols.minimum_grouping);
    for (place, digit) in digits.chars().enumerate() {
        let left = digits.len() - place;
        if place > 0 && groups.is_some_and(|groups| ends_group(groups, left)) {
            text.push(symbols.get(Symbol::Group));
        }
        text.push(digit);
    }
}

/// Whether a group ends where so many digits are left.
fn ends_group((primary, secondary): (usize, usize), left: usize) -> bool {
    left >= primary && (left - primary).is_multiple_of(secondary)
}
