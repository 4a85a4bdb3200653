//! Reading a number pattern.

use crate::Refusal;
use crate::symbols::Symbol;

const MAX_BYTES: usize = 256;
const MAX_INTEGER_PLACES: usize = 15;
const MAX_FRACTION_PLACES: usize = 9;
const MAX_STEP: u128 = 999_999;

/// A piece of an affix.
#[derive(Clone, Copy, Debug, PartialEq, Eq)]
pub(crate) enum Piece {
    Text(char),
    Symbol(Symbol),
}

/// What stands before and behind the number.
#[derive(Debug)]
pub(crate) struct Affixes {
    pub prefix: Vec<Piece>,
    pub suffix: Vec<Piece>,
}

/// The number part of a subpattern.
#[derive(Debug)]
pub(crate) struct NumberPart {
    integer_places: usize,
    pub least_integer: usize,
    pub least_fraction: usize,
    pub most_fraction: usize,
    /// Sizes of the primary and secondary group, if the pattern has groups.
    pub groups: Option<(usize, usize)>,
    /// Rounding increment in units of the last fraction place, at least 1.
    pub step: u128,
}

/// A read pattern.
#[derive(Debug)]
pub(crate) struct Pattern {
    pub positive: Affixes,
    pub negative: Option<Affixes>,
    pub number: NumberPart,
    /// What the number is multiplied by: 1, 100 or 1000.
    pub factor: u128,
}

/// A character with whether quotes make it plain text.
#[derive(Clone, Copy)]
struct Item {
    char: char,
    quoted: bool,
}

impl Item {
    fn is_bare(self, char: char) -> bool {
        !self.quoted && self.char == char
    }

    fn is_number_part(self) -> bool {
        !self.quoted && matches!(self.char, '0'..='9' | '#' | '.' | ',')
    }
}

struct Subpattern {
    affixes: Affixes,
    number: NumberPart,
}

/// Reads a pattern; refusals 30 to 36, the lowest over both subpatterns.
pub(crate) fn read_pattern(text: &[u8]) -> Result<Pattern, Refusal> {
    if text.len() > MAX_BYTES {
        return Err(Refusal::PatternTooLong);
    }
    let text = std::str::from_utf8(text).map_err(|_| Refusal::PatternNotUtf8)?;
    let (items, closed) = items(text);
    if has_reserved(&items) {
        return Err(Refusal::PatternReserved);
    }
    if !closed {
        return Err(Refusal::PatternGrammar);
    }
    let subpatterns = items
        .split(|item| item.is_bare(';'))
        .map(subpattern)
        .collect::<Option<Vec<_>>>()
        .ok_or(Refusal::PatternGrammar)?;
    let mut subpatterns = subpatterns.into_iter();
    let (Some(positive), negative, None) =
        (subpatterns.next(), subpatterns.next(), subpatterns.next())
    else {
        return Err(Refusal::PatternGrammar);
    };
    combine(positive, negative)
}

/// Takes the quotes out of a pattern; also whether the last one is closed.
fn items(text: &str) -> (Vec<Item>, bool) {
    let mut items = Vec::with_capacity(text.len());
    let mut quoted = false;
    let mut chars = text.chars().peekable();
    while let Some(char) = chars.next() {
        if char != '\'' {
            items.push(Item { char, quoted });
        } else if chars.next_if_eq(&'\'').is_some() {
            items.push(Item { char, quoted: true });
        } else {
            quoted = !quoted;
        }
    }
    (items, !quoted)
}

/// Whether a bare `¤`, `*` or `@` stands anywhere, or an `E` directly after a number-part byte.
fn has_reserved(items: &[Item]) -> bool {
    // A quotation is never empty, so neighbours here are neighbours in the text.
    let exponent = items
        .windows(2)
        .any(|pair| pair[0].is_number_part() && pair[1].is_bare('E'));
    exponent
        || items
            .iter()
            .any(|item| !item.quoted && matches!(item.char, '¤' | '*' | '@'))
}

fn subpattern(items: &[Item]) -> Option<Subpattern> {
    let start = items.iter().position(|item| item.is_number_part())?;
    let (prefix, rest) = items.split_at(start);
    let length = rest.iter().take_while(|item| item.is_number_part()).count();
    let (number, suffix) = rest.split_at(length);
    if suffix.iter().any(|item| item.is_number_part()) {
        return None;
    }
    Some(Subpattern {
        affixes: Affixes {
            prefix: pieces(prefix),
            suffix: pieces(suffix),
        },
        number: number_part(number)?,
    })
}

fn pieces(items: &[Item]) -> Vec<Piece> {
    items.iter().map(|&item| piece(item)).collect()
}

fn piece(item: Item) -> Piece {
    match item.char {
        '%' if !item.quoted => Piece::Symbol(Symbol::Percent),
        '‰' if !item.quoted => Piece::Symbol(Symbol::Permille),
        '+' if !item.quoted => Piece::Symbol(Symbol::Plus),
        '-' if !item.quoted => Piece::Symbol(Symbol::Minus),
        char => Piece::Text(char),
    }
}

fn number_part(items: &[Item]) -> Option<NumberPart> {
    let mut sides = items.split(|item| item.char == '.');
    let integer = sides.next()?;
    let fraction = sides.next().unwrap_or(&[]);
    if sides.next().is_some() || fraction.iter().any(|item| item.char == ',') {
        return None;
    }
    let groups = groups(integer)?;
    let integer_places = groups.iter().sum();
    let digits = |side: &[Item]| side.iter().filter(|i| i.char.is_ascii_digit()).count();
    let (least_integer, least_fraction) = (digits(integer), digits(fraction));
    let well_formed = is_hashes_then_digits(integer.iter())
        && is_hashes_then_digits(fraction.iter().rev())
        && least_integer + least_fraction > 0;
    well_formed.then(|| NumberPart {
        integer_places,
        least_integer,
        least_fraction,
        most_fraction: fraction.len(),
        groups: match groups[..] {
            [_] => None,
            [_, primary] => Some((primary, primary)),
            [.., secondary, primary] => Some((primary, secondary)),
            [] => unreachable!("a split has a part"),
        },
        step: step(items),
    })
}

/// The sizes of the integer's groups, if its commas stand between places; a side without places has one empty group.
fn groups(integer: &[Item]) -> Option<Vec<usize>> {
    let sizes: Vec<usize> = integer
        .split(|item| item.char == ',')
        .map(<[Item]>::len)
        .collect();
    (sizes.len() == 1 || !sizes.contains(&0)).then_some(sizes)
}

/// Whether no `#` follows a digit; commas play no part.
fn is_hashes_then_digits<'a>(side: impl Iterator<Item = &'a Item>) -> bool {
    side.filter(|item| item.char != ',')
        .map(|item| item.char)
        .skip_while(|&char| char == '#')
        .all(|char| char.is_ascii_digit())
}

/// The number part read as a number with `#` as 0, in units of its last place; 1 if that is 0.
fn step(items: &[Item]) -> u128 {
    let value = items
        .iter()
        .filter(|item| !matches!(item.char, '.' | ','))
        .fold(0u128, |sum, item| {
            let digit = item.char.to_digit(10).unwrap_or(0);
            sum.saturating_mul(10).saturating_add(digit.into())
        });
    value.max(1)
}

/// Judges the sizes and marks of both subpatterns.
fn combine(positive: Subpattern, negative: Option<Subpattern>) -> Result<Pattern, Refusal> {
    let both = || [Some(&positive), negative.as_ref()].into_iter().flatten();
    if both().any(|sub| {
        sub.number.integer_places > MAX_INTEGER_PLACES
            || sub.number.most_fraction > MAX_FRACTION_PLACES
    }) {
        return Err(Refusal::TooManyPlaces);
    }
    if both().any(|sub| sub.number.step > MAX_STEP) {
        return Err(Refusal::StepTooLarge);
    }
    let mark = mark(&positive.affixes)?;
    if let Some(negative) = &negative
        && self::mark(&negative.affixes)? != mark
    {
        return Err(Refusal::Marks);
    }
    Ok(Pattern {
        positive: positive.affixes,
        negative: negative.map(|negative| negative.affixes),
        number: positive.number,
        factor: match mark {
            Some(Symbol::Percent) => 100,
            Some(_) => 1000,
            None => 1,
        },
    })
}

/// The percent or permille mark of a subpattern; refusal 36 for a second one.
fn mark(affixes: &Affixes) -> Result<Option<Symbol>, Refusal> {
    let mut marks = affixes
        .prefix
        .iter()
        .chain(&affixes.suffix)
        .filter_map(|piece| match piece {
            Piece::Symbol(mark @ (Symbol::Percent | Symbol::Permille)) => Some(*mark),
            _ => None,
        });
    match (marks.next(), marks.next()) {
        (mark, None) => Ok(mark),
        (_, Some(_)) => Err(Refusal::Marks),
    }
}
