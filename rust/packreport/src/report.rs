//! The texts of the report.

use crate::place::{Place, line_of};
use okwazibelu::{Least, Refusal, read_number};

/// A rule as written: where its text begins and the text without white space around it, runs of it inside as one space.
struct WrittenRule {
    line: usize,
    last_line: usize,
    text: String,
}

impl WrittenRule {
    fn keyword(&self) -> &str {
        self.text.split(':').next().unwrap_or_default().trim_end()
    }

    fn lines(&self) -> String {
        if self.line == self.last_line {
            format!("line {}", self.line)
        } else {
            format!("lines {} to {}", self.line, self.last_line)
        }
    }
}

/// The report on a passed pack.
pub fn passed(pack: &[u8]) -> String {
    let rules = rules(pack);
    let keywords: Vec<&str> = rules.iter().map(WrittenRule::keyword).collect();
    let count = match rules.len() {
        1 => "1 rule".to_string(),
        count => format!("{count} rules"),
    };
    format!(
        "passed: {count} ({}); no admitted number meets two of them\n",
        keywords.join(", ")
    )
}

/// The report on a refused pack, read from the file of that name.
pub fn refused(name: &str, pack: &[u8], refusal: Refusal) -> String {
    match refusal {
        Refusal::Clash {
            first,
            second,
            least,
        } => clash(name, pack, (first, second), least),
        Refusal::PackTooLong => {
            format!(
                "{refusal}\n --> {name}\n  the file has {} bytes\n",
                pack.len()
            )
        }
        _ => fault(name, pack, refusal),
    }
}

/// A refusal with the place it points at.
fn fault(name: &str, pack: &[u8], refusal: Refusal) -> String {
    let byte = refusal.place().unwrap_or(0);
    let place = Place::new(pack, byte);
    let (line, column) = (place.line, place.column);
    let end = if byte == pack.len() {
        ", the end of the pack"
    } else {
        ""
    };
    format!(
        "refusal {} at byte {byte}{end} (line {line}, column {column}): {}\n --> {name}:{line}:{column}\n{}{}",
        refusal.number(),
        refusal.reason(),
        place.excerpt(),
        note(refusal, byte == pack.len())
    )
}

/// What would have been right, in a line of its own.
fn note(refusal: Refusal, at_end: bool) -> &'static str {
    match refusal {
        Refusal::PackGrammar(_) if at_end => "note: no well-formed pack ends here\n",
        Refusal::PackGrammar(_) => "note: no well-formed pack has this here\n",
        Refusal::ModulusNotListed(_) => {
            "note: a modulus is 10, 100, 1000, 10000, 100000 or 1000000\n"
        }
        Refusal::Keyword(_) => {
            "note: keywords are zero, one, two, few, many and other, each once\n"
        }
        Refusal::TooMany(_) => {
            "note: at most 8 clauses in a rule, 8 relations in a clause, 16 values or ranges in a relation\n"
        }
        _ => "",
    }
}

/// Two rules that share a number, and the least they share.
fn clash(name: &str, pack: &[u8], (first, second): (usize, usize), least: Least) -> String {
    let rules = rules(pack);
    let (one, two) = (&rules[first - 1], &rules[second - 1]);
    let Least { e, v, i, f } = least;
    format!(
        "refusal 27: two rules met\n --> {name}:{}\n  rule {first} ({}): {}\n  rule {second} ({}): {}\n\
         the least number that meets both is {} (e = {e}, v = {v}, i = {i}, f = {f}):\n\
         \x20 it would be `{}` by rule {first} and `{}` by rule {second}\n",
        one.line,
        one.lines(),
        one.text,
        two.lines(),
        two.text,
        number_text(least),
        one.keyword(),
        two.keyword()
    )
}

/// The rules of a well-formed pack.
fn rules(pack: &[u8]) -> Vec<WrittenRule> {
    let mut start = 0;
    let mut rules = Vec::new();
    for part in String::from_utf8_lossy(pack).split(';') {
        let front = part.len() - part.trim_start_matches(is_white_space).len();
        let back = part.trim_end_matches(is_white_space).len();
        rules.push(WrittenRule {
            line: line_of(pack, start + front),
            last_line: line_of(pack, start + back),
            text: single_spaced(part),
        });
        start += part.len() + 1;
    }
    rules
}

fn single_spaced(text: &str) -> String {
    let words: Vec<&str> = text
        .split(is_white_space)
        .filter(|word| !word.is_empty())
        .collect();
    words.join(" ")
}

/// The eleven white-space code points of a pack.
fn is_white_space(character: char) -> bool {
    matches!(
        character,
        '\t'..='\r' | ' ' | '\u{85}' | '\u{200E}' | '\u{200F}' | '\u{2028}' | '\u{2029}'
    )
}

/// A text that reads to these operands.
fn number_text(least: Least) -> String {
    let Least { e, v, i, f } = least;
    let integer = i.to_string();
    let (head, shifted) = integer.split_at(integer.len() - e as usize);
    let fraction = match v {
        // Without visible digits after the shift, zeros at the end are not needed.
        0 => shifted.trim_end_matches('0').to_string(),
        _ => format!("{shifted}{f:0width$}", width = v as usize),
    };
    let mut text = head.to_string();
    if !fraction.is_empty() {
        text = text + "." + &fraction;
    }
    if e > 0 {
        text += &format!("c{e}");
    }
    let read = read_number(text.as_bytes()).expect("the text of an admitted number is read");
    assert_eq!(
        (read.e, read.v, read.i, read.f),
        (e, v, i, f),
        "{text} reads to the operands it was made from"
    );
    text
}

#[cfg(test)]
mod tests {
    use super::{Least, number_text};

    #[test]
    fn texts_of_numbers() {
        for (e, v, i, f, text) in [
            (0, 0, 0, 0, "0"),
            (0, 1, 1, 2, "1.2"),
            (0, 2, 0, 50, "0.50"),
            (0, 3, 7, 5, "7.005"),
            (6, 0, 1_000_000, 0, "1c6"),
            (6, 0, 1_200_000, 0, "1.2c6"),
            (3, 2, 1200, 50, "1.20050c3"),
            (1, 1, 10, 0, "1.00c1"),
            (0, 9, 999_999_999_999_999, 1, "999999999999999.000000001"),
            (
                14,
                9,
                100_000_000_000_000,
                5,
                "1.00000000000000000000005c14",
            ),
        ] {
            assert_eq!(number_text(Least { e, v, i, f }), text);
        }
    }
}
