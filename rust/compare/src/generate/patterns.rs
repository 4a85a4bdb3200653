//! Number patterns.

use super::damage;
use crate::Random;

/// A pattern of any kind: well-formed, with a fault, near 256 bytes, or damaged.
pub fn pattern(random: &mut Random) -> Vec<u8> {
    let mut text = match random.below(8) {
        0 => known(random).to_string(),
        _ => subpatterns(random),
    };
    if random.once_in(12) {
        fill(random, &mut text);
    }
    let mut text = text.into_bytes();
    if random.once_in(6) {
        let other = subpatterns(random).into_bytes();
        damage(random, &mut text, &other);
    }
    text
}

fn known(random: &mut Random) -> &'static str {
    random.one_of(&[
        "0",
        "#,##0.##",
        "0.0",
        "#,##,##0.00",
        "0.65",
        "0%",
        "#,##0.###‰",
        "00000.0000",
        "0.00;(0.00)",
        "'No.' 0",
        "#.0",
        "0,000",
        "00,000",
        "000,000",
        "0,0",
        ".0",
        "0.",
        ".",
        "#",
        "#.#",
        "#,###",
        "0.00;",
        ";0",
        "0;0;0",
        "0E0",
        "0''E",
        "0'x'E",
        "'0'E0",
        "0 E",
        "E0",
        "0.E",
        "#,E",
        "0a0E",
        "0.0.0*",
        "0;*",
        "0'abc*",
        "'''0",
        "''''0",
        "0'a'''",
        "0'a'0",
        "0''0",
        "No. 0",
        "-0",
        "0;0",
        "0%;%0",
        "0%;0",
        "0%%",
        "0%‰",
        "0%%;1000000",
        "100000.0",
        "999999",
        "1000000",
        "0000000000000000#",
        "000000000000000",
        "0000000000000000",
        "0.000000000",
        "0.0000000000",
        "0;0.0000000000",
        "5",
        "#5",
        ".5",
        "0.50#",
        "12.5",
        "0.000000001",
        "999999000000000",
        "¤0",
        "@@0",
        "*x0",
        "'¤'0'*'",
        "0,",
        ",0",
        "0,,0",
        "0,.0",
        "0.0,0",
        "0#",
        "0.#0",
        "#0#",
        "",
        "'",
        "''",
        "'0'",
    ])
}

fn subpatterns(random: &mut Random) -> String {
    let mark = random.one_of(&["", "", "", "%", "‰"]);
    let mut text = subpattern(random, mark);
    if random.once_in(3) {
        let mark = if random.once_in(8) {
            random.one_of(&["", "%", "‰"])
        } else {
            mark
        };
        text = text + ";" + &subpattern(random, mark);
    }
    text
}

fn subpattern(random: &mut Random, mark: &str) -> String {
    let mut prefix = affix(random);
    let mut suffix = affix(random);
    if random.once_in(3) {
        prefix += mark;
    } else {
        suffix = mark.to_string() + &suffix;
    }
    if random.once_in(40) {
        suffix += random.one_of(&["%", "‰", "0", ".", "'", "*", "¤", "@", ";"]);
    }
    format!("{prefix}{}{suffix}", number_part(random))
}

fn affix(random: &mut Random) -> String {
    (0..random.one_of(&[0, 0, 1, 1, 2, 4]))
        .map(|_| piece(random))
        .collect()
}

fn piece(random: &mut Random) -> &'static str {
    random.one_of(&[
        "a",
        " ",
        "$",
        "(",
        ")",
        "-",
        "+",
        "km",
        "''",
        "'0.'",
        "'#,'",
        "'%'",
        "'a''b'",
        "'''x'",
        "é",
        "€",
        "₹ ",
        "\u{200E}",
        "\u{1F600}",
        " E",
        "xE",
        "\0",
        "½",
        "'\u{10FFFF}'",
        "\u{A0}",
    ])
}

/// A number part: mostly well-formed, at times a place too many or a sign out of order.
fn number_part(random: &mut Random) -> String {
    let most_integer = random.one_of(&[3, 3, 7, 15, 16]);
    let most_fraction = random.one_of(&[0, 2, 3, 9, 10]);
    let hashes = random.between(0, most_integer);
    let zeros = random.between(0, most_integer - hashes);
    let mut integer = "#".repeat(hashes) + &places(random, zeros);
    let least = random.between(0, most_fraction);
    let most = random.between(least, most_fraction);
    let mut fraction = places(random, least) + &"#".repeat(most - least);
    if zeros + least == 0 && !random.once_in(20) {
        integer.push('0');
    }
    if random.once_in(60) {
        fraction.push('0');
    }
    group(random, &mut integer);
    let point = if fraction.is_empty() && !random.once_in(20) {
        ""
    } else {
        "."
    };
    integer + point + &fraction
}

/// Digits that are mostly 0; others make a step.
fn places(random: &mut Random, count: usize) -> String {
    let pool: &[char] = random.pick(&[
        &['0'][..],
        &['0'],
        &['0', '0', '0', '5'],
        &['0', '1', '2', '5', '6', '9'],
    ]);
    (0..count).map(|_| random.one_of(pool)).collect()
}

fn group(random: &mut Random, integer: &mut String) {
    let length = integer.len();
    match random.below(5) {
        0 if length > 3 => integer.insert(length - 3, ','),
        1 if length > 5 => {
            integer.insert(length - 3, ',');
            integer.insert(length - 5, ',');
        }
        2 if length > 1 => {
            let place = random.between(1, length - 1);
            integer.insert(place, ',');
        }
        3 if length > 4 => {
            // Three groups; only the last two count.
            integer.insert(length - 1, ',');
            integer.insert(length - 3, ',');
            integer.insert(1, ',');
        }
        4 if random.once_in(10) => integer.insert(random.between(0, length), ','),
        _ => {}
    }
}

/// Fills the front with text to 255, 256 or 257 bytes.
fn fill(random: &mut Random, text: &mut String) {
    let length = random.between(255, 257);
    let missing = length.saturating_sub(text.len());
    let filling = match random.below(3) {
        0 => "x".repeat(missing),
        1 => "é".repeat(missing / 2) + &"x".repeat(missing % 2),
        _ if missing >= 3 => format!("'{}'", "0".repeat(missing - 2)),
        _ => "y".repeat(missing),
    };
    text.insert_str(0, &filling);
}
