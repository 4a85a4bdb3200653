//! Symbol records.

use super::damage;
use crate::Random;

/// Upper half of the kind whose body is the minimum grouping digits.
const MINIMUM: u8 = 7;

/// A symbol record: empty at times, mostly well-formed, at times with a fault or damaged.
pub fn symbols(random: &mut Random) -> Vec<u8> {
    if random.once_in(4) {
        return Vec::new();
    }
    let mut kinds = [1, 2, 3, 4, 5, 6, MINIMUM];
    random.shuffle(&mut kinds);
    let mut record = Vec::new();
    for &kind in &kinds[..random.between(0, 7)] {
        push_entry(random, &mut record, kind);
    }
    if random.once_in(25) {
        // Mostly a kind twice.
        let kind = random.between(1, 7) as u8;
        push_entry(random, &mut record, kind);
    }
    if random.once_in(80) {
        // A body cut short.
        record.push(MINIMUM << 4 | 1);
    }
    if random.once_in(15) {
        let other = b"\x71\x02\x11.\x21,\x31-\x71\x03\x63\xE2\x80\xB0";
        damage(random, &mut record, other);
    }
    record
}

fn push_entry(random: &mut Random, record: &mut Vec<u8>, kind: u8) {
    match kind {
        MINIMUM => push_minimum(random, record),
        _ => push_symbol(random, record, kind),
    }
}

/// Minimum grouping digits: mostly 1 to 4, at times another byte, or a longer body, for which there is no kind.
fn push_minimum(random: &mut Random, record: &mut Vec<u8>) {
    let minimum = random.between(1, 4) as u8;
    let body = match random.below(60) {
        0 => vec![random.one_of(&[
            0, 5, 6, 7, 8, b'0', b'1', b'2', b'4', b'a', 0x7F, 0x80, 0xFF,
        ])],
        1 => vec![random.bits() as u8],
        2 => vec![minimum; random.between(2, 4)],
        _ => vec![minimum],
    };
    record.push(MINIMUM << 4 | body.len() as u8);
    record.extend(body);
}

fn push_symbol(random: &mut Random, record: &mut Vec<u8>, kind: u8) {
    let body: &[u8] = if random.once_in(60) {
        bad_body(random)
    } else {
        body(random).as_bytes()
    };
    record.push(kind << 4 | body.len() as u8);
    record.extend_from_slice(body);
}

fn body(random: &mut Random) -> &'static str {
    random.one_of(&[
        ".",
        ",",
        " ",
        "'",
        "-",
        "+",
        "\0",
        "a",
        "/",
        ":",
        "\u{7F}",
        "\u{80}",
        "\u{A0}",
        "٫",
        "٬",
        "\u{7FF}",
        "\u{800}",
        "\u{202F}",
        "−",
        "’",
        "٪",
        "\u{D7FF}",
        "\u{E000}",
        "\u{FFFD}",
        "\u{FFFF}",
        "\u{10000}",
        "\u{1F600}",
        "\u{10FFFF}",
    ])
}

fn bad_body(random: &mut Random) -> &'static [u8] {
    let bodies: [&[u8]; 14] = [
        b"0",
        b"9",
        b"\x80",
        b"\xFF",
        b"ab",
        b"\xC0\x80",
        b"\xC1\xBF",
        b"\xE0\x9F\xBF",
        b"\xED\xA0\x80",
        b"\xED\xBF\xBF",
        b"\xF0\x8F\xBF\xBF",
        b"\xF4\x90\x80\x80",
        b"\xC2\xA0\xC2\xA0",
        b"\xE2\x80\x28",
    ];
    random.one_of(&bodies)
}
