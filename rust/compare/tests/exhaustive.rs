//! All short inputs over small alphabets, on which the proved library and the ordinary Rust must give the same answers, figures and bytes.

use compare::{published_packs, sides};

const AREA: usize = 64;

/// Calls `job` with every sequence of at most `most` parts, written one after the other.
fn sequences(parts: &[&[u8]], most: usize, job: &mut impl FnMut(&[u8])) {
    fn extend(parts: &[&[u8]], left: usize, text: &mut Vec<u8>, job: &mut impl FnMut(&[u8])) {
        job(text);
        if left == 0 {
            return;
        }
        let length = text.len();
        for part in parts {
            text.extend_from_slice(part);
            extend(parts, left - 1, text, job);
            text.truncate(length);
        }
    }
    extend(parts, most, &mut Vec::new(), job);
}

fn bytes(alphabet: &[u8]) -> Vec<&[u8]> {
    alphabet.chunks(1).collect()
}

#[test]
fn numbers() {
    sequences(&bytes(b"019.c-"), 6, &mut |text| {
        sides::read_number(text);
    });
    sequences(
        &[b"0", b"9999999", b"0000000000", b".", b"c", b"e14", b"1"],
        6,
        &mut |text| {
            sides::read_number(text);
        },
    );
}

/// Token sequences from the start of a pack, and behind a relation.
#[test]
fn packs() {
    let tokens: [&[u8]; 15] = [
        b"one ", b"other", b"n", b" and ", b"or ", b"1", b"1000000", b":", b";", b",", b"%", b"=",
        b"!=", b"..", b" ",
    ];
    sequences(&tokens, 4, &mut |text| {
        sides::select(text, b"1");
        sides::select(&[b"one:n=1", text].concat(), b"1");
        sides::select(&[b"one:n%10=3..1", text, b"5"].concat(), b"1");
    });
}

/// White space and what only looks like it, between tokens and at the end.
#[test]
fn white_space() {
    let bytes = bytes(b"\x08\x09\x0D\x0E\x1F \x80\x84\x85\x86\x8D\x8E\x8F\x90\xA0\xA7\xA8\xA9\xAA\xC2\xC3\xE2\xE3");
    sequences(&bytes, 3, &mut |text| {
        sides::select(&[b"one", text, b":n=1"].concat(), b"1");
        sides::select(&[b"one:n=1", text].concat(), b"1");
    });
}

/// A published pack with each of its bytes replaced by every other.
#[test]
fn changed_bytes() {
    let packs = published_packs();
    let pack = packs
        .iter()
        .map(|row| row.2.as_bytes())
        .max_by_key(|pack| pack.len())
        .expect("there are packs");
    for place in 0..pack.len() {
        for byte in 0..=255 {
            let mut changed = pack.to_vec();
            changed[place] = byte;
            sides::select(&changed, b"23");
        }
    }
}

/// Every pair of relations out of all operands, signs and some moduli and values.
#[test]
fn relation_pairs() {
    let mut relations = Vec::new();
    for operand in ["n", "i", "f", "t", "v", "w", "e"] {
        for modulus in ["", " % 10", " % 1000000"] {
            for values in ["0", "1", "10", "0..5", "0..999999", "50,999999"] {
                relations.push(format!("{operand}{modulus} = {values}"));
                relations.push(format!("{operand}{modulus} != {values}"));
            }
        }
    }
    for one in &relations {
        for two in &relations {
            sides::check(format!("one: {one}; two: {two}").as_bytes());
        }
    }
}

/// Patterns of single bytes, and of longer pieces with a negative subpattern.
#[test]
fn patterns() {
    sequences(&bytes(b"05#.,;'%E*"), 5, &mut |pattern| {
        sides::print([b"", pattern, b"-7.5"], AREA);
    });
    let pieces = [
        "0", "#", ",", ".", ";", "''", "'0'", "‰", "%", "-", "E", "é",
    ];
    let pieces: Vec<&[u8]> = pieces.iter().map(|piece| piece.as_bytes()).collect();
    sequences(&pieces, 4, &mut |pattern| {
        sides::print([b"", &[b"0", pattern].concat(), b"1234.5"], AREA);
        sides::print([b"", &[pattern, b"#,#0.0#"].concat(), b"-1234.55"], AREA);
    });
}

/// Bytes at the borders of UTF-8's rules.
#[test]
fn utf8() {
    let bytes = bytes(b"0\x7F\x80\x8F\x90\x9F\xA0\xBF\xC0\xC1\xC2\xDF\xE0\xE1\xEC\xED\xEE\xEF\xF0\xF1\xF3\xF4\xF5\xFF");
    sequences(&bytes, 3, &mut |text| {
        sides::print([b"", &[text, b"0"].concat(), b"1"], AREA);
        sides::print([&[b"\x13", text].concat(), b"0.0", b"1"], AREA);
    });
    for first in [b"\xF0", b"\xF1", b"\xF4", b"\xF5", b"\xEF"] {
        sequences(&bytes, 3, &mut |text| {
            if text.len() == 3 {
                sides::print([&[b"\x14", &first[..], text].concat(), b"0.0", b"1"], AREA);
            }
        });
    }
}

/// Every kind byte, with bodies of every length and every body of one byte, and records of kinds and bodies in any order.
#[test]
fn symbols() {
    for kind in 0..=255 {
        for body in 0..=255 {
            sides::print([&[kind, body], b"+0.0%;-#,##0.0%", b"-1234.5"], AREA);
        }
        for length in 0..=5 {
            let record = [&[kind][..], &"x€x".as_bytes()[..length]].concat();
            sides::print([&record, b"+0.0%;-#,##0.0%", b"-1234.5"], AREA);
        }
    }
    sequences(
        &bytes(b"\x11\x12\x21\x31\x63\x70\x71\x02\x05a0\xC2\xA0"),
        5,
        &mut |record| {
            sides::print([record, b"#,##0.0", b"-1234.5"], AREA);
        },
    );
}

/// Every body of the minimum grouping digits, alone and before and behind other entries, whole and cut short.
#[test]
fn minima() {
    let entries: [&[u8]; 11] = [
        b"",
        b"\x71",
        b"\x71\x02",
        b"\x71\x05",
        b"\x72\x02\x02",
        b"\x73",
        b"\x74\x02",
        b"\x21",
        b"\x21 ",
        b"\x210",
        b"\x22\xC2\xA0",
    ];
    for body in 0..=255 {
        for before in entries {
            for behind in entries {
                let record = [before, &[0x71, body], behind].concat();
                sides::print([&record, b"#,##0.0", b"-1234.5"], AREA);
            }
        }
    }
}

/// Every minimum with groups of several sizes and every count of digits, printed or added.
#[test]
fn grouping() {
    for pattern in [
        "#,##0",
        "0,0",
        "#,#,00",
        "#,##,##0.#",
        "0,000",
        "00,000",
        "#,000,0",
        "000,000,000,000,000",
        "#,00000000000000‰",
        "#,##0%",
        "#,###.0",
    ] {
        for digits in 0..=15 {
            let number = format!("0{}", &"987654321012345"[..digits]);
            for minimum in 1..=4 {
                let record = [0x71, minimum, 0x22, 0xC2, 0xA0];
                sides::print([&record, pattern.as_bytes(), number.as_bytes()], AREA);
            }
        }
    }
}

/// The records of the languages whose minimum is not 1.
#[test]
fn languages() {
    let table = include_str!("../../plain/tests/data/grouping-symbols.tsv");
    for row in table.lines().filter(|line| !line.starts_with('#')) {
        let record: Vec<u8> = (row.rsplit('\t').next().unwrap().split(' '))
            .map(|byte| u8::from_str_radix(byte, 16).unwrap())
            .collect();
        for pattern in ["#,##0", "0,000", "00,000", "#,##0.0#"] {
            for number in ["5", "1234", "12345", "123456", "1234567", "-1234.5"] {
                sides::print([&record, pattern.as_bytes(), number.as_bytes()], AREA);
            }
        }
    }
}

/// All numbers below 200 with two fraction digits, rounded by several steps.
#[test]
fn rounding() {
    for pattern in [
        "0", "0.0", "5", "0.25", "3", "#,##0.#", "0.65", "0%", "0,0.0", "7‰",
    ] {
        for value in 0..20_000 {
            let number = format!("{}.{:02}", value / 100, value % 100);
            sides::print([b"", pattern.as_bytes(), number.as_bytes()], AREA);
        }
    }
}
