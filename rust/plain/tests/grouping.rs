//! The minimum grouping digits: how many integer digits, besides those of the primary group, it takes for groups to be printed.

use plain::print;

/// The kind whose body is the minimum.
const KIND: u8 = 0x71;

/// A pattern, a number, and the texts by the minima 1 to 4.
const TEXTS: &str = "
    #,##0        123         123          123          123          123
    #,##0        1234        1,234        1234         1234         1234
    #,##0        12345       12,345       12,345       12345        12345
    #,##0        123456      123,456      123,456      123,456      123456
    #,##0        1234567     1,234,567    1,234,567    1,234,567    1,234,567

    # digits that rounding and the percent factor make
    #,##0        999.5       1,000        1000         1000         1000
    #,##0%       123.45      12,345%      12,345%      12345%       12345%
    #,##0‰       9.9999      10,000‰      10,000‰      10000‰       10000‰

    # added zeros, but none that are only written
    0,000        5           0,005        0005         0005         0005
    00,000       5           00,005       00,005       00005        00005
    000,000      1234        001,234      001,234      001,234      001234
    0,000,000    5           0,000,005    0,000,005    0,000,005    0,000,005
    #,##0        0001234     1,234        1234         1234         1234

    # the primary group decides, not the secondary
    #,##,##0     12345       12,345       12,345       12345        12345
    #,##,##0     123456      1,23,456     1,23,456     1,23,456     123456
    #,##,##0     1234567     12,34,567    12,34,567    12,34,567    12,34,567
    #,###,0      12          1,2          12           12           12
    #,###,0      12345       1,234,5      1,234,5      1,234,5      1,234,5

    # neither the fraction nor the affixes
    #,##0.00     1234.5      1,234.50     1234.50      1234.50      1234.50
    #,###.0      0.04        .0           .0           .0           .0
    '12,'#,##0   -1234       -12,1,234    -12,1234     -12,1234     -12,1234

    # no groups in the pattern
    0            1234567     1234567      1234567      1234567      1234567
";

fn texts() -> impl Iterator<Item = [&'static str; 6]> {
    let rows = TEXTS.lines().map(str::trim);
    let rows = rows.filter(|row| !row.is_empty() && !row.starts_with("# "));
    rows.map(|row| {
        let cells: Vec<&str> = row.split_whitespace().collect();
        cells.try_into().expect("a row has six cells")
    })
}

/// The text, or the number of the refusal, which must leave the area as it was.
fn printed(record: &[u8], pattern: &str, number: &str) -> Result<String, u32> {
    let mut area = [7; 64];
    match print(record, pattern.as_bytes(), number.as_bytes(), &mut area) {
        Ok(length) => Ok(String::from_utf8(area[..length].to_vec()).unwrap()),
        Err(refusal) => {
            assert_eq!(area, [7; 64], "a refusal writes nothing");
            Err(refusal.number())
        }
    }
}

#[test]
fn texts_by_minimum() {
    for [pattern, number, texts @ ..] in texts() {
        assert_eq!(printed(b"", pattern, number).as_deref(), Ok(texts[0]));
        for (text, minimum) in texts.into_iter().zip(1..) {
            let answer = printed(&[KIND, minimum], pattern, number);
            assert_eq!(answer.as_deref(), Ok(text), "{pattern} {number} {minimum}");
        }
    }
}

/// Published symbol records whose minimum is not 1.
#[test]
fn texts_by_locale() {
    let bytes = |hex: &str| -> Vec<u8> {
        let bytes = hex.split(' ').map(|byte| u8::from_str_radix(byte, 16));
        bytes.collect::<Result<_, _>>().expect(hex)
    };
    let table = include_str!("data/grouping-symbols.tsv");
    for row in table.lines().filter(|line| !line.starts_with('#')) {
        let cells: Vec<&str> = row.split('\t').collect();
        let [locale, group, minimum, record] = cells[..] else {
            panic!("a row has four cells: {row}");
        };
        let group = String::from_utf8(bytes(group)).unwrap();
        let minimum: usize = minimum.parse().unwrap();
        for (pattern, number, by_two, by_three) in [
            ("#,##0", "1234", "1234", "1234"),
            ("#,##0", "12345", "12_345", "12345"),
            ("#,##0", "123456", "123_456", "123_456"),
            ("#,##0", "1234567", "1_234_567", "1_234_567"),
            ("0,000", "5", "0005", "0005"),
            ("00,000", "5", "00_005", "00005"),
            ("00,000", "1234", "01_234", "01234"),
            ("000,000", "5", "000_005", "000_005"),
        ] {
            let text = [by_two, by_three][minimum - 2].replace('_', &group);
            let answer = printed(&bytes(record), pattern, number);
            assert_eq!(answer, Ok(text), "{locale} {pattern} {number}");
        }
    }
}

/// A minimum either takes all group symbols out of a text or none, and which of the two the count of its digits tells.
#[test]
fn all_groups_or_none() {
    for (pattern, primary) in [
        ("#,##0", 3),
        ("0,0", 1),
        ("#,#,00", 2),
        ("#,##,##0.0", 3),
        ("0,0000,000", 3),
        ("00,0,00,0000", 4),
        ("#,00000000000000‰", 14),
        ("000,000,000,000,000", 3),
    ] {
        for digits in 1..=15 {
            let number = &"987654321012345"[..digits];
            let grouped = printed(b"", pattern, number).unwrap();
            let together = grouped.replace(',', "");
            let integer = together.trim_end_matches(".0").trim_end_matches('‰');
            for minimum in 1..=4 {
                let text = if integer.len() >= primary + usize::from(minimum) {
                    &grouped
                } else {
                    &together
                };
                let answer = printed(&[KIND, minimum], pattern, number);
                assert_eq!(answer.as_ref(), Ok(text), "{pattern} {number} {minimum}");
            }
        }
    }
}

/// The minimum goes with any other symbols, in any order, and is itself never printed.
#[test]
fn beside_other_symbols() {
    for record in [
        &b"\x71\x02\x11,\x21.\x33\xE2\x88\x92"[..],
        b"\x11,\x71\x02\x21.\x33\xE2\x88\x92",
        b"\x11,\x21.\x33\xE2\x88\x92\x71\x02",
    ] {
        for (number, text) in [("-1234.5", "−1234,5 +%‰"), ("-12345", "−12.345,0 +%‰")] {
            assert_eq!(
                printed(record, "#,##0.0 +'%‰'", number).as_deref(),
                Ok(text)
            );
        }
    }
}

#[test]
fn every_body() {
    for body in 0..=255 {
        let expected = match body {
            1 => Ok("1,234"),
            2..=4 => Ok("1234"),
            _ => Err(41),
        };
        let answer = printed(&[KIND, body], "#,##0", "1234");
        assert_eq!(
            answer.as_deref().map_err(|&number| number),
            expected,
            "{body:#x}"
        );
    }
}

/// Of the kinds with this upper half there is only the one with a body of one byte.
#[test]
fn other_kinds() {
    for kind in (0x70..=0x7F).filter(|&kind| kind != KIND) {
        for length in 0..=16 {
            let record = [&[kind][..], &[2; 16][..length]].concat();
            assert_eq!(printed(&record, "#,##0", "1234"), Err(40), "{record:x?}");
        }
    }
}

#[test]
fn refused_records() {
    for (record, number) in [
        // Cut short.
        (&b"\x71"[..], 40),
        (b"\x21.\x71", 40),
        // Twice, with the same body and with another.
        (b"\x71\x02\x71\x02", 40),
        (b"\x71\x01\x21.\x71\x02", 40),
        (b"\x71\x02\x71", 40),
        // 40 before 41, wherever they stand.
        (b"\x71\x05\x71\x02", 40),
        (b"\x71\x02\x71\x05", 40),
        (b"\x71\x00\x72\x02\x02", 40),
        (b"\x71\xFF\x21", 40),
        (b"\x71\x00\x71", 40),
        (b"\x210\x71", 40),
        (b"\x210\x71\x02\x71\x02", 40),
        (b"\x73\x02\x02\x02\x71\x00", 40),
        // A bad body beside a good one.
        (b"\x71\x05\x21.", 41),
        (b"\x21.\x71\x00", 41),
        (b"\x71\x02\x210", 41),
        (b"\x210\x71\x02", 41),
        // The body is no text: neither a digit nor a letter tells a minimum.
        (b"\x712", 41),
        (b"\x71a", 41),
    ] {
        assert_eq!(printed(record, "#,##0", "1234"), Err(number), "{record:x?}");
        // The record is judged before the pattern and the number.
        assert_eq!(printed(record, "*", ""), Err(number), "{record:x?}");
    }
}
