//! The typed answers of the wrapper, one for each row of the table.

use okwazibelu::{Keyword, Refusal, check, print, read_number, select};

/// The refusal's number, checked against how it shows itself.
fn row(refusal: Refusal) -> u32 {
    let shown = refusal.to_string();
    assert!(shown.starts_with(&format!("refusal {}", refusal.number())));
    assert!(shown.contains(refusal.reason()));
    refusal.number()
}

#[test]
fn refused_numbers() {
    let long = "0".repeat(65);
    for (text, number) in [
        (long.as_str(), 10),
        ("", 11),
        ("1c15", 12),
        ("0c6", 13),
        ("9999999999999999", 14),
        ("0.1234567890", 15),
    ] {
        assert_eq!(row(read_number(text.as_bytes()).unwrap_err()), number);
    }
}

#[test]
fn refused_packs() {
    for (pack, number, place) in [
        ("one: n", 21, 6),
        ("one: n = 1000000", 22, 9),
        ("one: n % 7 = 1", 23, 9),
        ("one: n = 2..1", 24, 12),
        ("uno: n = 1", 25, 0),
        ("one: n = 0,0,0,0,0,0,0,0,0,0,0,0,0,0,0,0,0", 26, 41),
    ] {
        let refusal = check(pack.as_bytes()).unwrap_err();
        assert_eq!((row(refusal), refusal.place()), (number, Some(place)));
    }
    assert_eq!(row(check(&[b' '; 4097]).unwrap_err()), 20);
}

#[test]
fn clashes() {
    let refusal = check(b"one: t = 5; two: f = 50").unwrap_err();
    assert_eq!(row(refusal), 27);
    assert_eq!(
        refusal.to_string(),
        "refusal 27: two rules met, 1 and 2, by e = 0, v = 2, i = 0, f = 50"
    );
    let refusal = select(b"one: t = 5; two: f = 50", b"7.50").unwrap_err();
    assert_eq!(refusal.to_string(), "refusal 27: two rules met, 1 and 2");
}

#[test]
fn words() {
    for (place, keyword) in Keyword::ALL.into_iter().enumerate() {
        let pack = "zero: n = 0; one: n = 1; two: n = 2; few: n = 3; many: n = 4";
        let word = select(pack.as_bytes(), place.to_string().as_bytes());
        assert_eq!(word, Ok(keyword));
        assert_eq!(format!("{keyword:>6}").trim(), keyword.name());
    }
}

#[test]
fn signs() {
    assert!(read_number(b"-0").unwrap().negative);
    assert!(!read_number(b"0").unwrap().negative);
}

#[test]
fn minimum_grouping() {
    for (symbols, pattern, number, text) in [
        (&b""[..], "#,##0", "1234", "1,234"),
        (b"\x71\x01", "#,##0", "1234", "1,234"),
        (b"\x71\x02", "#,##0", "1234", "1234"),
        (b"\x71\x02", "#,##0", "12345", "12,345"),
        (b"\x71\x02", "#,##0", "1234567", "1,234,567"),
        (b"\x71\x02", "0,000", "5", "0005"),
        (b"\x71\x02", "00,000", "5", "00,005"),
        (b"\x71\x03", "#,##0", "12345", "12345"),
        (b"\x71\x04", "#,##0", "123456", "123456"),
        (b"\x71\x04", "#,##0", "1234567", "1,234,567"),
        (b"\x21.\x71\x02\x11,", "#,##0.0", "-12345.5", "-12.345,5"),
    ] {
        let mut out = [0; 16];
        let length = print(symbols, pattern.as_bytes(), number.as_bytes(), &mut out);
        let written = length.map(|length| &out[..length]);
        assert_eq!(
            written,
            Ok(text.as_bytes()),
            "{symbols:x?} {pattern} {number}"
        );
    }
}

#[test]
fn refused_printing() {
    let long = [b'0'; 257];
    let mut out = [7; 3];
    for (symbols, pattern, text, number) in [
        (&b"\x10"[..], &b"0"[..], &b"1"[..], 40),
        (b"\x71", b"0", b"1", 40),
        (b"\x71\x02\x71\x02", b"0", b"1", 40),
        (b"\x72\x02\x02", b"0", b"1", 40),
        (b"\x71\x00\x71", b"0", b"1", 40),
        (b"\x110", b"0", b"1", 41),
        (b"\x71\x00", b"0", b"1", 41),
        (b"\x71\x05", b"0", b"1", 41),
        (b"\x712", b"0", b"1", 41),
        (b"", &long, b"1", 30),
        (b"", b"\xFF", b"1", 31),
        (b"", b"*", b"1", 32),
        (b"", b"#", b"1", 33),
        (b"", b"0.0000000000", b"1", 34),
        (b"", b"1000000", b"1", 35),
        (b"", b"0%%", b"1", 36),
        (b"", b"0", b"1c1", 50),
        (b"", b"0000", b"1", 51),
    ] {
        let refusal = print(symbols, pattern, text, &mut out).unwrap_err();
        assert_eq!((row(refusal), out), (number, [7; 3]));
    }
    let refusal = print(b"", b"0000", b"1", &mut []).unwrap_err();
    assert_eq!(
        refusal.to_string(),
        "refusal 51: text longer than the output area, 4 bytes needed"
    );
}

#[test]
fn empty_texts() {
    assert_eq!(row(read_number(b"").unwrap_err()), 11);
    assert_eq!(row(select(b"", b"").unwrap_err()), 21);
    assert_eq!(row(check(b"").unwrap_err()), 21);
    assert_eq!(row(print(b"", b"", b"", &mut []).unwrap_err()), 33);
}
