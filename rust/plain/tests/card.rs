//! The rows of document 01's bench card, and single points its text leaves to a reader's care.

use plain::{Keyword, Refusal, check, print, read_number, select};

fn operands(text: &str) -> (u32, u32, u64, u64, u32, u64) {
    let number = read_number(text.as_bytes()).unwrap();
    (number.e, number.v, number.i, number.f, number.w, number.t)
}

fn number_refusal(text: &str) -> u32 {
    read_number(text.as_bytes()).unwrap_err().number()
}

fn clash(pack: &str) -> Vec<u64> {
    let refusal = check(pack.as_bytes()).unwrap_err();
    assert_eq!(refusal.number(), 27);
    refusal.figures()
}

fn pack_refusal(pack: &str) -> (u32, Vec<u64>) {
    let refusal = check(pack.as_bytes()).unwrap_err();
    (refusal.number(), refusal.figures())
}

fn printed(symbols: &[u8], pattern: &str, number: &str) -> String {
    let mut area = [0; 2048];
    let length = print(symbols, pattern.as_bytes(), number.as_bytes(), &mut area).unwrap();
    String::from_utf8(area[..length].to_vec()).unwrap()
}

fn print_refusal(symbols: &[u8], pattern: &str, number: &str) -> u32 {
    let mut area = [7; 4];
    let refusal = print(symbols, pattern.as_bytes(), number.as_bytes(), &mut area).unwrap_err();
    assert_eq!(area, [7; 4], "a refusal writes nothing");
    refusal.number()
}

#[test]
fn operands_of_numbers() {
    assert_eq!(operands("1.20050c3"), (3, 2, 1200, 50, 1, 5));
    assert_eq!(operands("1.0"), (0, 1, 1, 0, 0, 0));
    assert_eq!(operands("1.2c6"), (6, 0, 1_200_000, 0, 0, 0));
    assert_eq!(operands("1.1234567890c1").1, 9);
    assert_eq!(operands("1c14").0, 14);
    assert_eq!(operands("-000").2, 0);
    assert!(read_number(b"-0").unwrap().negative);
}

#[test]
fn refused_numbers() {
    assert_eq!(number_refusal(&"0".repeat(65)), 10);
    for text in [
        "", "-", "1.", ".1", "1c", "1c0", "1c01", "1e+1", "+1", "1 ", "1.2.3",
    ] {
        assert_eq!(number_refusal(text), 11, "{text}");
    }
    for text in ["1c15", "0c15", "1c99999999999999999999999"] {
        assert_eq!(number_refusal(text), 12, "{text}");
    }
    assert_eq!(number_refusal("0.5c3"), 13);
    assert_eq!(number_refusal("00c3"), 13);
    assert_eq!(number_refusal(&"9".repeat(16)), 14);
    assert_eq!(number_refusal("10c14"), 14);
    assert_eq!(number_refusal("0.1234567890"), 15);
    assert!(read_number(&[b'9'; 15]).is_ok());
    assert!(read_number(b"0.123456789").is_ok());
}

#[test]
fn words() {
    assert_eq!(select(b"one: i = 1 and v = 0", b"1"), Ok(Keyword::One));
    assert_eq!(select(b"one: i = 1 and v = 0", b"1.0"), Ok(Keyword::Other));
    assert_eq!(
        select(b"one: n = 1; few: n = 2..4", b"3.0"),
        Ok(Keyword::Few)
    );
    assert_eq!(
        select(b"other:; one: n = 1; few: n = 1", b"1"),
        Err(Refusal::TwoRulesMet {
            first: 2,
            second: 3
        })
    );
}

#[test]
fn checked_packs() {
    assert_eq!(check(b"one: n = 1; few: n = 2..4"), Ok(()));
    assert_eq!(clash("one: n = 1; few: n % 10 = 1..3"), [1, 2, 0, 0, 1, 0]);
    assert_eq!(clash("one: t = 5; two: f = 50"), [1, 2, 0, 2, 0, 50]);
    assert_eq!(
        clash("one: i != 0..999999; two: i % 10 = 7"),
        [1, 2, 0, 0, 1_000_007, 0]
    );
    assert_eq!(
        clash("one: i % 1000000 = 0 and i != 0; many: e != 0..5"),
        [1, 2, 6, 0, 1_000_000, 0]
    );
    assert_eq!(check(b"one: v = 10; two: v = 10"), Ok(()));
    assert_eq!(
        check(b"one: i = 0,1; many: e = 0 and i != 0 and i % 1000000 = 0 and v = 0 or e != 0..5"),
        Ok(())
    );
    // The pair comes before the number: rules 1 and 3 share 0, rules 1 and 2 only 5.
    assert_eq!(
        clash("one: n = 0,5; two: n = 5; few: n = 0"),
        [1, 2, 0, 0, 5, 0]
    );
    assert_eq!(
        clash("one: w = 1 and t = 5; two: f % 1000000 = 0 and f != 0"),
        [1, 2, 0, 7, 0, 5_000_000]
    );
}

#[test]
fn refused_packs() {
    for (pack, number, place) in [
        ("", 21, 0),
        ("one: n = 1; ", 21, 12),
        ("other: n = 1", 21, 7),
        ("one: ;", 21, 5),
        ("one: n = 1...5", 21, 12),
        ("one: n ! = 1", 21, 7),
        ("uno: n = 1;", 21, 11),
        ("one: n = 2000000..1000000", 22, 9),
        ("one: n = 3..1000000", 22, 12),
        ("one: n % 1000001 = 1", 23, 9),
        ("one: n = 5..4", 24, 12),
        ("one: n = 1; one: n = 2", 25, 12),
        ("one: n = 1,1,1,1,1,1,1,1,1,1,1,1,1,1,1,1,5..4", 26, 41),
    ] {
        assert_eq!(pack_refusal(pack), (number, vec![place]), "{pack}");
    }
    assert_eq!(check(&[b' '; 4097]), Err(Refusal::PackTooLong));
    assert_eq!(check(&[b' '; 4096]), Err(Refusal::PackGrammar(4096)));
    assert_eq!(check(b"one: n = 1 \xE2\x80"), Err(Refusal::PackGrammar(11)));
    assert_eq!(check(b"one: n % 0010 = 0000999999"), Ok(()));
}

#[test]
fn printed_numbers() {
    for (pattern, number, text) in [
        ("0.0", "0.349", "0.3"),
        ("0.0", "0.35", "0.4"),
        ("0.0", "0.25", "0.2"),
        ("0.0", "0.250000001", "0.3"),
        ("0.0", "-0.04", "-0.0"),
        ("0.65", "1.234", "1.30"),
        ("0.65", "1.625", "1.30"),
        ("0.65", "2.275", "2.60"),
        ("0%", "0.125", "12%"),
        ("#,##0", "999.5", "1,000"),
        ("#,##,##0", "1234567", "12,34,567"),
        ("0,000", "5", "0,005"),
        ("0,0", "5", "0,5"),
        ("#.0", "0.04", ".0"),
        ("0.", "1.5", "2"),
        ("5", "7.5", "10"),
        ("0.00;(0.00)", "-3.1415", "(3.14)"),
        ("-0", "-5", "--5"),
        ("0;0", "-5", "5"),
        ("'a'''0", "1", "a'1"),
        ("0''E", "1", "1'E"),
        (
            "000000000000000.000000000‰",
            "999999999999999.999999999",
            "999999999999999999.999999000‰",
        ),
    ] {
        assert_eq!(printed(b"", pattern, number), text, "{pattern} {number}");
    }
}

/// Document 000's table for 1234.567 with a comma and a space.
#[test]
fn printed_with_symbols() {
    let symbols = b"\x11,\x21 ";
    assert_eq!(printed(symbols, "#,##0.##", "1234.567"), "1 234,57");
    assert_eq!(printed(symbols, "###0.0000#", "1234.567"), "1234,5670");
    assert_eq!(printed(symbols, "00000.0000", "1234.567"), "01234,5670");
}

#[test]
fn refused_printing() {
    for (pattern, number) in [
        (&*"0".repeat(257), 30),
        ("0a0E", 32),
        ("0.0.0*", 32),
        ("0;*", 32),
        ("*'", 32),
        ("0'abc*", 33),
        ("#,###", 33),
        ("0.00;", 33),
        ("0;0;0", 33),
        ("#,##0.0#;(#)", 33),
        (",0", 33),
        ("0,", 33),
        ("0,.0", 33),
        ("0,,0", 33),
        ("0#", 33),
        ("0.#0", 33),
        ("0000000000000000", 34),
        ("0;0.0000000000", 34),
        ("0%%;1000000", 35),
        ("100000.0", 35),
        ("0%;0", 36),
        ("%0%", 36),
    ] {
        assert_eq!(print_refusal(b"", pattern, "1"), number, "{pattern}");
    }
    assert_eq!(print_refusal(b"", "0", "1c1"), 50);
    assert_eq!(print_refusal(b"", "00000", "1"), 51);
    for (symbols, number) in [
        (&b"\x10"[..], 40),
        (b"\x12a", 40),
        (b"\x11a\x12\xC2\xA0", 40),
        (b"\x110\x70", 40),
        (b"\x110", 41),
        (b"\x12ab", 41),
        (b"\x12\xC0\x80", 41),
    ] {
        assert_eq!(print_refusal(symbols, "0", "1"), number, "{symbols:x?}");
    }
    let mut area = [0; 4];
    assert_eq!(
        print(b"", b"00000", b"1", &mut area),
        Err(Refusal::AreaTooSmall(5))
    );
    assert_eq!(
        print(b"", b"\xFF", b"1", &mut area),
        Err(Refusal::PatternNotUtf8)
    );
}
