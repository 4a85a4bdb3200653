//! Number texts.

use crate::Random;

/// A number text: mostly admitted, near every limit, now and then past one.
pub fn number(random: &mut Random) -> Vec<u8> {
    match random.below(10) {
        0 => limit(random).to_vec(),
        1 => padded(random),
        2..=4 => small(random).into_bytes(),
        _ => long(random).into_bytes(),
    }
}

/// A number without exponent whose fraction often lies on or next to a tie.
pub fn near_number(random: &mut Random) -> Vec<u8> {
    let most = random.one_of(&[1, 3, 6, 15]);
    let mut text = sign(random).to_string();
    let integer_digits = random.between(1, most);
    text += &digits(random, integer_digits);
    if !random.once_in(4) {
        let mut fraction: String = (0..random.between(1, 9))
            .map(|_| random.one_of(&['0', '0', '4', '5', '5', '9', '1', '2']))
            .collect();
        if random.once_in(3) {
            fraction.pop();
            fraction += random.one_of(&["5", "51", "500000001", "49", "25"]);
        }
        fraction.truncate(9);
        text = text + "." + &fraction;
    }
    text.into_bytes()
}

/// A text that reads to these operands of an admitted number.
pub fn number_text(e: u32, v: u32, i: u64, f: u64) -> String {
    let integer = i.to_string();
    let visible = if v == 0 {
        String::new()
    } else {
        format!("{f:0width$}", width = v as usize)
    };
    let (head, moved) = integer.split_at(integer.len() - e as usize);
    let fraction = format!("{moved}{visible}");
    let mut text = head.to_string();
    if !fraction.is_empty() {
        text = text + "." + &fraction;
    }
    if e > 0 {
        text += &format!("c{e}");
    }
    text
}

fn sign(random: &mut Random) -> &'static str {
    random.one_of(&["", "", "", "-"])
}

fn digits(random: &mut Random, count: usize) -> String {
    let pool = random.one_of(&["0123456789", "09", "0", "9", "05", "1234567890000"]);
    let pool = pool.as_bytes();
    (0..count)
        .map(|_| char::from(pool[random.below(pool.len())]))
        .collect()
}

fn small(random: &mut Random) -> String {
    let bound = random.one_of(&[4, 25, 130, 2000]);
    let integer = random.below(bound);
    let fraction = random.one_of(&[
        "", "", ".0", ".00", ".5", ".50", ".2", ".25", ".05", ".1", ".11", ".10",
    ]);
    let exponent = random.one_of(&["", "", "", "", "c1", "e3", "c6"]);
    format!("{}{integer}{fraction}{exponent}", sign(random))
}

fn long(random: &mut Random) -> String {
    let mut text = sign(random).to_string();
    if random.once_in(5) {
        text += &"0".repeat(random.between(1, 44));
    }
    let count = random.one_of(&[1, 2, 6, 7, 13, 14, 15, 15, 16, 17]);
    text += &digits(random, count);
    if random.once_in(2) {
        let count = random.one_of(&[1, 2, 3, 8, 9, 9, 10, 11, 15, 23, 24]);
        text = text + "." + &digits(random, count);
    }
    if random.once_in(3) {
        let exponent = random.one_of(&[
            "1",
            "2",
            "3",
            "5",
            "6",
            "9",
            "12",
            "13",
            "14",
            "15",
            "99",
            "0",
            "01",
            "",
            "4294967297",
            "18446744073709551617",
        ]);
        text = text + random.one_of(&["c", "e"]) + exponent;
    }
    text
}

/// A number of 63 to 65 bytes.
fn padded(random: &mut Random) -> Vec<u8> {
    let tail = small(random);
    let (sign, tail) = match tail.strip_prefix('-') {
        Some(tail) => ("-", tail),
        None => ("", tail.as_str()),
    };
    let length = random.between(63, 65);
    let zeros = "0".repeat(length - sign.len() - tail.len());
    format!("{sign}{zeros}{tail}").into_bytes()
}

fn limit(random: &mut Random) -> &'static [u8] {
    let texts: [&[u8]; 32] = [
        b"999999999999999",
        b"9999999999999999",
        b"1000000000000000",
        b"000999999999999999",
        b"0.123456789",
        b"0.1234567890",
        b"1.1234567890c1",
        b"1.12345678901c1",
        b"123456789012345.123456789",
        b"1c14",
        b"9.99999999999999c14",
        b"10c14",
        b"9.99999999999999999999999c14",
        b"9.999999999999999999999999c14",
        b"1c15",
        b"0c15",
        b"0c6",
        b"0.5c3",
        b"00.000c1",
        b"0",
        b"-0",
        b"-0.000000000",
        b"1.",
        b".1",
        b"-",
        b"",
        b"1c",
        b"1c0",
        b"1e-3",
        b"1.20050c3",
        b"1.2c6",
        b"--1",
    ];
    random.one_of(&texts)
}
