//! Rule packs.

use super::damage;
use crate::{Random, published_packs};

const KEYWORDS: [&str; 5] = ["zero", "one", "two", "few", "many"];
const WHITE_SPACE: [char; 11] = [
    '\t', '\n', '\u{B}', '\u{C}', '\r', ' ', '\u{85}', '\u{200E}', '\u{200F}', '\u{2028}',
    '\u{2029}',
];
const MODULI: [&str; 6] = ["10", "100", "1000", "10000", "100000", "1000000"];

/// How tokens are set apart.
#[derive(Clone, Copy, PartialEq, Eq)]
enum Spacing {
    Usual,
    Tight,
    Wild,
}

/// How far a pack goes to the limits, and which single faults it may have.
#[derive(Clone, Copy)]
struct Shape {
    clauses: usize,
    relations: usize,
    ranges: usize,
    /// A fault about once in so many tokens that could have one.
    fault: usize,
}

/// The tokens of a pack under construction.
struct Writer<'a> {
    random: &'a mut Random,
    shape: Shape,
    tokens: Vec<String>,
}

/// A pack of any kind: well-formed, with a fault, published, padded to the length limit, or damaged.
pub fn pack(random: &mut Random) -> Vec<u8> {
    let mut text = match random.below(12) {
        0 | 1 => published(random),
        2 => clash_pack(random),
        3 => limits(random).into_bytes(),
        _ => {
            let shape = shape(random);
            written(random, shape)
        }
    };
    if random.once_in(12) {
        pad(random, &mut text);
    }
    if random.once_in(5) {
        let other = published(random);
        damage(random, &mut text, &other);
    }
    text
}

fn published(random: &mut Random) -> Vec<u8> {
    let packs = published_packs();
    packs[random.below(packs.len())].2.as_bytes().to_vec()
}

fn shape(random: &mut Random) -> Shape {
    let fault = random.one_of(&[usize::MAX, usize::MAX, 60, 12]);
    let (clauses, relations, ranges) = match random.below(12) {
        0 => (10, 2, 2),
        1 => (2, 10, 2),
        2 => (2, 2, 18),
        3 => (10, 10, 18),
        _ => (3, 4, 4),
    };
    Shape {
        clauses,
        relations,
        ranges,
        fault,
    }
}

fn written(random: &mut Random, shape: Shape) -> Vec<u8> {
    let spacing = random.one_of(&[
        Spacing::Usual,
        Spacing::Usual,
        Spacing::Tight,
        Spacing::Wild,
    ]);
    let mut writer = Writer {
        random,
        shape,
        tokens: Vec::new(),
    };
    writer.pack();
    let tokens = writer.tokens;
    spaced(random, &tokens, spacing)
}

impl Writer<'_> {
    fn put(&mut self, token: impl Into<String>) {
        self.tokens.push(token.into());
    }

    fn faulty(&mut self) -> bool {
        let fault = self.shape.fault;
        fault != usize::MAX && self.random.once_in(fault)
    }

    /// A count up to `most`, small ones more often.
    fn count(&mut self, most: usize) -> usize {
        let most = if self.random.once_in(3) {
            most
        } else {
            most.min(2)
        };
        self.random.between(1, most)
    }

    fn pack(&mut self) {
        let mut keywords = KEYWORDS;
        self.random.shuffle(&mut keywords);
        let count = self.random.between(1, keywords.len());
        let other = self.random.one_of(&[usize::MAX, usize::MAX, 0, 1, count]);
        for (place, keyword) in keywords[..count].iter().enumerate() {
            if place == other {
                self.other();
                self.put(";");
            }
            self.rule(keyword);
            if place + 1 < count {
                self.put(";");
            }
        }
        if other == count {
            self.put(";");
            self.other();
        }
    }

    fn other(&mut self) {
        self.put("other");
        self.put(":");
    }

    fn rule(&mut self, keyword: &str) {
        let keyword = if self.faulty() {
            self.random
                .one_of(&["uno", "zeroo", "fe", "one", "n", "and", "many", "a"])
        } else {
            keyword
        };
        self.put(keyword);
        self.put(":");
        for clause in 0..self.count(self.shape.clauses) {
            if clause > 0 {
                self.put("or");
            }
            self.clause();
        }
    }

    fn clause(&mut self) {
        for relation in 0..self.count(self.shape.relations) {
            if relation > 0 {
                self.put("and");
            }
            self.relation();
        }
    }

    fn relation(&mut self) {
        let operand = self
            .random
            .one_of(&["n", "i", "i", "f", "t", "v", "w", "c", "e"]);
        self.put(operand);
        if self.random.once_in(3) {
            self.put("%");
            let modulus = self.modulus();
            self.put(modulus);
        }
        let sign = self.random.one_of(&["=", "=", "!="]);
        self.put(sign);
        let size = matches!(operand, "v" | "w" | "c" | "e");
        for range in 0..self.count(self.shape.ranges) {
            if range > 0 {
                self.put(",");
            }
            self.range(size);
        }
    }

    fn modulus(&mut self) -> String {
        if self.faulty() {
            return self
                .random
                .one_of(&[
                    "0",
                    "1",
                    "7",
                    "20",
                    "9999999",
                    "1000001",
                    "10000000",
                    "99999999999999999999999",
                ])
                .to_string();
        }
        let modulus = self.random.one_of(&MODULI);
        self.zeros(modulus)
    }

    /// Leading zeros before a token, most often none.
    fn zeros(&mut self, digits: &str) -> String {
        let count = if self.random.once_in(12) {
            self.random.one_of(&[1, 2, 9, 30])
        } else {
            0
        };
        "0".repeat(count) + digits
    }

    fn value(&mut self, size: bool) -> u64 {
        let bound = if size {
            self.random.one_of(&[4, 12, 17])
        } else {
            self.random.one_of(&[3, 12, 120, 1200, 1_000_000])
        };
        self.random.below(bound) as u64
    }

    fn range(&mut self, size: bool) {
        let from = self.value(size);
        let width = self.random.one_of(&[0, 1, 3, 8, 90, 999_999]);
        let to = (from + width).min(999_999);
        if self.faulty() {
            let large = self.random.one_of(&[
                "1000000",
                "0001000000",
                "4294967296",
                "18446744073709551617",
            ]);
            self.put(large);
        } else {
            let from = self.zeros(&from.to_string());
            self.put(from);
        }
        if self.random.once_in(3) {
            self.put("..");
            let to = if self.faulty() {
                from.saturating_sub(1)
            } else {
                to
            };
            let to = self.zeros(&to.to_string());
            self.put(to);
        }
    }
}

/// Joins tokens so that no two run together.
fn spaced(random: &mut Random, tokens: &[String], spacing: Spacing) -> Vec<u8> {
    let mut text = String::new();
    for (place, token) in tokens.iter().enumerate() {
        let last = text.chars().next_back().unwrap_or(' ');
        let first = token.chars().next().unwrap_or(' ');
        let merge = last.is_ascii_lowercase() && first.is_ascii_lowercase()
            || last.is_ascii_digit() && first.is_ascii_digit();
        match spacing {
            Spacing::Usual
                if place > 0 && !matches!(first, ':' | ';' | ',' | '.') && last != '.' =>
            {
                text.push(' ')
            }
            Spacing::Wild => {
                for _ in 0..random.one_of(&[0, 1, 1, 2, 3]) {
                    text.push(random.one_of(&WHITE_SPACE));
                }
                if merge && !text.ends_with(WHITE_SPACE) {
                    text.push(random.one_of(&WHITE_SPACE));
                }
            }
            _ if merge => text.push(' '),
            _ => {}
        }
        text += token;
    }
    if spacing == Spacing::Wild && random.once_in(2) {
        text.push(random.one_of(&WHITE_SPACE));
    }
    text.into_bytes()
}

/// Fills a pack with white space to 4,095, 4,096 or 4,097 bytes.
fn pad(random: &mut Random, text: &mut Vec<u8>) {
    let length = random.between(4095, 4097);
    let missing = length.saturating_sub(text.len());
    let places: Vec<usize> = (0..text.len())
        .filter(|&place| text[place] == b' ')
        .collect();
    let place = match random.below(3) {
        0 => 0,
        1 if !places.is_empty() => random.one_of(&places),
        _ => text.len(),
    };
    let filling = random.one_of(b" \n ");
    text.splice(place..place, vec![filling; missing]);
}

/// Packs at the limits of 8 clauses, 8 relations and 16 ranges, and shapes a parser may trip over.
fn limits(random: &mut Random) -> String {
    let near = |random: &mut Random, most: usize| random.between(most - 1, most + 1);
    match random.below(7) {
        0 => {
            let count = near(random, 8);
            format!("one: {}", vec!["i = 1"; count].join(" or "))
        }
        1 => {
            let count = near(random, 8);
            format!("one: {}; two: n = 4", vec!["i != 1"; count].join(" and "))
        }
        2 => {
            let count = near(random, 16);
            format!("one: f = {}", vec!["3..7"; count].join(","))
        }
        3 => {
            let value = random.one_of(&["999999", "1000000", "0000999999", "00001000000"]);
            format!("many: t = 5,{value}..{value}")
        }
        4 => {
            let zeros = "0".repeat(random.one_of(&[40, 1000, 4070, 4080, 4086, 4087, 4088]));
            format!("one: n = {zeros}")
        }
        5 => random
            .one_of(&[
                "",
                " ",
                ";",
                "other",
                "other:",
                "other :;",
                "other:;other:",
                "other: n = 1",
                "one:",
                "one: ;",
                "one: n",
                "one: n %",
                "one: n % 10",
                "one: n = ",
                "one: n = 1,",
                "one: n = 1..",
                "one: n = 1...5",
                "one: n = 1 . . 5",
                "one: n ! = 1",
                "one: n = 1;",
                "one: n = 1; ",
                "one: n = 1 or",
                "one: n = 1and",
                "one: n = 1andi=2",
                "one: n = 1or i=2",
                "one: nn = 1",
                "One: n = 1",
                "one: n == 1",
                "one: n = 1 n = 2",
                "one: n = -1",
                "one: n in 1",
                "one: n mod 10 = 1",
                "one n = 1",
                "one:: n = 1",
                "other:;one:n=1;other:",
                "one: n = 1..2..3",
            ])
            .to_string(),
        _ => {
            // As many ranges as one pack can hold.
            let relation = format!("i={}", vec!["1"; 16].join(","));
            let clause = vec![relation; 8].join("and ");
            let count = random.between(6, 8);
            format!(
                "one:{};two:{}",
                vec![clause.clone(); count].join("or "),
                clause
            )
        }
    }
}

/// A pack of two or three rules that often share a number, small or large, or just miss each other.
pub fn clash_pack(random: &mut Random) -> Vec<u8> {
    let mut keywords = KEYWORDS;
    random.shuffle(&mut keywords);
    let rules: Vec<String> = keywords[..random.between(2, 3)]
        .iter()
        .map(|keyword| {
            let clauses: Vec<String> = (0..random.between(1, 2))
                .map(|_| clash_clause(random))
                .collect();
            format!("{keyword}: {}", clauses.join(" or "))
        })
        .collect();
    rules.join("; ").into_bytes()
}

fn clash_clause(random: &mut Random) -> String {
    let relations: Vec<String> = (0..random.between(1, 3))
        .map(|_| clash_relation(random))
        .collect();
    relations.join(" and ")
}

fn clash_relation(random: &mut Random) -> String {
    let digit = random.below(10);
    let part = random.below(1000);
    let large = random.below(1_000_000);
    let modulus = random.one_of(&MODULI);
    match random.below(20) {
        0 => format!(
            "i != 0..{}",
            random.one_of(&[999_999, 99_999, 500_000, 999_990])
        ),
        1 => format!("i % 1000000 = {large}"),
        2 => format!("i % 1000000 != 0..{large}"),
        3 => format!("i % {modulus} = {digit}"),
        4 => format!("i % {modulus} = {part}..{}", part + digit),
        5 => format!("n % {modulus} = {digit}"),
        6 => format!("n != 0..{large}"),
        7 => format!("f != 0..{}", random.one_of(&[0, 99, 999_999, 5])),
        8 => format!("f % {modulus} = {digit}"),
        9 => format!("f % 1000000 = {large}"),
        10 => format!("t = {digit}"),
        11 => format!("t % {modulus} = {part}"),
        12 => format!("t != 0..{large}"),
        13 => format!("w = {}", random.below(11)),
        14 => format!("v = {}", random.below(11)),
        15 => format!("v != 0..{}", random.below(10)),
        16 => format!("e = {}", random.below(16)),
        17 => format!("e != 0..{}", random.below(15)),
        18 => format!("f = {part},{large}"),
        _ => format!("i = {part}..{large}", part = part.min(large)),
    }
}
