//! Packs to start from: long clauses against many short ones, chains over the digits, dead ends, and anything.

use compare::{Random, made_up};
use plain::{Clause, Keyword, Operand, Pack, Relation, Rule, read_pack};
use std::ops::RangeInclusive;

pub const MAX_CLAUSES: usize = 8;
pub const MAX_RELATIONS: usize = 8;
pub const MAX_RANGES: usize = 16;
const MAX_VALUE: u32 = 999_999;

pub const KEYWORDS: [Keyword; 5] = [
    Keyword::One,
    Keyword::Two,
    Keyword::Few,
    Keyword::Many,
    Keyword::Zero,
];
const SEARCHED: [Operand; 6] = [
    Operand::I,
    Operand::I,
    Operand::N,
    Operand::F,
    Operand::T,
    Operand::T,
];
const SMALL: [Operand; 3] = [Operand::V, Operand::W, Operand::E];

pub fn fresh(random: &mut Random) -> Pack {
    match random.below(6) {
        0 | 1 => long_against_short(random),
        2 => long_against_long(random),
        3 => all_alike(random),
        4 => anything(random),
        _ => hostile(random),
    }
}

fn pack(conditions: Vec<Vec<Clause>>) -> Pack {
    let rules = KEYWORDS.into_iter().zip(conditions);
    Pack {
        rules: rules
            .map(|(keyword, clauses)| Rule { keyword, clauses })
            .collect(),
    }
}

/// One rule of long clauses, and rules of short ones that never meet each other.
fn long_against_short(random: &mut Random) -> Pack {
    let mut conditions = vec![vec![long_clause(random); random.between(4, 8)]];
    let operand = random.one_of(&[Operand::V, Operand::W, Operand::E, Operand::I, Operand::N]);
    let extra = random.once_in(2).then(|| any_relation(random));
    for value in 0..random.between(1, 4) as u32 {
        let mut clause = vec![listed(operand, None, false, vec![value + 1..=value + 1])];
        clause.extend(extra.clone());
        conditions.push(vec![clause; MAX_CLAUSES]);
    }
    random.shuffle(&mut conditions);
    pack(conditions)
}

fn long_against_long(random: &mut Random) -> Pack {
    let count = random.between(2, 5);
    let conditions = (0..count)
        .map(|_| vec![long_clause(random); random.between(1, 8)])
        .collect();
    pack(conditions)
}

/// Forty clauses that differ by the numbers only.
fn all_alike(random: &mut Random) -> Pack {
    let operand = random.one_of(&SEARCHED);
    let modulus = any_modulus(random);
    let ranges = random.between(1, 10);
    let width = random.below(4) as u32;
    let mut clause = |number: u32| {
        let step = modulus.unwrap_or(MAX_VALUE) / (ranges as u32 + 1);
        let ranges = (0..ranges as u32).map(|place| {
            let from = (place * step + number * (width + 1)).min(MAX_VALUE - width);
            from..=from + width
        });
        vec![
            listed(operand, modulus, false, ranges.collect()),
            any_relation(random),
        ]
    };
    let mut number = 0;
    let mut next = || {
        number += 1;
        clause(number)
    };
    pack(
        (0..KEYWORDS.len())
            .map(|_| (0..MAX_CLAUSES).map(|_| next()).collect())
            .collect(),
    )
}

fn anything(random: &mut Random) -> Pack {
    let mut condition = || -> Vec<Clause> {
        (0..random.between(1, 8))
            .map(|_| {
                (0..random.between(1, 8))
                    .map(|_| any_relation(random))
                    .collect()
            })
            .collect()
    };
    let mut conditions: Vec<Vec<Clause>> = KEYWORDS.map(|_| condition()).into();
    conditions.truncate(random.between(1, KEYWORDS.len()));
    pack(conditions)
}

fn hostile(random: &mut Random) -> Pack {
    let (name, text) = random.one_of(made_up::HOSTILE);
    read_pack(text).unwrap_or_else(|_| panic!("{name} is a pack"))
}

/// A chain over the digits of one or two operands, an end, and some other relation.
fn long_clause(random: &mut Random) -> Clause {
    let operand = random.one_of(&SEARCHED);
    let mut clause = chain(operand, random);
    if random.once_in(3) {
        clause.extend(chain(random.one_of(&SEARCHED), random));
    }
    clause.truncate(random.between(4, MAX_RELATIONS - 3));
    clause.extend(end(operand, random));
    if random.once_in(2) {
        clause.push(any_relation(random));
    }
    random.shuffle(&mut clause);
    clause
}

/// At each power of ten the second digit is not high where the first is low.
fn chain(operand: Operand, random: &mut Random) -> Clause {
    let mut clause = Vec::new();
    for power in 0..=4 {
        if random.once_in(6) {
            continue;
        }
        let unit = 10u32.pow(power);
        let high = random.between(1, 9) as u32;
        let count = random.between(1, 10) as u32;
        let ranges = (0..count).map(|digit| {
            let from = 10 * unit * digit;
            from + high * unit..=from + 10 * unit - 1
        });
        let mut ranges: Vec<RangeInclusive<u32>> = ranges.collect();
        match random.below(4) {
            0 => ranges.reverse(),
            1 => random.shuffle(&mut ranges),
            _ => {}
        }
        clause.push(listed(operand, Some(100 * unit), true, ranges));
    }
    clause
}

/// What makes a chain long: no small number is left, or none at all.
fn end(operand: Operand, random: &mut Random) -> Clause {
    match random.below(5) {
        0 => vec![listed(
            operand,
            None,
            true,
            vec![0..=0, 950_000..=MAX_VALUE],
        )],
        1 => vec![listed(operand, None, true, vec![0..=MAX_VALUE])],
        2 => vec![listed(operand, None, true, vec![0..=0])],
        _ => {
            let high = (0..10).map(|digit| 100_000 * digit + 50_000..=100_000 * digit + 99_999);
            vec![
                listed(operand, Some(100_000), true, vec![0..=49_999]),
                listed(operand, Some(1_000_000), true, high.collect()),
            ]
        }
    }
}

pub fn any_relation(random: &mut Random) -> Relation {
    if random.once_in(4) {
        let from = random.below(10) as u32;
        let to = random.between(from as usize, 15) as u32;
        return listed(
            random.one_of(&SMALL),
            None,
            random.once_in(3),
            vec![from..=to],
        );
    }
    let modulus = any_modulus(random);
    let count = random.one_of(&[1, 1, 2, 5, 10, MAX_RANGES]);
    let ranges = (0..count).map(|_| any_range(modulus, random)).collect();
    listed(random.one_of(&SEARCHED), modulus, random.once_in(2), ranges)
}

pub fn any_modulus(random: &mut Random) -> Option<u32> {
    match random.below(7) {
        0 => None,
        power => Some(10u32.pow(power as u32)),
    }
}

/// A range mostly below the modulus.
pub fn any_range(modulus: Option<u32>, random: &mut Random) -> RangeInclusive<u32> {
    let below = modulus.map_or(MAX_VALUE, |modulus| modulus - 1);
    let from = random.between(0, below as usize) as u32;
    let width = random.one_of(&[0, 0, 1, 5, below / 20, below / 3]);
    from..=(from + width).min(MAX_VALUE)
}

fn listed(
    operand: Operand,
    modulus: Option<u32>,
    negated: bool,
    ranges: Vec<RangeInclusive<u32>>,
) -> Relation {
    Relation {
        operand,
        modulus,
        negated,
        ranges,
    }
}
