//! Small changes of a pack, within the limits of clauses, relations and ranges.

use crate::fresh::{
    KEYWORDS, MAX_CLAUSES, MAX_RANGES, MAX_RELATIONS, any_modulus, any_range, any_relation,
};
use compare::Random;
use plain::{Clause, Operand, Pack, Relation, Rule};

const MAX_VALUE: u32 = 999_999;
const OPERANDS: [Operand; 7] = [
    Operand::N,
    Operand::I,
    Operand::F,
    Operand::T,
    Operand::V,
    Operand::W,
    Operand::E,
];

/// Changes a range, a relation, a clause or a rule; in one place, or in all clauses that are alike.
pub fn mutate(pack: &mut Pack, random: &mut Random) {
    if random.once_in(20) {
        return change_rules(&mut pack.rules, random);
    }
    let rule = random.below(pack.rules.len());
    let clauses = &mut pack.rules[rule].clauses;
    let place = random.below(clauses.len());
    if random.once_in(4) {
        return change_condition(clauses, place, random);
    }
    let old = clauses[place].clone();
    let mut new = old.clone();
    change_clause(&mut new, random);
    let everywhere = random.once_in(2);
    clauses[place] = new.clone();
    for clause in clauses
        .iter_mut()
        .filter(|clause| everywhere && **clause == old)
    {
        *clause = new.clone();
    }
}

fn change_rules(rules: &mut Vec<Rule>, random: &mut Random) {
    let place = random.below(rules.len());
    let unused = KEYWORDS
        .into_iter()
        .find(|&keyword| rules.iter().all(|rule| rule.keyword != keyword));
    match (random.below(3), unused) {
        (0, _) if rules.len() > 1 => drop(rules.remove(place)),
        (1, Some(keyword)) => {
            let clauses = rules[place].clauses.clone();
            rules.push(Rule { keyword, clauses });
        }
        _ => random.shuffle(rules),
    }
}

fn change_condition(clauses: &mut Vec<Clause>, place: usize, random: &mut Random) {
    let clause = clauses[place].clone();
    match random.below(5) {
        0 if clauses.len() > 1 => drop(clauses.remove(place)),
        1 if clauses.len() < MAX_CLAUSES => clauses.push(clause),
        2 => clauses.resize(MAX_CLAUSES, clause),
        3 => clauses.fill(clause),
        _ => random.shuffle(clauses),
    }
}

fn change_clause(clause: &mut Clause, random: &mut Random) {
    let place = random.below(clause.len());
    match random.below(12) {
        0 if clause.len() > 1 => drop(clause.remove(place)),
        1 if clause.len() < MAX_RELATIONS => clause.push(any_relation(random)),
        2 if clause.len() < MAX_RELATIONS => clause.push(clause[place].clone()),
        3 => random.shuffle(clause),
        _ => change_relation(&mut clause[place], random),
    }
}

fn change_relation(relation: &mut Relation, random: &mut Random) {
    match random.below(12) {
        0 => relation.negated = !relation.negated,
        1 => relation.operand = random.one_of(&OPERANDS),
        2 => relation.modulus = any_modulus(random),
        3 => times_ten(relation),
        4 => random.shuffle(&mut relation.ranges),
        5 => relation.ranges.sort_by_key(|range| *range.start()),
        _ => change_ranges(relation, random),
    }
}

/// The same relation a power higher.
fn times_ten(relation: &mut Relation) {
    let fits = relation.ranges.iter().all(|range| *range.end() < 100_000);
    let modulus = relation.modulus.map(|modulus| 10 * modulus);
    if fits && modulus.is_none_or(|modulus| modulus <= 1_000_000) {
        relation.modulus = modulus;
        for range in &mut relation.ranges {
            *range = 10 * range.start()..=10 * range.end() + 9;
        }
    }
}

fn change_ranges(relation: &mut Relation, random: &mut Random) {
    let ranges = &mut relation.ranges;
    let place = random.below(ranges.len());
    let (from, to) = (*ranges[place].start(), *ranges[place].end());
    let room = ranges.len() < MAX_RANGES;
    match random.below(8) {
        0 if ranges.len() > 1 => drop(ranges.remove(place)),
        1 if room => ranges.push(any_range(relation.modulus, random)),
        2 if room => ranges.push(from..=to),
        3 if room && to < MAX_VALUE => ranges.push(to + 1..=to + 1),
        4 => ranges[place] = from..=from,
        5 => ranges[place] = any_range(relation.modulus, random),
        6 => ranges[place] = from.saturating_sub(near(random))..=to,
        _ => ranges[place] = from..=(to + near(random)).min(MAX_VALUE),
    }
}

/// A small distance of some power of ten.
fn near(random: &mut Random) -> u32 {
    random.one_of(&[1, 1, 9, 10, 90, 100, 1000, 10_000, 100_000])
}
