//! Packs as texts, as short as they can be written.

use compare::Random;
use plain::{Clause, Operand, Pack, Relation, Rule};

/// Most bytes of a pack.
const MAX_BYTES: usize = 4096;

pub fn text(pack: &Pack) -> Vec<u8> {
    joined(&pack.rules, ";", rule).into_bytes()
}

fn joined<T>(parts: &[T], between: &str, write: impl Fn(&T) -> String) -> String {
    let parts: Vec<String> = parts.iter().map(write).collect();
    parts.join(between)
}

fn rule(rule: &Rule) -> String {
    format!(
        "{}:{}",
        rule.keyword.name(),
        joined(&rule.clauses, "or ", clause)
    )
}

fn clause(relations: &Clause) -> String {
    joined(relations, "and ", relation)
}

fn relation(relation: &Relation) -> String {
    let operand = match relation.operand {
        Operand::N => "n",
        Operand::I => "i",
        Operand::F => "f",
        Operand::T => "t",
        Operand::V => "v",
        Operand::W => "w",
        Operand::E => "e",
    };
    let modulus = relation
        .modulus
        .map_or(String::new(), |modulus| format!("%{modulus}"));
    let sign = if relation.negated { "!=" } else { "=" };
    let ranges = joined(&relation.ranges, ",", |range| {
        if range.start() == range.end() {
            range.start().to_string()
        } else {
            format!("{}..{}", range.start(), range.end())
        }
    });
    format!("{operand}{modulus}{sign}{ranges}")
}

/// Takes ranges and clauses away until the text is short enough.
pub fn fit(pack: &mut Pack, random: &mut Random) {
    while text(pack).len() > MAX_BYTES {
        let rule = random.below(pack.rules.len());
        let clauses = &mut pack.rules[rule].clauses;
        if clauses.len() > 1 && random.once_in(2) {
            clauses.remove(random.below(clauses.len()));
            continue;
        }
        let clause = random.below(clauses.len());
        let relations = &mut clauses[clause];
        let relation = random.below(relations.len());
        let ranges = &mut relations[relation].ranges;
        if ranges.len() > 1 {
            ranges.remove(random.below(ranges.len()));
        } else if relations.len() > 1 {
            relations.remove(relation);
        }
    }
}
