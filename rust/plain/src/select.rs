//! Choosing the plural word of a number.

use crate::{Keyword, Number, Operand, Pack, Refusal, Relation, Rule, read_number, read_pack};

/// The word of a number by a pack; tests the pack, then the number, then refusal 27.
pub fn select(pack: &[u8], number: &[u8]) -> Result<Keyword, Refusal> {
    let pack = read_pack(pack)?;
    let number = read_number(number)?;
    select_rule(&pack, &number)
}

/// The word of a read number by a parsed pack, or refusal 27 with the first two rules met.
pub fn select_rule(pack: &Pack, number: &Number) -> Result<Keyword, Refusal> {
    let mut met = pack
        .rules
        .iter()
        .enumerate()
        .filter(|(_, rule)| meets(number, rule));
    match (met.next(), met.next()) {
        (None, _) => Ok(Keyword::Other),
        (Some((_, rule)), None) => Ok(rule.keyword),
        (Some((first, _)), Some((second, _))) => Err(Refusal::TwoRulesMet {
            first: first + 1,
            second: second + 1,
        }),
    }
}

fn meets(number: &Number, rule: &Rule) -> bool {
    rule.clauses
        .iter()
        .any(|clause| clause.iter().all(|relation| holds(number, relation)))
}

fn holds(number: &Number, relation: &Relation) -> bool {
    let value = match relation.operand {
        // No fraction is in a list of whole numbers, and neither is its remainder.
        Operand::N if number.f != 0 => return relation.negated,
        Operand::N | Operand::I => number.i,
        Operand::F => number.f,
        Operand::T => number.t,
        Operand::V => number.v.into(),
        Operand::W => number.w.into(),
        Operand::E => number.e.into(),
    };
    relation.admits(value)
}

impl Relation {
    /// Whether the relation holds of a whole value of its operand.
    pub(crate) fn admits(&self, value: u64) -> bool {
        let compared = self
            .modulus
            .map_or(value, |modulus| value % u64::from(modulus));
        let listed = self
            .ranges
            .iter()
            .any(|range| (u64::from(*range.start())..=u64::from(*range.end())).contains(&compared));
        listed != self.negated
    }
}
