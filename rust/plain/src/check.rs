//! The check of a pack: whether two of its rules share an admitted number, and the least they share.
//!
//! A clause of one rule is joined with a clause of the other. Once e, v and w are fixed, the relations on i and those on the fraction part:
//! f is t with v - w zeros behind it, and n is i where f is 0 and no whole number elsewhere. So each search is for the least whole number that
//! relations on one variable allow.

use crate::number::{MAX_E, MAX_V};
use crate::segments::{Levels, Scratch, bits};
use crate::table::Table;
use crate::{Clause, Operand, Pack, Refusal, Relation, Rule, read_pack};
use std::cell::OnceCell;
use std::sync::LazyLock;

/// Most zeros behind the last digit of a fraction.
const MAX_ZEROS: usize = MAX_V as usize - 1;

/// Checks a pack; refusals 20 to 27.
pub fn check(pack: &[u8]) -> Result<(), Refusal> {
    check_pack(&read_pack(pack)?)
}

/// Checks a parsed pack: refusal 27 with the first pair of rules that share an admitted number, and the least such number.
pub fn check_pack(pack: &Pack) -> Result<(), Refusal> {
    let mut scratch = Scratch::default();
    let conditions: Vec<Vec<Demands>> = pack
        .rules
        .iter()
        .map(|rule| demands_of_rule(rule, &mut scratch))
        .collect();
    let mut table = Table::default();
    for (first, one) in conditions.iter().enumerate() {
        for (second, other) in conditions.iter().enumerate().skip(first + 1) {
            if let Some(Least { e, v, i, f }) = least_of_rules(one, other, &mut table) {
                return Err(Refusal::Clash {
                    first: first + 1,
                    second: second + 1,
                    e,
                    v,
                    i,
                    f,
                });
            }
        }
    }
    Ok(())
}

/// An admitted number, in the order of the check.
#[derive(Clone, Copy, PartialEq, Eq, PartialOrd, Ord)]
struct Least {
    e: u32,
    v: u32,
    i: u64,
    f: u64,
}

fn least_of_rules(one: &[Demands], other: &[Demands], table: &mut Table) -> Option<Least> {
    let mut least: Option<Least> = None;
    for a in one {
        for b in other {
            let found = Joined::new(a, b).and_then(|joined| joined.least(table));
            least = least.into_iter().chain(found).min();
        }
    }
    least
}

fn demands_of_rule(rule: &Rule, scratch: &mut Scratch) -> Vec<Demands> {
    rule.clauses
        .iter()
        .map(|clause| Demands::new(clause, scratch))
        .collect()
}

/// What one clause asks of each operand.
struct Demands {
    /// The values of e, v and w for which the clause's relations on them hold, as bits.
    e: u32,
    v: u32,
    w: u32,
    i: Levels,
    n: Levels,
    t: Levels,
    f: Fractions,
    /// Whether f and t may be 0.
    zero: bool,
    /// Whether n has to be a whole number.
    whole: bool,
}

impl Demands {
    fn new(clause: &Clause, scratch: &mut Scratch) -> Self {
        let of = |operand| {
            clause
                .iter()
                .filter(move |relation| relation.operand == operand)
        };
        let values = |operand, most| {
            of(operand).fold((2u32 << most) - 1, |values, relation| {
                values & values_of(relation, most)
            })
        };
        Demands {
            e: values(Operand::E, MAX_E),
            v: values(Operand::V, MAX_V),
            w: values(Operand::W, MAX_V),
            i: Levels::new(clause, Operand::I, scratch),
            n: Levels::new(clause, Operand::N, scratch),
            t: Levels::new(clause, Operand::T, scratch),
            f: Fractions::new(Levels::new(clause, Operand::F, scratch)),
            zero: of(Operand::F)
                .chain(of(Operand::T))
                .all(|relation| relation.admits(0)),
            whole: of(Operand::N).any(|relation| !relation.negated),
        }
    }
}

/// The values up to `most` of which a relation holds, as bits.
fn values_of(relation: &Relation, most: u32) -> u32 {
    (0..=most)
        .filter(|&value| relation.admits(value.into()))
        .fold(0, |values, value| values | 1 << value)
}

/// What relations on f allow, as relations on t with zeros behind it.
struct Fractions {
    without_zeros: Levels,
    with_zeros: [OnceCell<Box<Levels>>; MAX_ZEROS],
}

impl Fractions {
    fn new(levels: Levels) -> Self {
        Fractions {
            without_zeros: levels,
            with_zeros: Default::default(),
        }
    }

    fn at(&self, zeros: usize) -> &Levels {
        match zeros {
            0 => &self.without_zeros,
            _ => self.with_zeros[zeros - 1].get_or_init(|| self.at(zeros - 1).of_tenths().into()),
        }
    }

    fn asked(&self) -> bool {
        self.without_zeros.asked() != 0
    }
}

static LAST_DIGIT: LazyLock<Levels> = LazyLock::new(Levels::last_digit);

/// Two clauses at once.
struct Joined<'a> {
    a: &'a Demands,
    b: &'a Demands,
    e: u32,
    v: u32,
    w: u32,
}

impl<'a> Joined<'a> {
    /// `None` if the clauses have no e, v or w in common.
    fn new(a: &'a Demands, b: &'a Demands) -> Option<Self> {
        let (e, v, w) = (a.e & b.e, a.v & b.v, a.w & b.w);
        (e != 0 && v != 0 && w != 0).then_some(Joined { a, b, e, v, w })
    }

    /// The least number of which both clauses hold.
    ///
    /// A larger exponent only takes integer parts away, so the least decides. Where n is not asked, the integer part is the same with a fraction as
    /// without.
    fn least(&self, table: &mut Table) -> Option<Least> {
        let e = self.e.trailing_zeros();
        let v = self.v.trailing_zeros();
        let low = if e == 0 { 0 } else { 10u64.pow(e) };
        let may_be_whole = self.may_be_whole();
        let whole = may_be_whole
            .then(|| self.least_whole(low, table))
            .flatten()
            .map(|i| Least { e, v, i, f: 0 });
        if self.must_be_whole() || may_be_whole && !self.asks_n() {
            return whole;
        }
        let i = self.least_integer(low, table)?;
        if whole.is_some_and(|whole| whole.i == i) {
            return whole;
        }
        let mut found = [None; MAX_ZEROS + 1];
        bits(self.v).map(|v| v as u32).find_map(|v| {
            self.least_fraction(v, &mut found, table)
                .map(|f| Least { e, v, i, f })
                .or(whole.map(|whole| Least { v, ..whole }))
        })
    }

    fn asks_n(&self) -> bool {
        self.a.n.asked() | self.b.n.asked() != 0
    }

    fn may_be_whole(&self) -> bool {
        self.w & 1 != 0 && self.a.zero && self.b.zero
    }

    fn must_be_whole(&self) -> bool {
        self.a.whole || self.b.whole || self.v == 1 || self.w == 1
    }

    /// The least integer part from `low` on without a fraction.
    fn least_whole(&self, low: u64, table: &mut Table) -> Option<u64> {
        if !self.asks_n() {
            return self.least_integer(low, table);
        }
        table.least(&[&self.a.i, &self.b.i, &self.a.n, &self.b.n], low)
    }

    /// The least integer part from `low` on with a fraction.
    fn least_integer(&self, low: u64, table: &mut Table) -> Option<u64> {
        table.least(&[&self.a.i, &self.b.i], low)
    }

    /// The least f above 0 with v digits; `found` keeps the least t by the zeros behind it.
    fn least_fraction(
        &self,
        v: u32,
        found: &mut [Option<Option<u64>>],
        table: &mut Table,
    ) -> Option<u64> {
        let asks_f = self.a.f.asked() || self.b.f.asked();
        bits(self.w)
            .map(|w| w as u32)
            .filter(|w| (1..=v).contains(w))
            .filter_map(|w| {
                let zeros = v - w;
                let of_t = if asks_f { zeros as usize } else { 0 };
                let t = found[of_t].get_or_insert_with(|| self.least_t(of_t, table));
                t.filter(|&t| t < 10u64.pow(w))
                    .map(|t| t * 10u64.pow(zeros))
            })
            .min()
    }

    /// The least t above 0 with so many zeros behind it.
    fn least_t(&self, zeros: usize, table: &mut Table) -> Option<u64> {
        let (f, g) = (self.a.f.at(zeros), self.b.f.at(zeros));
        table.least(&[&self.a.t, &self.b.t, f, g, &LAST_DIGIT], 0)
    }
}
