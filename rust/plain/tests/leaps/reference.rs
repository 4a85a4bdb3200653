//! The check by leaps: from a number to the next one that each relation allows, until all allow the same.
//!
//! Slow for some packs, as nothing but the period of the largest modulus bounds a search.

use plain::{Clause, Operand, Pack, Relation, Rule};
use std::cell::OnceCell;

const MAX_E: u32 = 14;
const MAX_V: u32 = 9;
/// Largest integer part of an admitted number.
const MAX_I: u64 = 999_999_999_999_999;
/// Upper end of a range without one.
const NO_END: u64 = u64::MAX;

/// The places of the first two rules that share a number, counted from 1, and the least number they share.
pub fn clash(pack: &Pack) -> Option<(usize, usize, Least)> {
    let conditions: Vec<Vec<Demands>> = pack.rules.iter().map(demands_of_rule).collect();
    let count = conditions.len();
    let pairs = (0..count).flat_map(|first| (first + 1..count).map(move |second| (first, second)));
    pairs
        .filter_map(|(first, second)| {
            let least = least_of_rules(&conditions[first], &conditions[second])?;
            Some((first + 1, second + 1, least))
        })
        .next()
}

/// Whether a relation holds of a whole value of its operand.
fn admits(relation: &Relation, value: u64) -> bool {
    let compared = match relation.modulus {
        Some(modulus) => value % u64::from(modulus),
        None => value,
    };
    let listed = relation
        .ranges
        .iter()
        .any(|range| (u64::from(*range.start())..=u64::from(*range.end())).contains(&compared));
    listed != relation.negated
}

/// An admitted number, in the order of the check.
#[derive(Clone, Copy, Debug, PartialEq, Eq, PartialOrd, Ord)]
pub struct Least {
    pub e: u32,
    pub v: u32,
    pub i: u64,
    pub f: u64,
}

fn least_of_rules(one: &[Demands], other: &[Demands]) -> Option<Least> {
    one.iter()
        .flat_map(|a| other.iter().filter_map(|b| Joined::new(a, b)?.least()))
        .min()
}

fn demands_of_rule(rule: &Rule) -> Vec<Demands> {
    rule.clauses.iter().map(Demands::new).collect()
}

/// What one clause asks of each operand.
struct Demands {
    /// The values of e, v and w for which the clause's relations on them hold, as bits.
    e: u32,
    v: u32,
    w: u32,
    i: Vec<Set>,
    n: Vec<Set>,
    f: Vec<Set>,
    t: Vec<Set>,
    /// Whether n has to be a whole number.
    whole: bool,
}

impl Demands {
    fn new(clause: &Clause) -> Self {
        let of = |operand| {
            clause
                .iter()
                .filter(move |relation| relation.operand == operand)
        };
        let sets = |operand| of(operand).map(Set::new).collect();
        let bits = |operand, most| {
            (0..=most)
                .filter(|&value| of(operand).all(|relation| admits(relation, value)))
                .fold(0, |bits, value| bits | 1 << value)
        };
        Demands {
            e: bits(Operand::E, MAX_E.into()),
            v: bits(Operand::V, MAX_V.into()),
            w: bits(Operand::W, MAX_V.into()),
            i: sets(Operand::I),
            n: sets(Operand::N),
            f: sets(Operand::F),
            t: sets(Operand::T),
            whole: of(Operand::N).any(|relation| !relation.negated),
        }
    }
}

/// Two clauses at once.
struct Joined<'a> {
    e: u32,
    v: u32,
    w: u32,
    /// Sets for i, and for n where it is whole; by modulus, the smallest first.
    i: Vec<&'a Set>,
    i_and_n: Vec<&'a Set>,
    f: Vec<&'a Set>,
    t: Vec<&'a Set>,
    whole: bool,
}

impl<'a> Joined<'a> {
    /// `None` if the clauses plainly have no number in common.
    fn new(a: &'a Demands, b: &'a Demands) -> Option<Self> {
        let (e, v, w) = (a.e & b.e, a.v & b.v, a.w & b.w);
        if e == 0 || v == 0 || w == 0 {
            return None;
        }
        let i = sorted(a.i.iter().chain(&b.i).collect());
        if !agree(&i) {
            return None;
        }
        Some(Joined {
            e,
            v,
            w,
            i_and_n: sorted(i.iter().copied().chain(&a.n).chain(&b.n).collect()),
            i,
            f: a.f.iter().chain(&b.f).collect(),
            t: a.t.iter().chain(&b.t).collect(),
            whole: a.whole || b.whole,
        })
    }

    fn least(&self) -> Option<Least> {
        let integral = self.admits_no_fraction() && agree(&self.i_and_n);
        let fractions: [OnceCell<Option<u64>>; MAX_V as usize + 1] = Default::default();
        let fraction = |v: u32| *fractions[v as usize].get_or_init(|| self.least_fraction(v));
        if !integral && bits(self.v).all(|v| fraction(v).is_none()) {
            return None;
        }
        bits(self.e).find_map(|e| {
            let low = if e == 0 { 0 } else { 10u64.pow(e) };
            let without = integral
                .then(|| least_common(&self.i_and_n, low, MAX_I))
                .flatten();
            let with = least_common(&self.i, low, MAX_I);
            bits(self.v).find_map(|v| {
                let (i, f) = [without.map(|i| (i, 0)), with.zip(fraction(v))]
                    .into_iter()
                    .flatten()
                    .min()?;
                Some(Least { e, v, i, f })
            })
        })
    }

    /// Whether f, t and w may all be 0.
    fn admits_no_fraction(&self) -> bool {
        self.w & 1 != 0 && self.f.iter().chain(&self.t).all(|set| set.has(0))
    }

    /// The least f above 0 with v digits, if there is one.
    fn least_fraction(&self, v: u32) -> Option<u64> {
        if self.whole {
            return None;
        }
        bits(self.w)
            .filter(|w| (1..=v).contains(w))
            .filter_map(|w| self.least_fraction_of_width(v, w))
            .min()
    }

    /// The least f above 0 with v digits of which the last v - w are zeros and the one before is not.
    fn least_fraction_of_width(&self, v: u32, w: u32) -> Option<u64> {
        let unit = 10u64.pow(v - w);
        let last_digit = Set {
            modulus: Some(10),
            ranges: vec![(1, 9)],
        };
        let scaled: Vec<Set> = self.f.iter().map(|set| set.of_multiples(unit)).collect();
        let sets = self.t.iter().copied().chain(&scaled).chain([&last_digit]);
        let sets = sorted(sets.collect());
        if !agree(&sets) {
            return None;
        }
        let t = least_common(&sets, 1, 10u64.pow(w) - 1)?;
        Some(t * unit)
    }
}

/// The places of the ones, lowest first.
fn bits(mask: u32) -> impl Iterator<Item = u32> {
    (0..u32::BITS).filter(move |place| mask >> place & 1 != 0)
}

/// A set of whole numbers: those whose value, or remainder by the modulus, lies in a range.
struct Set {
    modulus: Option<u64>,
    /// Closed ranges in ascending order, apart from each other and below the modulus.
    ranges: Vec<(u64, u64)>,
}

impl Set {
    /// The values for which a relation holds.
    fn new(relation: &Relation) -> Self {
        let modulus = relation.modulus.map(u64::from);
        let last = modulus.map_or(NO_END, |modulus| modulus - 1);
        let mut listed: Vec<(u64, u64)> = relation
            .ranges
            .iter()
            .map(|range| (u64::from(*range.start()), u64::from(*range.end()).min(last)))
            .filter(|&(start, _)| start <= last)
            .collect();
        listed.sort_unstable();
        let ranges = if relation.negated {
            gaps(&listed, last)
        } else {
            merged(&listed)
        };
        Set { modulus, ranges }
    }

    fn has(&self, value: u64) -> bool {
        self.at_or_after(value) == Some(value)
    }

    /// The least member that is not below `from`.
    fn at_or_after(&self, from: u64) -> Option<u64> {
        let rest = self.modulus.map_or(from, |modulus| from % modulus);
        let later = self.ranges.iter().find(|&&(_, end)| end >= rest);
        match (later, self.modulus) {
            (Some(&(start, _)), _) => Some(from - rest + start.max(rest)),
            (None, None) => None,
            (None, Some(modulus)) => {
                let &(start, _) = self.ranges.first()?;
                Some(from - rest + modulus + start)
            }
        }
    }

    /// The numbers whose product with `unit`, a power of ten, is in this set.
    fn of_multiples(&self, unit: u64) -> Set {
        if let Some(modulus) = self.modulus
            && modulus <= unit
        {
            // Every product is a multiple of the modulus.
            let ranges = if self.has(0) {
                vec![(0, NO_END)]
            } else {
                vec![]
            };
            return Set {
                modulus: None,
                ranges,
            };
        }
        let ranges = self.ranges.iter().map(|&(start, end)| {
            let end = if end == NO_END { NO_END } else { end / unit };
            (start.div_ceil(unit), end)
        });
        Set {
            modulus: self.modulus.map(|modulus| modulus / unit),
            ranges: ranges.filter(|(start, end)| start <= end).collect(),
        }
    }

    /// The value from which on a set without modulus is constant.
    fn steady_from(&self) -> u64 {
        match (self.modulus, self.ranges.last()) {
            (None, Some(&(start, NO_END))) => start,
            (None, Some(&(_, end))) => end + 1,
            _ => 0,
        }
    }
}

/// Ascending ranges with those joined that touch or overlap.
fn merged(listed: &[(u64, u64)]) -> Vec<(u64, u64)> {
    let mut ranges: Vec<(u64, u64)> = Vec::with_capacity(listed.len());
    for &(start, end) in listed {
        match ranges.last_mut() {
            Some(last) if start <= last.1 + 1 => last.1 = last.1.max(end),
            _ => ranges.push((start, end)),
        }
    }
    ranges
}

/// The ranges between ascending ranges, up to and with `last`.
fn gaps(listed: &[(u64, u64)], last: u64) -> Vec<(u64, u64)> {
    let mut ranges = Vec::with_capacity(listed.len() + 1);
    let mut next = 0;
    for &(start, end) in listed {
        if start > next {
            ranges.push((next, start - 1));
        }
        next = next.max(end + 1);
    }
    if next <= last {
        ranges.push((next, last));
    }
    ranges
}

/// Sets by modulus, the smallest first and those without one last.
fn sorted(mut sets: Vec<&Set>) -> Vec<&Set> {
    sets.sort_by_key(|set| set.modulus.unwrap_or(NO_END));
    sets
}

/// Whether some remainder is in all sets that have a modulus.
///
/// A conflict is found within the period of its largest modulus, so that no search runs through a long period whose short ones never meet.
fn agree(sets: &[&Set]) -> bool {
    (0..sets.len()).all(|last| match sets[last].modulus {
        Some(modulus) => leap(&sets[..=last], 0, modulus - 1).is_some(),
        None => true,
    })
}

/// The least number from `low` to `high` that is in all sets.
///
/// All moduli are powers of ten, so past the bounds of the sets without modulus one period of the largest shows every case.
fn least_common(sets: &[&Set], low: u64, high: u64) -> Option<u64> {
    let steady = sets.iter().map(|set| set.steady_from()).max().unwrap_or(0);
    let period = sets.iter().filter_map(|set| set.modulus).max().unwrap_or(1);
    leap(sets, low, high.min(low.max(steady) + period))
}

/// Goes from `low` to the next member of each set in turn until all sets have the same.
fn leap(sets: &[&Set], low: u64, high: u64) -> Option<u64> {
    let mut at = low;
    while at <= high {
        let next = sets
            .iter()
            .rev()
            .try_fold(at, |at, set| set.at_or_after(at))?;
        if next == at {
            return Some(at);
        }
        at = next;
    }
    None
}
