//! What relations allow, as segments of whole numbers.

use crate::{Operand, Relation};

/// Upper end of a segment without one.
pub(crate) const NO_END: u32 = u32::MAX;
/// Largest power of ten that is a modulus.
pub(crate) const MAX_POWER: usize = 6;
/// Where a relation without modulus stands among the powers 1 to 6 of the others.
pub(crate) const NO_MODULUS: usize = 0;

/// The whole numbers from `start` to `end`, both with it.
#[derive(Clone, Copy, Debug, PartialEq, Eq, PartialOrd, Ord)]
pub(crate) struct Segment {
    pub start: u32,
    pub end: u32,
}

impl Segment {
    /// All whole numbers.
    pub const ALL: Segment = Segment {
        start: 0,
        end: NO_END,
    };

    /// The numbers whose tenfold is in the segment.
    fn tenth(self) -> Option<Segment> {
        let start = self.start.div_ceil(10);
        let end = match self.end {
            NO_END => NO_END,
            end => end / 10,
        };
        (start <= end).then_some(Segment { start, end })
    }
}

/// What relations on one operand allow: for each power of ten that is a modulus the remainders, and without modulus the values.
///
/// Each list of segments is sorted, and its segments are apart from each other.
#[derive(Clone, Debug, Default)]
pub(crate) struct Levels {
    /// The powers that have a relation, as bits.
    asked: u32,
    /// The lists one behind the other, and from where to where the list of each power goes.
    segments: Vec<Segment>,
    spans: [(u32, u32); MAX_POWER + 1],
}

impl Levels {
    /// What a clause's relations on an operand allow together.
    pub fn new(clause: &[Relation], operand: Operand, scratch: &mut Scratch) -> Self {
        let relations = || clause.iter().filter(|relation| relation.operand == operand);
        let powers = relations().fold(0, |powers, relation| powers | 1 << power(relation));
        let mut levels = Levels::default();
        for at in bits(powers) {
            scratch.join(relations().filter(|relation| power(relation) == at));
            levels.push(at, scratch.joined.iter().copied());
        }
        levels
    }

    /// What a relation that no number meets allows.
    fn nothing() -> Self {
        let mut levels = Levels::default();
        levels.push(NO_MODULUS, [].into_iter());
        levels
    }

    /// What is asked of the last digit of t: it is not 0.
    pub fn last_digit() -> Self {
        let mut levels = Levels::default();
        levels.push(1, [Segment { start: 1, end: 9 }].into_iter());
        levels
    }

    fn push(&mut self, power: usize, list: impl Iterator<Item = Segment>) {
        let from = self.segments.len() as u32;
        self.segments.extend(list);
        self.spans[power] = (from, self.segments.len() as u32);
        self.asked |= 1 << power;
    }

    /// The powers that have a relation, as bits.
    pub fn asked(&self) -> u32 {
        self.asked
    }

    /// What is allowed at a power that has a relation.
    pub fn list(&self, power: usize) -> Option<&[Segment]> {
        let (from, to) = self.spans[power];
        (self.asked >> power & 1 != 0).then(|| &self.segments[from as usize..to as usize])
    }

    /// What is allowed of a number so that its tenfold is allowed here.
    ///
    /// Every modulus is a power lower. The tenfold's remainder by 10 is 0, so a modulus of 10 allows all or nothing.
    pub fn of_tenths(&self) -> Levels {
        let mut levels = Levels::default();
        for power in bits(self.asked) {
            let list = self.list(power).unwrap_or_default();
            let tenths = list.iter().filter_map(|segment| segment.tenth());
            match power {
                NO_MODULUS => levels.push(NO_MODULUS, tenths),
                1 if list.first().is_some_and(|first| first.start == 0) => {}
                1 => return Levels::nothing(),
                _ => levels.push(power - 1, tenths),
            }
        }
        levels
    }
}

/// The power of ten that is a relation's modulus.
fn power(relation: &Relation) -> usize {
    relation
        .modulus
        .map_or(NO_MODULUS, |modulus| modulus.ilog10() as usize)
}

/// The places of the ones, lowest first.
pub(crate) fn bits(mut mask: u32) -> impl Iterator<Item = usize> {
    std::iter::from_fn(move || {
        let place = (mask != 0).then(|| mask.trailing_zeros() as usize);
        mask &= mask.wrapping_sub(1);
        place
    })
}

/// Most lists that a search joins: i and n of two clauses, or f and t of two clauses and the last digit of t.
const MAX_LISTS: usize = 5;

/// The segments that several lists have in common, in order.
pub(crate) struct Common<'a> {
    lists: [&'a [Segment]; MAX_LISTS],
    count: usize,
}

impl<'a> Common<'a> {
    fn of_two(one: &'a [Segment], other: &'a [Segment]) -> Self {
        Common {
            lists: [one, other, &[], &[], &[]],
            count: 2,
        }
    }

    /// What all of the levels allow at a power.
    pub fn at(power: usize, levels: &[&'a Levels]) -> Self {
        let mut common = Common {
            lists: [&[]; MAX_LISTS],
            count: 0,
        };
        for list in levels.iter().filter_map(|levels| levels.list(power)) {
            common.lists[common.count] = list;
            common.count += 1;
        }
        common
    }
}

impl Iterator for Common<'_> {
    type Item = Segment;

    fn next(&mut self) -> Option<Segment> {
        let lists = &mut self.lists[..self.count];
        if let [only] = lists {
            return only.split_off_first().copied();
        }
        loop {
            let mut common = Segment::ALL;
            for list in &*lists {
                let first = list.first()?;
                common.start = common.start.max(first.start);
                common.end = common.end.min(first.end);
            }
            for list in &mut *lists {
                if list[0].end == common.end {
                    *list = &list[1..];
                }
            }
            if common.start <= common.end {
                return Some(common);
            }
        }
    }
}

/// Room for the lists of a power's relations, used again for each power.
#[derive(Default)]
pub(crate) struct Scratch {
    /// A relation's ranges.
    ranges: Vec<Segment>,
    /// What a relation allows.
    allowed: Vec<Segment>,
    /// What the relations before it allow, and what all of them do.
    before: Vec<Segment>,
    joined: Vec<Segment>,
}

impl Scratch {
    /// Joins what relations of one power allow.
    fn join<'a>(&mut self, mut relations: impl Iterator<Item = &'a Relation>) {
        let Some(first) = relations.next() else {
            return;
        };
        self.allow(first);
        std::mem::swap(&mut self.allowed, &mut self.joined);
        for relation in relations {
            self.allow(relation);
            std::mem::swap(&mut self.joined, &mut self.before);
            self.joined.clear();
            self.joined
                .extend(Common::of_two(&self.before, &self.allowed));
        }
    }

    /// Lists what a relation allows.
    fn allow(&mut self, relation: &Relation) {
        let last = relation.modulus.map_or(NO_END, |modulus| modulus - 1);
        self.ranges.clear();
        self.ranges
            .extend(relation.ranges.iter().map(|range| Segment {
                start: *range.start(),
                end: *range.end().min(&last),
            }));
        self.ranges.retain(|range| range.start <= last);
        self.ranges.sort_unstable();
        self.allowed.clear();
        if relation.negated {
            push_gaps(&self.ranges, last, &mut self.allowed);
        } else {
            push_merged(&self.ranges, &mut self.allowed);
        }
    }
}

/// Appends ascending segments with those joined that touch or overlap.
fn push_merged(listed: &[Segment], merged: &mut Vec<Segment>) {
    for &segment in listed {
        match merged.last_mut() {
            Some(last) if segment.start <= last.end + 1 => last.end = last.end.max(segment.end),
            _ => merged.push(segment),
        }
    }
}

/// Appends the segments between ascending ones, up to and with `last`.
fn push_gaps(listed: &[Segment], last: u32, gaps: &mut Vec<Segment>) {
    let mut start = 0;
    for segment in listed {
        if segment.start > start {
            let end = segment.start - 1;
            gaps.push(Segment { start, end });
        }
        start = start.max(segment.end + 1);
    }
    if start <= last {
        gaps.push(Segment { start, end: last });
    }
}
