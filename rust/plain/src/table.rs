//! The table of next numbers: finds the least number that lists of remainders and of values allow.
//!
//! Each power of ten divides the next. So a number that is allowed by the powers up to one is found within that power's segments from what the powers
//! below find. The work depends on the segments and not on how far away the number is.

use crate::segments::{Common, Levels, NO_END, NO_MODULUS, Segment, bits};

const MILLION: u64 = 1_000_000;

/// The segments of each power that is asked, the lowest first.
///
/// Each start is a number that the powers below allow too.
#[derive(Default)]
pub(crate) struct Table {
    segments: Vec<Segment>,
    levels: Vec<Level>,
}

/// A power of ten, and from where to where its segments go.
struct Level {
    modulus: u32,
    from: usize,
    to: usize,
}

impl Table {
    /// The least number from `low` on that all the levels of relations allow.
    pub fn least(&mut self, relations: &[&Levels], low: u64) -> Option<u64> {
        self.segments.clear();
        self.levels.clear();
        let asked = relations
            .iter()
            .fold(0, |asked, levels| asked | levels.asked());
        for power in bits(asked & !(1 << NO_MODULUS)) {
            self.push_level(power, Common::at(power, relations))?;
        }
        if asked >> NO_MODULUS & 1 == 0 {
            return self.least_in(Segment::ALL, low);
        }
        Common::at(NO_MODULUS, relations).find_map(|segment| self.least_in(segment, low))
    }

    /// Adds a level above the others; `None` if it allows no number.
    fn push_level(&mut self, power: usize, segments: Common) -> Option<()> {
        let from = self.segments.len();
        for Segment { start, end } in segments {
            let start = self.next(&self.levels, start);
            if start <= end {
                self.segments.push(Segment { start, end });
            }
        }
        let to = self.segments.len();
        let modulus = 10u32.pow(power as u32);
        self.levels.push(Level { modulus, from, to });
        (from < to).then_some(())
    }

    /// The least number from `x` on that the levels allow.
    fn next(&self, levels: &[Level], x: u32) -> u32 {
        let Some((level, below)) = levels.split_last() else {
            return x;
        };
        let rest = x % level.modulus;
        let block = x - rest;
        let segments = &self.segments[level.from..level.to];
        let at = segments.partition_point(|segment| segment.end < rest);
        let following = match segments[at..] {
            [] => None,
            [segment, ..] if rest <= segment.start => Some(segment),
            [segment, ref later @ ..] => {
                let next = self.next(below, x);
                if next - block <= segment.end {
                    return next;
                }
                later.first().copied()
            }
        };
        match following {
            Some(segment) => block + segment.start,
            None => block + level.modulus + segments[0].start,
        }
    }

    /// The least number of the segment from `low` on that all levels allow.
    fn least_in(&self, segment: Segment, low: u64) -> Option<u64> {
        let from = low.max(segment.start.into());
        let rest = from % MILLION;
        let next = from - rest + u64::from(self.next(&self.levels, rest as u32));
        (segment.end == NO_END || next <= segment.end.into()).then_some(next)
    }
}

#[cfg(test)]
mod tests {
    use super::*;
    use crate::segments::Scratch;
    use crate::{Operand, Relation};

    /// SplitMix64.
    struct Random(u64);

    impl Random {
        fn below(&mut self, bound: u32) -> u32 {
            self.0 = self.0.wrapping_add(0x9E37_79B9_7F4A_7C15);
            let mut z = self.0;
            z = (z ^ (z >> 30)).wrapping_mul(0xBF58_476D_1CE4_E5B9);
            z = (z ^ (z >> 27)).wrapping_mul(0x94D0_49BB_1331_11EB);
            ((z ^ (z >> 31)) % u64::from(bound)) as u32
        }
    }

    /// A relation that allows about half of all numbers.
    fn relation(random: &mut Random) -> Relation {
        let modulus = [0, 10, 100, 1000, 10_000, 100_000, 1_000_000][random.below(7) as usize];
        let below = if modulus == 0 { 999_999 } else { modulus };
        let count = 1 + random.below(16);
        let ranges = (0..count).map(|_| {
            let from = random.below(below);
            from..=(from + random.below(1 + below / count)).min(999_999)
        });
        Relation {
            operand: Operand::I,
            modulus: (modulus > 0).then_some(modulus),
            ranges: ranges.collect(),
            negated: random.below(2) == 0,
        }
    }

    /// All numbers in turn, up to where every case has been seen.
    fn walked(clause: &[Relation], unit: u64, low: u64) -> Option<u64> {
        (low..low + 2_000_001).find(|x| clause.iter().all(|relation| relation.admits(x * unit)))
    }

    fn searched(levels: &Levels, low: u64) -> Option<u64> {
        Table::default().least(&[levels], low)
    }

    /// Relations on a number, and on its tenfold, hundredfold and thousandfold.
    #[test]
    fn least_as_walked() {
        let (mut found, mut none) = (0, 0);
        for seed in 0..60 {
            let mut random = Random(seed);
            let count = 1 + random.below(6);
            let clause: Vec<Relation> = (0..count).map(|_| relation(&mut random)).collect();
            let mut levels = Levels::new(&clause, Operand::I, &mut Scratch::default());
            let low = [0, 1, 777, 65_432, 1_000_000, 100_000_000][random.below(6) as usize];
            for unit in [1, 10, 100, 1000] {
                let answer = walked(&clause, unit, low);
                assert_eq!(searched(&levels, low), answer, "{clause:?} {unit} {low}");
                levels = levels.of_tenths();
                found += u32::from(answer.is_some());
                none += u32::from(answer.is_none());
            }
        }
        assert!(found > 50 && none > 50, "{found} found, {none} not");
    }
}
