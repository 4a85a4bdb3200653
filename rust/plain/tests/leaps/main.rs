//! The check against a slow one that searches by leaps.

mod reference;

use plain::{Clause, Keyword, Operand, Pack, Refusal, Relation, Rule, check_pack, read_pack};
use reference::{Least, clash};
use std::ops::RangeInclusive;

/// SplitMix64.
struct Random(u64);

impl Random {
    fn below(&mut self, bound: u64) -> u64 {
        self.0 = self.0.wrapping_add(0x9E37_79B9_7F4A_7C15);
        let mut z = self.0;
        z = (z ^ (z >> 30)).wrapping_mul(0xBF58_476D_1CE4_E5B9);
        z = (z ^ (z >> 27)).wrapping_mul(0x94D0_49BB_1331_11EB);
        (z ^ (z >> 31)) % bound
    }

    fn pick<T: Copy>(&mut self, choices: &[T]) -> T {
        choices[self.below(choices.len() as u64) as usize]
    }
}

fn range(random: &mut Random, below: u32) -> RangeInclusive<u32> {
    let from = random.below(below.into()) as u32;
    let width = random.pick(&[0, 0, 0, 1, 9, below / 20, below / 3]);
    from..=(from + width).min(999_999)
}

/// A relation on i, n, f or t whose ranges mostly lie below its modulus.
fn search_relation(random: &mut Random) -> Relation {
    use Operand::{F, I, N, T};
    let operand = random.pick(&[I, I, I, N, F, T, T]);
    let modulus = random.pick(&[10, 100, 1000, 10_000, 100_000, 1_000_000, 0]);
    let modulus = (modulus > 0).then_some(modulus);
    let below = modulus.unwrap_or_else(|| random.pick(&[9, 1200, 999_999]));
    let below = random.pick(&[below, below, (2 * below).min(999_999)]);
    Relation {
        operand,
        modulus,
        negated: random.below(5) < 3,
        ranges: (0..random.pick(&[1, 1, 2, 4, 7, 16]))
            .map(|_| range(random, below))
            .collect(),
    }
}

/// A relation on v, w or e.
fn small_relation(random: &mut Random) -> Relation {
    use Operand::{E, V, W};
    Relation {
        operand: random.pick(&[V, V, W, E]),
        modulus: random.pick(&[None, None, None, Some(10), Some(100)]),
        negated: random.below(2) == 0,
        ranges: (0..1 + random.below(2))
            .map(|_| range(random, 16))
            .collect(),
    }
}

fn clause(random: &mut Random) -> Clause {
    (0..random.pick(&[1, 2, 3, 5, 8]))
        .map(|_| match random.below(6) {
            0 => small_relation(random),
            _ => search_relation(random),
        })
        .collect()
}

fn pack(random: &mut Random) -> Pack {
    let keywords = [Keyword::One, Keyword::Two, Keyword::Few];
    let count = random.pick(&[2, 2, 3]);
    let rules = keywords[..count].iter().map(|&keyword| Rule {
        keyword,
        clauses: (0..random.pick(&[1, 1, 2]))
            .map(|_| clause(random))
            .collect(),
    });
    Pack {
        rules: rules.collect(),
    }
}

fn checked(pack: &Pack) -> Option<(usize, usize, Least)> {
    match check_pack(pack) {
        Ok(()) => None,
        Err(Refusal::Clash {
            first,
            second,
            e,
            v,
            i,
            f,
        }) => Some((first, second, Least { e, v, i, f })),
        other => panic!("{other:?}"),
    }
}

#[test]
fn random_packs() {
    let (mut passed, mut large, mut fractions, mut exponents) = (0, 0, 0, 0);
    for seed in 0..20_000 {
        let pack = pack(&mut Random(seed));
        let answer = checked(&pack);
        assert_eq!(answer, clash(&pack), "seed {seed}: {pack:?}");
        match answer {
            None => passed += 1,
            Some((.., least)) => {
                large += u32::from(least.i >= 1_000_000);
                fractions += u32::from(least.f >= 1_000_000);
                exponents += u32::from(least.e > 0);
            }
        }
    }
    assert!(passed > 1000 && large > 50 && fractions > 20 && exponents > 50);
}

#[test]
fn hostile_packs() {
    for text in [
        &include_bytes!("../../../compare/data/hostile/digit-chain.pack")[..],
        include_bytes!("../../../compare/data/hostile/digit-chain-padded.pack"),
        include_bytes!("../../../compare/data/hostile/integer-chain.pack"),
    ] {
        let pack = read_pack(text).expect("a pack");
        assert_eq!(checked(&pack), clash(&pack));
    }
}
