//! The check against a plain walk over all small numbers.
//!
//! A reported number must meet both rules, no smaller one that the walk sees may, and a pack that passes must have no clash on the walk.

use plain::{
    Clause, Keyword, Number, Operand, Pack, Refusal, Relation, Rule, check_pack, select_rule,
};

/// SplitMix64.
struct Random(u64);

impl Random {
    fn below(&mut self, bound: u64) -> u64 {
        self.0 = self.0.wrapping_add(0x9E37_79B9_7F4A_7C15);
        let mut z = self.0;
        z = (z ^ (z >> 30)).wrapping_mul(0xBF58_476D_1CE4_E5B9);
        z = (z ^ (z >> 27)).wrapping_mul(0x94D0_49BB_1331_11EB);
        (z ^ (z >> 31)) % bound
    }

    fn pick<T: Copy>(&mut self, choices: &[T]) -> T {
        choices[self.below(choices.len() as u64) as usize]
    }
}

fn relation(random: &mut Random) -> Relation {
    use Operand::{E, F, I, N, T, V, W};
    let operand = random.pick(&[N, I, I, F, F, T, T, V, W, E]);
    let modulus = random.pick(&[None, Some(10), Some(100), Some(1000)]);
    let negated = random.below(3) == 0;
    let ranges = (0..1 + random.below(3)).map(|_| {
        let bound = random.pick(&[3, 12, 120, 1100]);
        let from = random.below(bound) as u32;
        from..=from + random.pick(&[0, 0, 1, 5, 70])
    });
    Relation {
        operand,
        modulus,
        negated,
        ranges: ranges.collect(),
    }
}

fn clause(random: &mut Random) -> Clause {
    (0..1 + random.below(4)).map(|_| relation(random)).collect()
}

fn pack(random: &mut Random) -> Pack {
    let rules = [Keyword::One, Keyword::Two].map(|keyword| Rule {
        keyword,
        clauses: (0..1 + random.below(2)).map(|_| clause(random)).collect(),
    });
    Pack {
        rules: rules.to_vec(),
    }
}

/// e, v, i, f.
type Least = (u32, u32, u64, u64);

fn is_clash(pack: &Pack, (e, v, i, f): Least) -> bool {
    select_rule(pack, &number(e, v, i, f)).is_err()
}

fn number(e: u32, v: u32, i: u64, f: u64) -> Number {
    let (mut w, mut t) = if f == 0 { (0, 0) } else { (v, f) };
    while t != 0 && t % 10 == 0 {
        (w, t) = (w - 1, t / 10);
    }
    Number {
        negative: false,
        e,
        v,
        i,
        f,
        w,
        t,
    }
}

/// Largest integer part of the walk by the count of fraction digits; all fractions are walked.
const MOST_I: [u64; 4] = [1299, 599, 199, 29];
const MOST_E: u32 = 1;

/// The first clash the walk meets, in the check's order.
fn walked(pack: &Pack) -> Option<Least> {
    for e in 0..=MOST_E {
        for v in 0..=3 {
            let low = if e == 0 { 0 } else { 10 };
            for i in low..=MOST_I[v as usize] {
                for f in 0..10u64.pow(v) {
                    if is_clash(pack, (e, v, i, f)) {
                        return Some((e, v, i, f));
                    }
                }
            }
        }
    }
    None
}

fn is_walked((e, v, i, _): Least) -> bool {
    e <= MOST_E && MOST_I.get(v as usize).is_some_and(|&most| i <= most)
}

fn found(pack: &Pack) -> Option<Least> {
    match check_pack(pack) {
        Err(Refusal::Clash { e, v, i, f, .. }) => Some((e, v, i, f)),
        Ok(()) => None,
        other => panic!("{other:?}"),
    }
}

#[test]
fn least_numbers() {
    let (mut clashes, mut passes) = (0, 0);
    for seed in 0..400 {
        let pack = pack(&mut Random(seed));
        let (found, walked) = (found(&pack), walked(&pack));
        match found {
            Some(least) => clashes += u32::from(is_clash(&pack, least)),
            None => passes += 1,
        }
        if found.is_none_or(is_walked) {
            assert_eq!(found, walked, "seed {seed}: {pack:?}");
        } else if walked.is_some() {
            assert!(found < walked, "seed {seed}: {pack:?}");
        }
    }
    assert!(clashes > 50 && passes > 50);
    assert_eq!(clashes + passes, 400, "every number found meets two rules");
}
