//! Generators of inputs: well-formed ones near every limit, ones with a single fault, and damaged ones.

mod numbers;
mod packs;
mod patterns;
mod symbols;

pub use numbers::{near_number, number, number_text};
pub use packs::{clash_pack, pack};
pub use patterns::pattern;
pub use symbols::symbols;

use crate::Random;

/// Damages a text here and there: flips, cuts, insertions, doubled parts, or a splice with another text.
pub fn damage(random: &mut Random, text: &mut Vec<u8>, other: &[u8]) {
    for _ in 0..random.between(1, 3) {
        damage_once(random, text, other);
    }
}

fn damage_once(random: &mut Random, text: &mut Vec<u8>, other: &[u8]) {
    let place = random.between(0, text.len());
    let end = place + random.between(0, (text.len() - place).min(6));
    match random.below(8) {
        0 if place < text.len() => text[place] ^= 1 << random.below(8),
        1 if place < text.len() => text[place] = random.bits() as u8,
        2 => text.truncate(place),
        3 => drop(text.drain(place..end)),
        4 => text.insert(place, random.bits() as u8),
        5 => text.insert(
            place,
            random.one_of(b" ;:,.%=!-+'#0159acenotw\xE2\x80\xC2\t"),
        ),
        6 => {
            let part = text[place..end].to_vec();
            text.splice(place..place, part);
        }
        _ => {
            let from = random.between(0, other.len());
            text.splice(place.., other[from..].iter().copied());
        }
    }
}

/// Bytes of any kind.
pub fn noise(random: &mut Random) -> Vec<u8> {
    let length = random.one_of(&[0, 1, 2, 5, 20, 70, 300]);
    (0..length).map(|_| random.bits() as u8).collect()
}
