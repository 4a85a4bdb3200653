//! Made-up packs for the check.

/// Packs whose first pair of rules shares no number below one with a seven-digit integer part.
pub const SEVEN_DIGITS: [&str; 13] = [
    "one: i != 0..999999; two: i % 10 = 7",
    "one: i % 1000000 = 999999 and i != 0..999999; few: i % 10 = 9",
    "one: n != 0..999999 and n % 1000000 != 0..499999; many: n % 1000 = 7",
    "one: i != 0..999999 and i % 1000 = 123; two: i % 100000 = 45123; few: i % 1000000 = 645123",
    "one: f % 1000000 = 123456 and i != 0..999999; two: t % 1000 = 456 and i % 1000000 = 7",
    "one: i % 10 = 3 and i % 100 != 13 and i % 1000 != 0..499 and i != 0..999999; two: i % 1000000 = 2,13,503,999993",
    "one: i % 1000000 != 0..999998; two: i != 999999 and v = 0",
    "zero: i % 10 = 0; one: i % 10 = 1; two: i % 10 = 2; few: i % 10 = 3; many: i != 0..999999 and i % 1000 = 663,664",
    "one: i % 10 != 0..8 and i % 100 != 0..89 and i % 1000 != 0..899 and i % 10000 != 0..8999 and i % 100000 != 0..89999 and i % 1000000 != 0..899999 and i != 999999; two: v = 0",
    "one: i = 1 or i = 11 or i % 1000000 = 21; two: i = 2 or i % 1000 = 21 and i != 0..999999",
    "one: e = 6 and i % 10 = 3; many: i % 100000 = 99993 and e != 0",
    "one: n % 10 = 5 and n != 0..999999; two: n % 100 != 15 and i % 1000000 = 15,25,35",
    "one: v = 0 and i % 10 = 1 and i % 100 != 11; few: v = 0 and i % 10 = 2..4 and i % 100 != 12..14; many: i != 0..999999 and i % 1000000 = 0,11..14,21",
];

/// Packs whose rules first meet at a number with nine fraction places.
pub const NINE_PLACES: [&str; 6] = [
    "one: v = 9 and t != 0; two: f % 10 = 1",
    "one: w = 9; two: f % 1000000 = 999999",
    "one: f != 0..999999 and v = 9; two: f % 1000 = 1 and i != 0..999999",
    "one: t % 1000000 = 123457 and w = 9; two: t != 0..999999 and f % 10 = 7",
    "one: w = 1 and v = 9; two: f % 1000000 = 0 and f != 0",
    "one: v = 9 and w = 3 and f % 1000000 = 0; two: t % 100 = 21 and i % 10000 != 0..9998",
];

/// Packs that pass, but only the last power of ten, the last pair or the last count of zeros shows it.
pub const LATE: [&str; 8] = [
    "one: i % 1000000 = 1..499999 and i % 10 = 3; two: i % 1000000 != 0 and i % 10 = 4",
    "one: t % 10 = 0 and t % 1000000 != 1; two: t != 0",
    "one: i % 100000 != 0..49999; two: i % 1000000 != 50000..99999,150000..199999,250000..299999,350000..399999,450000..499999,550000..599999,650000..699999,750000..799999,850000..899999,950000..999999",
    "one: i % 10 = 9 and i % 100 != 9..89 and i % 1000 != 99..899; two: i % 10000 != 999,1999,2999,3999,4999,5999,6999,7999,8999,9999 and i % 1000 != 0..998",
    "one: f % 100 = 1..9 and f % 1000000 = 200000..200099; two: t % 100000 != 1..9 and t != 0",
    "one: t != 0..999999 and v = 1..6; two: i = 1 or i % 10 = 2",
    "zero: v = 1 and t % 1000000 != 0..999998; one: v = 2 and t % 1000000 != 0..999998; two: v = 3 and t % 1000000 != 0..999998; few: v = 4 and t % 1000000 != 0..999998; many: v = 1..5 and t != 0",
    "one: n % 1000000 = 999999 and n != 999999; two: i % 10000 != 0..9998 and i = 0..999999 or n != 0..999999 and n % 100 != 99",
];

macro_rules! files {
    ($($name:literal),* $(,)?) => {
        &[$(($name, include_bytes!(concat!("../data/hostile/", $name, ".pack")))),*]
    };
}

/// Packs made to keep a check busy, with their names: long clauses against many short ones, chains over the digits, singles, padding.
pub const HOSTILE: &[(&str, &[u8])] = files![
    "digit-chain",
    "digit-chain-padded",
    "integer-chain",
    "all-to-read",
    "asked-fraction",
    "both-fractions",
    "exponent-chain",
    "falling-singles",
    "forty-meetings",
    "fraction-chain",
    "fraction-levels",
    "fraction-levels-late",
    "late-clash",
    "listed-values",
    "long-against-long",
    "many-integers",
    "no-places",
    "overlaps",
    "padding",
    "values-in-vain",
    "whole-and-not",
];
