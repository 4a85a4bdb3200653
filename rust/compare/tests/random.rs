//! Generated inputs, on which the proved library and the ordinary Rust must give the same answers, figures and bytes.
//!
//! `OKW_ROUNDS` sets how many inputs of each job are made, `OKW_SEED` where they start. Every round has a seed of its own, so a difference is found
//! again by that seed with one round.

use compare::{Random, generate, sides};
use okwazibelu::raw::Figures;
use plain::Refusal;
use std::collections::BTreeMap;
use std::env;
use std::io::Write;
use std::thread;

const DEFAULT_ROUNDS: u64 = 80_000;
/// From so many rounds on every row of the table must have been met.
const ROUNDS_FOR_ALL_ROWS: u64 = 20_000;

const NUMBER_ROWS: [u32; 6] = [10, 11, 12, 13, 14, 15];
const PACK_ROWS: [u32; 7] = [20, 21, 22, 23, 24, 25, 26];
const PATTERN_ROWS: [u32; 9] = [30, 31, 32, 33, 34, 35, 36, 40, 41];

/// An output area no text overflows.
const LARGE: usize = 2048;

/// How often each kind of answer was met.
#[derive(Default)]
struct Tally(BTreeMap<String, u64>);

impl Tally {
    fn count(&mut self, kind: impl Into<String>) {
        *self.0.entry(kind.into()).or_default() += 1;
    }

    /// Shows the counts in one piece, past the capture of a test's output.
    fn show(&self, job: &str, rounds: u64) {
        let mut text = format!("\n{job}, {rounds} rounds\n");
        for (kind, count) in &self.0 {
            text += &format!("  {count:>8}  {kind}\n");
        }
        // The counts are for a reader; a closed output must not fail the test.
        let _ = std::io::stdout().write_all(text.as_bytes());
    }
}

fn setting(name: &str, default: u64) -> u64 {
    match env::var(name) {
        Ok(text) => text
            .parse()
            .unwrap_or_else(|_| panic!("{name} must be a number")),
        Err(_) => default,
    }
}

/// Tells the seed of a round that fails.
struct ToldOnPanic(u64);

impl Drop for ToldOnPanic {
    fn drop(&mut self) {
        if thread::panicking() {
            eprintln!("again with OKW_SEED={} OKW_ROUNDS=1", self.0);
        }
    }
}

/// Runs a job for each seed, then sees to it that all the kinds of answer were met.
fn run(job: &'static str, kinds: &[String], mut round: impl FnMut(&mut Random, &mut Tally)) {
    let (seed, rounds) = (
        setting("OKW_SEED", 1),
        setting("OKW_ROUNDS", DEFAULT_ROUNDS),
    );
    let mut tally = Tally::default();
    for seed in seed..seed + rounds {
        let _told = ToldOnPanic(seed);
        round(&mut Random::new(seed), &mut tally);
    }
    tally.show(job, rounds);
    if rounds >= ROUNDS_FOR_ALL_ROWS {
        for kind in kinds {
            assert!(
                tally.0.contains_key(kind),
                "{job}: no input with answer {kind}"
            );
        }
    }
}

fn rows(rows: &[&[u32]]) -> Vec<String> {
    rows.concat()
        .iter()
        .map(|row| format!("refusal {row}"))
        .collect()
}

fn any_number(random: &mut Random) -> Vec<u8> {
    let mut text = match random.below(5) {
        0 => generate::near_number(random),
        _ => generate::number(random),
    };
    if random.once_in(8) {
        generate::damage(random, &mut text, b"-12.5c3");
    }
    if random.once_in(60) {
        text = generate::noise(random);
    }
    text
}

#[test]
fn read_number() {
    let job = "read_number";
    let mut kinds = rows(&[&NUMBER_ROWS]);
    kinds.extend(["read", "read negative", "read with exponent"].map(String::from));
    run(job, &kinds, |random, tally| {
        for _ in 0..8 {
            let answer = sides::read_number(&any_number(random));
            match (answer.number, answer.figures) {
                (0, [_, 1, ..]) => tally.count("read negative"),
                (0, [_, _, 0, ..]) => tally.count("read"),
                (0, _) => tally.count("read with exponent"),
                (number, _) => tally.count(format!("refusal {number}")),
            }
        }
    });
}

/// Numbers to choose words for: any, and the least that clashes, if there is one.
fn numbers_for(random: &mut Random, pack: &[u8]) -> Vec<Vec<u8>> {
    let mut numbers: Vec<Vec<u8>> = (0..3).map(|_| any_number(random)).collect();
    if let Err(Refusal::Clash { e, v, i, f, .. }) = plain::check(pack) {
        numbers.push(generate::number_text(e, v, i, f).into_bytes());
    }
    numbers
}

fn any_pack(random: &mut Random) -> Vec<u8> {
    match random.below(80) {
        0 => generate::noise(random),
        _ => generate::pack(random),
    }
}

#[test]
fn select() {
    let job = "select";
    let mut kinds = rows(&[&NUMBER_ROWS, &PACK_ROWS, &[27]]);
    kinds.extend(plain::Keyword::ALL.map(|keyword| keyword.name().to_string()));
    run(job, &kinds, |random, tally| {
        let pack = any_pack(random);
        for number in numbers_for(random, &pack) {
            let answer = sides::select(&pack, &number);
            match answer.number {
                0 => tally.count(plain::Keyword::ALL[answer.figures[1] as usize].name()),
                number => tally.count(format!("refusal {number}")),
            }
        }
    });
}

/// What is worth telling apart of a clash: its least number's exponent, integer part and fraction.
fn clash_kind([_, _, _, e, v, i, f, _]: Figures) -> String {
    let integer = match i {
        0..=999 => "small i",
        1_000..=999_999 => "i of 4 to 6 digits",
        1_000_000..=9_999_999 => "i of 7 digits",
        _ => "larger i",
    };
    let fraction = match (v, f) {
        (0, _) => "no fraction",
        (_, 0) => "zero fraction",
        (1..=6, _) => "fraction",
        _ => "fraction of 7 to 9 digits",
    };
    let exponent = if e > 0 { ", exponent" } else { "" };
    format!("clash: {integer}, {fraction}{exponent}")
}

#[test]
fn check() {
    let job = "check";
    let mut kinds = rows(&[&PACK_ROWS]);
    kinds.extend(
        [
            "passed",
            "clash: small i, no fraction",
            "clash: small i, fraction",
            "clash: small i, zero fraction",
            "clash: small i, fraction of 7 to 9 digits",
            "clash: i of 7 digits, no fraction",
            "clash: i of 7 digits, fraction",
            "clash: i of 4 to 6 digits, no fraction, exponent",
        ]
        .map(String::from),
    );
    run(job, &kinds, |random, tally| {
        let pack = match random.below(3) {
            0 => any_pack(random),
            _ => generate::clash_pack(random),
        };
        let answer = sides::check(&pack);
        match answer.number {
            0 => tally.count("passed"),
            27 => tally.count(clash_kind(answer.figures)),
            number => tally.count(format!("refusal {number}")),
        }
    });
}

/// The record with 1 as its minimum grouping digits, if it has any.
fn with_least_minimum(record: &[u8]) -> Option<Vec<u8>> {
    let mut place = 0;
    while *record.get(place)? != 0x71 {
        place += 1 + usize::from(record[place] & 15);
    }
    let mut changed = record.to_vec();
    *changed.get_mut(place + 1)? = 1;
    Some(changed)
}

/// Counts whether the minimum grouping digits of a well-formed record keep groups out of a printed text.
fn count_minimum([symbols, pattern, number]: [&[u8]; 3], length: usize, tally: &mut Tally) {
    let Some(least) = with_least_minimum(symbols) else {
        return;
    };
    let by_least = plain::print(&least, pattern, number, &mut [0; LARGE]);
    tally.count(match by_least {
        Ok(longer) if longer > length => "printed, groups held back",
        _ => "printed with a minimum",
    });
}

/// Compares at every size that matters: nothing, one byte, one less than needed, needed, one more, large.
fn print_sizes(inputs: [&[u8]; 3], tally: &mut Tally) {
    let answer = sides::print(inputs, LARGE);
    if answer.number != 0 {
        tally.count(format!("refusal {}", answer.number));
        sides::print(inputs, 0);
        return;
    }
    tally.count("printed");
    let needed = answer.figures[1] as usize;
    count_minimum(inputs, needed, tally);
    for size in [0, 1, needed - 1, needed, needed + 1] {
        let answer = sides::print(inputs, size);
        match answer.number {
            0 => tally.count("printed into a close area"),
            number => tally.count(format!("refusal {number}")),
        }
    }
}

fn print_number(random: &mut Random) -> Vec<u8> {
    match random.below(6) {
        0 => any_number(random),
        _ => generate::near_number(random),
    }
}

#[test]
fn print() {
    let mut kinds = rows(&[&NUMBER_ROWS, &PATTERN_ROWS, &[50, 51]]);
    kinds.extend(
        [
            "printed",
            "printed into a close area",
            "printed with a minimum",
            "printed, groups held back",
        ]
        .map(String::from),
    );
    run("print", &kinds, |random, tally| {
        let symbols = generate::symbols(random);
        let pattern = match random.below(80) {
            0 => generate::noise(random),
            _ => generate::pattern(random),
        };
        for _ in 0..3 {
            let number = print_number(random);
            print_sizes([&symbols, &pattern, &number], tally);
        }
    });
}
