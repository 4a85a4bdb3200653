//! The check's section of the table.

use crate::named;
use crate::table::Table;
use crate::timer::times;
use compare::{made_up, published_packs, sides};
use okwazibelu::raw;
use std::hint::black_box;
use std::time::{Duration, Instant};

/// Calls of which the shortest tells which published pack is the slowest.
const TRIES: usize = 20;

pub fn check(table: &mut Table) {
    table.section("check", "check");
    published(table, "cardinal");
    published(table, "ordinal");
    let made_up = [
        &["other:"][..],
        &made_up::SEVEN_DIGITS,
        &made_up::NINE_PLACES,
        &made_up::LATE,
    ];
    for pack in made_up.concat() {
        let label = format!("{}: {pack}", answer(pack.as_bytes()));
        table.check_row(&label, check_times(&[pack.as_bytes()]));
    }
    for (name, pack) in made_up::HOSTILE {
        let label = format!("hostile {name}, {} bytes  ({})", pack.len(), answer(pack));
        table.check_row(&label, check_times(&[pack]));
    }
}

fn answer(pack: &[u8]) -> String {
    named(plain::check(pack), |()| "passed".to_string())
}

/// Rows of all published packs of a kind, and of the slowest of them.
fn published(table: &mut Table, kind: &str) {
    let packs: Vec<(&str, &[u8])> = published_packs()
        .into_iter()
        .filter(|(id, ..)| id.starts_with(kind))
        .map(|(id, _, pack)| (id, pack.as_bytes()))
        .collect();
    let label = format!("all {} published {kind} packs, total", packs.len());
    let texts: Vec<&[u8]> = packs.iter().map(|&(_, pack)| pack).collect();
    table.row(&label, check_times(&texts));
    let (id, slowest) = packs
        .into_iter()
        .max_by_key(|(_, pack)| proved_time(pack))
        .expect("there are packs");
    let label = format!("the slowest of them for the library, {id}");
    table.check_row(&label, check_times(&[slowest]));
}

fn proved_time(pack: &[u8]) -> Duration {
    let mut figures = [0; 8];
    (0..TRIES)
        .map(|_| {
            let start = Instant::now();
            black_box(raw::check(black_box(pack), &mut figures));
            start.elapsed()
        })
        .min()
        .expect("there are tries")
}

/// Times of checking all the packs, one after the other.
fn check_times(packs: &[&[u8]]) -> (f64, f64) {
    let mut answers = vec![(0, [0; 8]); packs.len()];
    let times = times(
        || {
            for pack in packs {
                black_box(plain::check(black_box(pack))).ok();
            }
        },
        || {
            for (pack, (number, figures)) in packs.iter().zip(&mut answers) {
                *number = raw::check(black_box(pack), black_box(figures));
            }
        },
    );
    for (pack, (number, figures)) in packs.iter().zip(&answers) {
        sides::same_check(pack, *number, figures);
    }
    times
}
