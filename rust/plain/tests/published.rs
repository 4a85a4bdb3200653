//! The published plural rules: every sample gets its word, and no pack has a clash.

use plain::{check, select};
use std::collections::HashMap;

fn rows(table: &'static str) -> impl Iterator<Item = Vec<&'static str>> {
    table
        .lines()
        .filter(|line| !line.starts_with('#'))
        .map(|line| line.split('\t').collect())
}

fn packs() -> HashMap<&'static str, &'static str> {
    rows(include_str!("data/plural-packs.tsv"))
        .map(|row| (row[0], row[2]))
        .collect()
}

#[test]
fn packs_pass() {
    for (id, pack) in packs() {
        assert_eq!(check(pack.as_bytes()), Ok(()), "{id}");
    }
}

#[test]
fn samples_get_their_words() {
    let packs = packs();
    for row in rows(include_str!("data/plural-cases.tsv")) {
        let word = select(packs[row[0]].as_bytes(), row[1].as_bytes());
        assert_eq!(word.map(|keyword| keyword.name()), Ok(row[2]), "{row:?}");
    }
}
