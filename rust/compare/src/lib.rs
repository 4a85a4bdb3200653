//! The proved library and the ordinary Rust side by side: jobs done by both, inputs for them, and the published packs.

pub mod generate;
pub mod made_up;
mod random;
pub mod sides;

pub use random::Random;

/// The published plural rules: id, locales and pack of each row.
pub fn published_packs() -> Vec<(&'static str, &'static str, &'static str)> {
    include_str!("../data/plural-packs.tsv")
        .lines()
        .filter(|line| !line.starts_with('#'))
        .map(|line| {
            let mut fields = line.split('\t');
            let mut field = || fields.next().expect("a row has three fields");
            (field(), field(), field())
        })
        .collect()
}
