//! Looks for packs that keep the library's check busy, and for the worst ratio to the ordinary Rust.
//!
//! `attack SECONDS FOLDER [SEED]`: climbs from made-up packs by small changes for so many seconds, tells each new record, and writes the best packs of
//! each aim into the folder. Both sides must give the same answer for every pack tried.

mod climb;
mod fresh;
mod measure;
mod mutate;
mod text;

use climb::{Aim, Climb};
use compare::Random;
use measure::Measured;
use std::path::Path;
use std::process::ExitCode;
use std::time::{Duration, Instant};
use std::{env, fs, io};

/// Packs kept of each aim.
const KEPT: usize = 5;

fn main() -> ExitCode {
    let arguments: Vec<String> = env::args().skip(1).collect();
    let (seconds, folder, seed) = match &arguments[..] {
        [seconds, folder] => (seconds.parse(), folder, Ok(1)),
        [seconds, folder, seed] => (seconds.parse(), folder, seed.parse()),
        _ => return usage(),
    };
    let (Ok(seconds), Ok(seed)) = (seconds, seed) else {
        return usage();
    };
    let found = attack(Duration::from_secs(seconds), Random::new(seed));
    match write(Path::new(folder), &found) {
        Ok(()) => ExitCode::SUCCESS,
        Err(error) => {
            eprintln!("{folder}: {error}");
            ExitCode::FAILURE
        }
    }
}

fn usage() -> ExitCode {
    eprintln!("attack SECONDS FOLDER [SEED]");
    ExitCode::from(2)
}

/// The best packs found for one aim, the best first.
struct Found {
    aim: Aim,
    best: Vec<Measured>,
}

impl Found {
    /// Keeps a climb's top, and tells of it if it is a record.
    fn keep(&mut self, top: &Measured, since: Instant) {
        let score = self.aim.score(top);
        if self
            .best
            .first()
            .is_none_or(|best| score > self.aim.score(best))
        {
            let seconds = since.elapsed().as_secs_f64();
            println!("{seconds:6.1} s  {:<12} {top}", self.aim.name());
        }
        self.best.push(top.clone());
        self.best
            .sort_by(|a, b| self.aim.score(b).total_cmp(&self.aim.score(a)));
        self.best.dedup_by(|a, b| a.text == b.text);
        self.best.truncate(KEPT);
    }
}

/// Climbs for all aims in turn until the time is over.
fn attack(time: Duration, mut random: Random) -> Vec<Found> {
    let since = Instant::now();
    let mut found = Aim::ALL.map(|aim| Found {
        aim,
        best: Vec::new(),
    });
    let mut climbs: [Option<Climb>; Aim::ALL.len()] = Default::default();
    let mut tried = 0u64;
    while since.elapsed() < time {
        for (climb, found) in climbs.iter_mut().zip(&mut found) {
            let higher = match climb {
                Some(climb) => climb.step(&mut random),
                None => true,
            };
            let climb_now = climb.get_or_insert_with(|| Climb::new(found.aim, &mut random));
            if higher {
                found.keep(climb_now.top(), since);
            }
            if climb_now.is_stuck() {
                *climb = None;
            }
            tried += 1;
        }
    }
    println!("{tried} packs tried");
    found.into()
}

/// Writes the packs found, and tells their figures.
fn write(folder: &Path, found: &[Found]) -> io::Result<()> {
    fs::create_dir_all(folder)?;
    for Found { aim, best } in found {
        for (place, measured) in best.iter().enumerate() {
            let name = format!("{}-{}.pack", aim.name(), place + 1);
            println!("{name:<20} {measured}");
            fs::write(folder.join(name), &measured.text)?;
        }
    }
    Ok(())
}
