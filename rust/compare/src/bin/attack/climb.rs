//! Climbing from a pack to ever worse ones by small changes.

use crate::fresh::fresh;
use crate::measure::{Measured, QUICK, SURE, measure};
use crate::mutate::mutate;
use crate::text::{fit, text};
use compare::Random;
use plain::Pack;
use std::time::Duration;

/// A climb without a better pack in so many steps is given up.
const STUCK: u32 = 400;
/// The time of the ordinary Rust from which on the cost of a call as such matters little.
const LARGE: Duration = Duration::from_micros(10);

/// What a climb looks for.
#[derive(Clone, Copy)]
pub enum Aim {
    /// The longest check.
    Time,
    /// The worst ratio.
    Ratio,
    /// The worst ratio of a check that takes ordinary Rust some time.
    LargeRatio,
}

impl Aim {
    pub const ALL: [Aim; 3] = [Aim::Time, Aim::Ratio, Aim::LargeRatio];

    pub fn name(self) -> &'static str {
        match self {
            Aim::Time => "time",
            Aim::Ratio => "ratio",
            Aim::LargeRatio => "large-ratio",
        }
    }

    /// The higher the worse.
    pub fn score(self, measured: &Measured) -> f64 {
        match self {
            Aim::Time => measured.proved.as_secs_f64(),
            Aim::Ratio => measured.ratio(),
            Aim::LargeRatio if measured.plain < LARGE => 0.0,
            Aim::LargeRatio => measured.ratio(),
        }
    }
}

/// A pack on its way up.
pub struct Climb {
    aim: Aim,
    pack: Pack,
    top: Measured,
    steps_in_vain: u32,
}

impl Climb {
    /// A climb from a fresh pack.
    pub fn new(aim: Aim, random: &mut Random) -> Self {
        let mut pack = fresh(random);
        fit(&mut pack, random);
        let top = measure(text(&pack), SURE);
        Climb {
            aim,
            pack,
            top,
            steps_in_vain: 0,
        }
    }

    pub fn top(&self) -> &Measured {
        &self.top
    }

    pub fn is_stuck(&self) -> bool {
        self.steps_in_vain > STUCK
    }

    /// Tries a changed pack; true if it is a worse one.
    pub fn step(&mut self, random: &mut Random) -> bool {
        let mut pack = self.pack.clone();
        for _ in 0..random.one_of(&[1, 1, 1, 2, 3, 6]) {
            mutate(&mut pack, random);
        }
        fit(&mut pack, random);
        let higher = self.higher(text(&pack));
        match higher {
            Some(measured) => {
                self.top = measured;
                self.pack = pack;
                self.steps_in_vain = 0;
                true
            }
            None => {
                self.steps_in_vain += 1;
                false
            }
        }
    }

    /// The measured text if it scores higher than the top, also when measured with care.
    fn higher(&self, text: Vec<u8>) -> Option<Measured> {
        let is_higher = |measured: &Measured| self.aim.score(measured) > self.aim.score(&self.top);
        let quick = measure(text, QUICK);
        if !is_higher(&quick) {
            return None;
        }
        Some(measure(quick.text, SURE)).filter(is_higher)
    }
}
