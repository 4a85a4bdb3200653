//! Times of one pack's check by both sides.

use compare::sides;
use okwazibelu::raw;
use std::fmt;
use std::hint::black_box;
use std::time::{Duration, Instant};

/// Calls that are timed however long they take: a machine may pause during one.
const LEAST: u32 = 3;

/// How many calls are timed, unless they take longer than this.
#[derive(Clone, Copy)]
pub struct Effort {
    calls: u32,
    time: Duration,
}

/// For a first look.
pub const QUICK: Effort = Effort {
    calls: 3,
    time: Duration::from_millis(20),
};

/// Before a pack is taken: enough that a pause of the machine is not taken for a slow pack.
pub const SURE: Effort = Effort {
    calls: 15,
    time: Duration::from_millis(300),
};

/// A pack's text and the shortest of its times.
#[derive(Clone)]
pub struct Measured {
    pub text: Vec<u8>,
    pub plain: Duration,
    pub proved: Duration,
    number: u32,
}

impl Measured {
    pub fn ratio(&self) -> f64 {
        self.proved.as_secs_f64() / self.plain.as_secs_f64()
    }
}

impl fmt::Display for Measured {
    fn fmt(&self, f: &mut fmt::Formatter) -> fmt::Result {
        let micros = |time: Duration| time.as_nanos() as f64 / 1000.0;
        let answer = match self.number {
            0 => "passed".to_string(),
            number => format!("refusal {number}"),
        };
        write!(
            f,
            "proved {:9.1} us, plain {:8.1} us, ratio {:6.2}, {:4} bytes, {answer}",
            micros(self.proved),
            micros(self.plain),
            self.ratio(),
            self.text.len()
        )
    }
}

/// Times both sides in turn; the answers must be the same.
pub fn measure(text: Vec<u8>, effort: Effort) -> Measured {
    let mut figures = [0; 8];
    let (mut plain, mut proved) = (Duration::MAX, Duration::MAX);
    let mut number = 0;
    let since = Instant::now();
    for done in 1..=effort.calls {
        plain = plain.min(timed(|| {
            black_box(plain::check(black_box(&text))).ok();
        }));
        proved = proved.min(timed(|| {
            number = raw::check(black_box(&text), black_box(&mut figures));
        }));
        if done >= LEAST && since.elapsed() > effort.time {
            break;
        }
    }
    sides::same_check(&text, number, &figures);
    Measured {
        text,
        plain,
        proved,
        number,
    }
}

fn timed(call: impl FnOnce()) -> Duration {
    let start = Instant::now();
    call();
    start.elapsed()
}
