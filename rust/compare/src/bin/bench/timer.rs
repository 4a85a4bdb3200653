//! Times of two ways to do the same, taken in turn.

use std::hint::black_box;
use std::time::{Duration, Instant};

/// How long one run should take: well below a time slice, so that on a busy machine most runs are not interrupted.
const RUN: Duration = Duration::from_micros(500);
/// Runs of which the median is taken, if they take no longer than this.
const RUNS: u32 = 31;
const ALL_RUNS: Duration = Duration::from_millis(200);
/// A call that takes so long is not repeated.
const LONG: Duration = Duration::from_secs(1);

/// Nanoseconds a call of each, the median of several runs; the sides take turns, so that a busy machine slows both.
pub fn times<A, B>(mut plain: impl FnMut() -> A, mut proved: impl FnMut() -> B) -> (f64, f64) {
    let mut plain_side = Side::new(&mut plain);
    let mut proved_side = Side::new(&mut proved);
    for _ in 0..RUNS {
        plain_side.run(&mut plain);
        proved_side.run(&mut proved);
    }
    (median(plain_side.times), median(proved_side.times))
}

/// The middle value; the upper one of two.
pub fn median(mut values: Vec<f64>) -> f64 {
    values.sort_by(f64::total_cmp);
    values[values.len() / 2]
}

/// The runs of one side: how many are left, the calls of each, and the times so far.
struct Side {
    left: u32,
    calls: u32,
    times: Vec<f64>,
}

impl Side {
    /// Calls once, which warms up, and plans the runs by the time that took.
    fn new<A>(call: &mut impl FnMut() -> A) -> Self {
        let first = time(call, 1);
        if first >= LONG {
            return Side {
                left: 0,
                calls: 1,
                times: vec![first.as_nanos() as f64],
            };
        }
        let (calls, run) = calls_of_a_run(call, first);
        let runs = ALL_RUNS.as_nanos() / run.as_nanos().max(1);
        Side {
            left: runs.clamp(1, RUNS.into()) as u32,
            calls,
            times: Vec::new(),
        }
    }

    fn run<A>(&mut self, call: &mut impl FnMut() -> A) {
        if self.left > 0 {
            let run = time(call, self.calls);
            self.times
                .push(run.as_nanos() as f64 / f64::from(self.calls));
            self.left -= 1;
        }
    }
}

/// So many calls that a run takes long enough to be timed, and how long they took.
fn calls_of_a_run<A>(call: &mut impl FnMut() -> A, first: Duration) -> (u32, Duration) {
    let (mut calls, mut run) = (1, first);
    while run < RUN {
        calls *= 2;
        run = time(call, calls);
    }
    (calls, run)
}

fn time<A>(call: &mut impl FnMut() -> A, calls: u32) -> Duration {
    let start = Instant::now();
    for _ in 0..calls {
        black_box(call());
    }
    start.elapsed()
}
