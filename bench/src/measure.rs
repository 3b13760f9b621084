//! Times of two programs that take turns, so that what disturbs the machine disturbs both.
use crate::clock::thread_time;
use std::time::{Duration, Instant};

/// How long to go on measuring.
#[derive(Clone, Copy)]
pub struct Effort {
    budget: Duration,
    least_rounds: usize,
    /// A program's turn has one sample, and more until this time is over.
    turn: Duration,
}

impl Effort {
    fn of(budget: u64, least_rounds: usize, turn: u64) -> Effort {
        Effort {
            budget: Duration::from_millis(budget),
            least_rounds,
            turn: Duration::from_millis(turn),
        }
    }

    pub fn in_process(quick: bool) -> Effort {
        if quick {
            Effort::of(20, 1, 2)
        } else {
            Effort::of(500, 2, 10)
        }
    }

    /// A turn is one process.
    pub fn processes(quick: bool) -> Effort {
        Effort::of(if quick { 20 } else { 500 }, 1, 0)
    }

    pub fn growth(quick: bool) -> Effort {
        if quick {
            Effort::of(10, 1, 2)
        } else {
            Effort::of(250, 1, 10)
        }
    }

    pub fn once() -> Effort {
        Effort::of(0, 1, 0)
    }
}

/// The best and the median of a program's times for one run, in nanoseconds.
#[derive(Clone, Copy)]
pub struct Times {
    pub best: f64,
    pub median: f64,
}

impl Times {
    fn of(mut samples: Vec<f64>) -> Times {
        samples.sort_by(f64::total_cmp);
        Times {
            best: samples[0],
            median: samples[samples.len() / 2],
        }
    }
}

pub struct Pair {
    pub proved: Times,
    pub fast: Times,
    pub rounds: usize,
}

impl Pair {
    pub fn ratio(&self) -> f64 {
        self.proved.best / self.fast.best
    }
}

/// Lets the two take turns. Each answers the time of one run in nanoseconds.
pub fn interleave(
    effort: Effort,
    mut proved: impl FnMut() -> f64,
    mut fast: impl FnMut() -> f64,
) -> Pair {
    let start = Instant::now();
    let (mut proved_times, mut fast_times) = (Vec::new(), Vec::new());
    let mut rounds = 0;
    while rounds < effort.least_rounds || start.elapsed() < effort.budget {
        take_turn(effort.turn, &mut proved_times, &mut proved);
        take_turn(effort.turn, &mut fast_times, &mut fast);
        rounds += 1;
    }
    Pair {
        rounds,
        proved: Times::of(proved_times),
        fast: Times::of(fast_times),
    }
}

fn take_turn(turn: Duration, times: &mut Vec<f64>, program: &mut impl FnMut() -> f64) {
    let start = Instant::now();
    times.push(program());
    while start.elapsed() < turn {
        times.push(program());
    }
}

/// Shorter samples would measure the clock.
const SHORTEST_SAMPLE: f64 = 100_000.0;

/// The processor time of one run, in nanoseconds. `runs` is how many runs a sample has, 0 before that is known.
pub fn sample(runs: &mut u32, mut run: impl FnMut()) -> f64 {
    if *runs == 0 {
        // A second run tells what a run takes once memory is at hand; of a slow one the first is good enough.
        let first = time(1, &mut run);
        let settled = if first < 1e8 {
            time(1, &mut run)
        } else {
            first
        };
        *runs = (SHORTEST_SAMPLE / settled).ceil() as u32;
        if settled == first {
            return first;
        }
    }
    time(*runs, &mut run)
}

fn time(runs: u32, run: &mut impl FnMut()) -> f64 {
    let start = thread_time();
    for _ in 0..runs {
        run();
    }
    (thread_time() - start) / f64::from(runs)
}
