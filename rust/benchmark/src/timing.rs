//! Times of a row: the Rust, the port's call as a whole, and the checks in it, each the least of many samples.
//!
//! Samples are in processor time of this thread, so that what other programs take of the machine is not in them. What they do to the caches
//! and to a core's other thread is: so the sides take short turns, and each has its share of the quiet moments.
use std::hint::black_box;
use std::time::{Duration, Instant};

/// What a row times. Each call does the same again: it puts back what it needs, in a time that does not grow with the input.
pub trait Timed {
    type Answer;
    fn rust(&mut self) -> Self::Answer;
    /// The port's call or calls, checks included.
    fn whole(&mut self);
    /// The checks that `whole` makes, on the same stores, with next to no other work.
    fn checks(&mut self);
}

/// Nanoseconds for each; no time of the Rust where it has nothing to compare.
pub struct Times {
    pub rust: Option<f64>,
    pub whole: f64,
    pub checks: f64,
}

/// How long each side is measured, in how many turns.
#[derive(Clone, Copy)]
pub struct Budget {
    pub turn: Duration,
    pub turns: u32,
    /// Whether the Rust's time has the drop of its answer in it, as a caller of it has to pay.
    pub with_drop: bool,
}

/// A sample is at least so long, so that reading the clock does not count.
const SAMPLE: Duration = Duration::from_micros(200);

#[repr(C)]
#[derive(Default)]
struct Timespec {
    seconds: i64,
    nanoseconds: i64,
}

unsafe extern "C" {
    fn clock_gettime(clock: i32, time: *mut Timespec) -> i32;
}

/// Linux's number of the clock that counts while this thread runs.
const THREAD_CLOCK: i32 = 3;

fn processor_time() -> Duration {
    let mut time = Timespec::default();
    assert_eq!(unsafe { clock_gettime(THREAD_CLOCK, &mut time) }, 0, "the thread's clock");
    Duration::new(time.seconds as u64, time.nanoseconds as u32)
}

struct Side {
    batch: usize,
    least: f64,
}

impl Side {
    /// Runs warm, and finds how many calls make a sample.
    fn new<A>(with_drop: bool, mut call: impl FnMut() -> A) -> Self {
        let mut batch = 1;
        while sample(batch, with_drop, &mut call) < SAMPLE {
            batch *= 2;
        }
        Self { batch, least: f64::INFINITY }
    }

    fn turn<A>(&mut self, budget: &Budget, mut call: impl FnMut() -> A) {
        let started = processor_time();
        while processor_time() - started < budget.turn {
            let taken = sample(self.batch, budget.with_drop, &mut call);
            self.least = self.least.min(taken.as_nanos() as f64 / self.batch as f64);
        }
    }
}

fn sample<A>(calls: usize, with_drop: bool, call: &mut impl FnMut() -> A) -> Duration {
    let mut kept = Vec::with_capacity(if with_drop { 0 } else { calls });
    let started = processor_time();
    for _ in 0..calls {
        let answer = black_box(call());
        if !with_drop {
            kept.push(answer);
        }
    }
    processor_time() - started
}

pub fn measure<T: Timed>(timed: &mut T, budget: &Budget) -> Times {
    let mut rust = Side::new(budget.with_drop, || timed.rust());
    let mut whole = Side::new(true, || timed.whole());
    let mut checks = Side::new(true, || timed.checks());
    for _ in 0..budget.turns {
        rust.turn(budget, || timed.rust());
        whole.turn(budget, || timed.whole());
        checks.turn(budget, || timed.checks());
    }
    Times { rust: Some(rust.least), whole: whole.least, checks: checks.least }
}

/// The time of a call that only makes checks.
pub fn measure_checks(budget: &Budget, mut call: impl FnMut()) -> Times {
    let mut side = Side::new(true, &mut call);
    for _ in 0..budget.turns {
        side.turn(budget, &mut call);
    }
    Times { rust: None, whole: side.least, checks: side.least }
}

// ---- lists of calls ----

/// The least time of each call of a list, over all times that the list was made. A call is too short for the thread's clock; that another
/// program comes between is not in the least time of it.
#[derive(Default)]
struct Laps {
    least: Vec<Duration>,
    at: usize,
}

impl Laps {
    fn time<A>(&mut self, call: impl FnOnce() -> A) -> A {
        let started = Instant::now();
        let answer = call();
        let taken = started.elapsed();
        match self.least.get_mut(self.at) {
            Some(least) => *least = taken.min(*least),
            None => self.least.push(taken),
        }
        self.at += 1;
        answer
    }

    /// The nanoseconds of the list, without those for reading the clock.
    fn sum(&self) -> f64 {
        let mut clock = Self::default();
        for _ in 0..1000 {
            clock.at = 0;
            clock.time(|| ());
        }
        self.least.iter().map(|least| least.saturating_sub(clock.least[0]).as_nanos() as f64).sum()
    }
}

/// The calls of a list and the checks in each. Nearly all of a list's time is checks; to tell the work apart from them, each call is timed
/// right after its checks were timed alone, so that a busy machine slows both alike.
#[derive(Default)]
pub struct ListTimes {
    checks: Laps,
    whole: Laps,
}

impl ListTimes {
    /// The next call's checks alone.
    pub fn checks<A>(&mut self, checks: impl FnOnce() -> A) -> A {
        self.checks.time(checks)
    }

    /// The next call.
    pub fn whole<A>(&mut self, call: impl FnOnce() -> A) -> A {
        self.whole.time(call)
    }

    /// How many calls the list has.
    pub fn calls(&self) -> usize {
        self.whole.least.len()
    }

    fn restart(&mut self) {
        (self.checks.at, self.whole.at) = (0, 0);
    }
}

/// A list of calls: the Rust's in one, the port's one by one.
pub trait TimedList {
    type Answer;
    fn rust(&mut self) -> Self::Answer;
    fn port(&mut self, times: &mut ListTimes);
}

pub fn measure_list<T: TimedList>(timed: &mut T, budget: &Budget) -> Times {
    let mut rust = Side::new(budget.with_drop, || timed.rust());
    let mut times = ListTimes::default();
    for _ in 0..budget.turns {
        rust.turn(budget, || timed.rust());
        let started = processor_time();
        while processor_time() - started < 2 * budget.turn {
            times.restart();
            timed.port(&mut times);
        }
    }
    Times { rust: Some(rust.least), whole: times.whole.sum(), checks: times.checks.sum() }
}
