//! Processor time of this thread, so that what other programs take of the machine is not in it.
use std::time::Duration;

#[repr(C)]
#[derive(Default)]
struct Timespec {
    seconds: i64,
    nanoseconds: i64,
}

unsafe extern "C" {
    fn clock_gettime(clock: i32, time: *mut Timespec) -> i32;
}

/// Linux's number of the clock that counts while this thread runs.
const THREAD_CLOCK: i32 = 3;

fn processor_time() -> Duration {
    let mut time = Timespec::default();
    assert_eq!(unsafe { clock_gettime(THREAD_CLOCK, &mut time) }, 0, "the thread's clock");
    Duration::new(time.seconds as u64, time.nanoseconds as u32)
}

/// The seconds that a call takes.
pub fn once<A>(call: impl FnOnce() -> A) -> (f64, A) {
    let started = processor_time();
    let answer = call();
    ((processor_time() - started).as_secs_f64(), answer)
}

/// A sample is at least so long, in seconds, so that reading the clock does not count.
const SAMPLE: f64 = 100e-6;

/// The least seconds of a call, over samples that take this time together, one at least; `first` is what a call took before.
pub fn least(first: f64, together: f64, mut call: impl FnMut()) -> f64 {
    let mut batch = 1;
    let mut sample = || loop {
        let (taken, ()) = once(|| (0..batch).for_each(|_| call()));
        if taken >= SAMPLE {
            return (taken, taken / f64::from(batch));
        }
        batch *= 2;
    };
    let (mut least, mut spent) = (first, first);
    while spent < together {
        let (taken, each) = sample();
        (least, spent) = (least.min(each), spent + taken);
    }
    least
}

/// How time grows with the size: the exponent, by the line of least squares through their logarithms. None of fewer than two sizes.
pub fn growth(times: &[(usize, f64)]) -> Option<f64> {
    if times.len() < 2 {
        return None;
    }
    let points: Vec<(f64, f64)> = times.iter().map(|(size, time)| ((*size as f64).ln(), time.ln())).collect();
    let count = points.len() as f64;
    let (x, y) = (points.iter().map(|p| p.0).sum::<f64>() / count, points.iter().map(|p| p.1).sum::<f64>() / count);
    let (both, squares) = points.iter().fold((0.0, 0.0), |sums, p| (sums.0 + (p.0 - x) * (p.1 - y), sums.1 + (p.0 - x).powi(2)));
    Some(both / squares)
}
