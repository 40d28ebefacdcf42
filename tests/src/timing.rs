//! Times of what the benches call.

use std::fs;
use std::hint::black_box;
use std::io::{Error, ErrorKind, Result};
use std::ops::AddAssign;
use std::thread::yield_now;
use std::time::Instant;

/// The kernel's clock ticks in a second, in which it tells the times of processes.
const TICKS: f64 = 100.0;

/// Seconds by the clock, and on the processor.
#[derive(Clone, Copy, Debug, Default)]
pub struct Time {
    pub wall: f64,
    pub processor: f64,
}

impl AddAssign for Time {
    fn add_assign(&mut self, other: Self) {
        self.wall += other.wall;
        self.processor += other.processor;
    }
}

impl Time {
    /// The median of each.
    pub fn median(times: &[Time]) -> Self {
        Time {
            wall: median(times.iter().map(|time| time.wall).collect()),
            processor: median(times.iter().map(|time| time.processor).collect()),
        }
    }
}

/// What a call answers, and the time that this thread takes for it.
pub fn timed<T>(call: impl FnOnce() -> T) -> Result<(T, Time)> {
    let before = processor()?;
    let start = Instant::now();
    let answer = call();
    let time = Time {
        wall: start.elapsed().as_secs_f64(),
        processor: processor()? - before,
    };
    Ok((answer, time))
}

/// The seconds that this thread has had on the processor. The kernel adds up its nanoseconds at
/// every clock tick, and whenever the thread yields.
fn processor() -> Result<f64> {
    yield_now();
    Ok(number("/proc/thread-self/schedstat", 0)? / 1e9)
}

/// The seconds that the ended processes that were started here have had on the processor, with those
/// of the kernel for them.
pub fn processor_of_children() -> Result<f64> {
    let [user, kernel] = [15, 16].map(|place| number("/proc/self/stat", place));
    Ok((user? + kernel?) / TICKS)
}

/// A number out of a line of the kernel's, by its place, counted from 0. No name here has a blank.
fn number(path: &str, place: usize) -> Result<f64> {
    let line = fs::read_to_string(path)?;
    let number = line.split_whitespace().nth(place);
    let number = number.and_then(|number| number.parse().ok());
    number.ok_or_else(|| Error::new(ErrorKind::InvalidData, path))
}

/// The time of one call, as the mean of many.
pub fn nanoseconds<T>(calls: u32, call: impl Fn() -> T) -> f64 {
    let start = Instant::now();
    for _ in 0..calls {
        black_box(call());
    }
    start.elapsed().as_nanos() as f64 / f64::from(calls)
}

pub fn median(mut times: Vec<f64>) -> f64 {
    times.sort_by(f64::total_cmp);
    times[times.len() / 2]
}
