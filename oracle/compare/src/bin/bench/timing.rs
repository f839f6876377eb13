//! The median time of one call, both sides by turns.

use std::hint::black_box;
use std::time::Instant;

/// How many times each side is measured.
pub const RUNS: usize = 11;

/// Seconds that one measurement takes at least, unless one call takes longer.
const LEAST: f64 = 0.005;

/// The two sides of a row; each makes one call.
pub type Sides = [Box<dyn FnMut()>; 2];

/// A side that makes this call, whatever it answers.
pub fn side<T>(mut call: impl FnMut() -> T + 'static) -> Box<dyn FnMut()> {
    Box::new(move || {
        black_box(call());
    })
}

/// Seconds that so many calls take.
fn seconds(side: &mut dyn FnMut(), calls: u32) -> f64 {
    let start = Instant::now();
    (0..calls).for_each(|_| side());
    start.elapsed().as_secs_f64()
}

/// How many calls one measurement makes.
fn calls_of(side: &mut dyn FnMut()) -> u32 {
    let mut calls = 1;
    while calls < 1 << 24 && seconds(side, calls) < LEAST {
        calls *= 2;
    }
    calls
}

/// The median of the measurements.
fn median(mut times: Vec<f64>) -> f64 {
    times.sort_by(f64::total_cmp);
    times[times.len() / 2]
}

/// The median seconds of one call of each side.
pub fn measured(sides: &mut Sides) -> [f64; 2] {
    let [one, other] = sides;
    let calls = [calls_of(one), calls_of(other)];
    let mut times = [Vec::new(), Vec::new()];
    for _ in 0..RUNS {
        times[0].push(seconds(one, calls[0]) / f64::from(calls[0]));
        times[1].push(seconds(other, calls[1]) / f64::from(calls[1]));
    }
    times.map(median)
}

/// A time in a unit that suits it.
pub fn shown(seconds: f64) -> String {
    let (unit, size) = [("s", 1.0), ("ms", 1e-3), ("µs", 1e-6)]
        .into_iter()
        .find(|(_, size)| seconds >= *size)
        .unwrap_or(("ns", 1e-9));
    format!("{:.3} {unit}", seconds / size)
}
