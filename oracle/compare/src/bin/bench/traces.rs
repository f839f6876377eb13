//! Traces: shapes of 8 to 256 vertices, docs/SCOPE.md's squares, and one that
//! stores a point in every pass.

use crate::rows::{Lent, Row, TOLERANCE};
use crate::timing::{side, Sides};
use compare::ffi;
use oracle::answers::{Error, Nfp, Result};
use oracle::fixed::nfp_sliding::{compute_nfp_sliding, SlidingNfpConfig};
use oracle::shapes::{comb, disc, parabola, placed, square};
use std::hint::black_box;

/// The most passes, and the points that they can store.
pub const MOST_PASSES: usize = 10_000;
const ROOM: usize = 2 * (MOST_PASSES + 1);

/// The default settings with this pass limit.
fn settings(max_iterations: usize) -> SlidingNfpConfig {
    SlidingNfpConfig { contact_tolerance: TOLERANCE, max_iterations, min_translation: 1e-8 }
}

/// A comb of n vertices, a multiple of four: two more on its back than a tooth
/// asks for.
fn comb_of(n: usize) -> Vec<f64> {
    let ring = comb(n / 4 - 1);
    let back = ring[2];
    [&[0.0, 0.0, back / 4.0, 0.0, back / 2.0, 0.0], &ring[2..]].concat()
}

/// Two polygons whose trace stores a point in every pass there may be.
pub fn storing() -> [Lent; 2] {
    let stationary = vec![3.0, 3.0, 3.0, -2.0, -4.0, -2.0];
    [stationary, vec![-3.0, 3.0, -4.0, 3.0, 0.0, -1.0, 0.0, 1.0]].map(Lent::new)
}

/// The Rust's trace.
pub fn by_rust(pair: &[Lent; 2], passes: usize) -> Result<Nfp> {
    compute_nfp_sliding(&pair[0].points, &pair[1].points, &settings(passes), ROOM / 2)
}

/// What the library answers: its number, points, points stored, passes, reason.
type Told = (u32, u64, u64, u64, u32);

/// The library's trace into these rooms.
pub fn by_library(pair: &[Lent; 2], passes: usize, work: &mut [f64], result: &mut [f64]) -> Told {
    let (config, [a, b]) = (settings(passes), pair);
    let (mut points, mut stored, mut begun, mut stop, mut place) = (0, 0, 0, 0, 0);
    // SAFETY: all lists are as long as is said, and every pointer has its cell.
    let number = unsafe {
        ffi::byr_compute_nfp_sliding(
            a.list.as_ptr(),
            a.list.len(),
            b.list.as_ptr(),
            b.list.len(),
            config.contact_tolerance,
            config.min_translation,
            config.max_iterations as u64,
            work.as_mut_ptr(),
            work.len(),
            result.as_mut_ptr(),
            result.len(),
            &mut points,
            &mut stored,
            &mut begun,
            &mut stop,
            &mut place,
        )
    };
    (number, points, stored, begun, stop)
}

/// What the Rust answers, as the library tells it.
fn told(answer: &Result<Nfp>) -> Told {
    match answer {
        Ok(Nfp { polygon, trace }) => {
            let (points, stored) = (polygon.len() as u64, trace.path.len() as u64);
            (0, points, stored, trace.passes, trace.stop)
        }
        Err(Error::Short(trace)) => (6, 0, 0, trace.passes, trace.stop),
        Err(_) => panic!("there is room for every point"),
    }
}

/// The trace of this pair with this pass limit, and what comes of it.
fn sides(pair: [Lent; 2], passes: usize) -> (Sides, String) {
    let rust_pair = [0, 1].map(|i: usize| Lent::new(pair[i].list.clone()));
    let (mut work, mut result) = (vec![0.0; ROOM], vec![0.0; ROOM]);
    let answer = told(&by_rust(&pair, passes));
    assert_eq!(answer, by_library(&pair, passes, &mut work, &mut result));
    let (_, _, stored, begun, stop) = answer;
    let sides = [
        side(move || by_rust(&rust_pair, black_box(passes))),
        side(move || by_library(&pair, black_box(passes), &mut work, &mut result)),
    ];
    (sides, format!(": {stored} points stored, {begun} passes, reason {stop}"))
}

/// The row of a trace.
fn row(name: &str, stationary: Vec<f64>, orbiting: Vec<f64>, passes: usize) -> Row {
    let pair = [stationary, orbiting].map(Lent::new);
    let (n, m) = (pair[0].points.len(), pair[1].points.len());
    let name = format!("trace, {name}, {n} x {m}, limit {passes}");
    Row { name, sides: Box::new(move || sides(pair, passes)) }
}

/// Traces of shapes, by shape and size, and those of docs/SCOPE.md.
pub fn traces() -> Vec<Row> {
    let mut all = Vec::new();
    for n in [8, 32, 64, 256] {
        all.push(row("convex", parabola(n), parabola(n), 100));
        all.push(row("disc", disc(n, 10.0), disc(n, 10.0), 100));
        all.push(row("comb", comb_of(n), placed(&comb_of(n), 0.5, 0.0, 0.0), 100));
    }
    for n in [8, 32, 64] {
        all.push(row("convex", parabola(n), parabola(n), MOST_PASSES));
        all.push(row("disc", disc(n, 10.0), disc(n, 10.0), MOST_PASSES));
        all.push(row("comb", comb_of(n), placed(&comb_of(n), 0.5, 0.0, 0.0), MOST_PASSES));
    }
    all.push(row("squares S and Q", square(4.0), square(2.0), MOST_PASSES));
    all.push(row("squares Q and S", square(2.0), square(4.0), MOST_PASSES));
    all
}

/// One shape with more and more vertices.
pub fn by_vertices() -> Vec<Row> {
    let sizes = [8, 16, 32, 64, 128, 256];
    sizes.map(|n| row("growing disc", disc(n, 10.0), disc(n, 10.0), 50)).into()
}

/// One pair with more and more passes.
pub fn by_passes() -> Vec<Row> {
    let storing_row = |passes| {
        let [a, b] = storing();
        row("storing", a.list, b.list, passes)
    };
    [10, 100, 1_000, MOST_PASSES].map(storing_row).into()
}
