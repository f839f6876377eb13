//! The check of a path, beside the Rust's own pieces put together the same way.

use crate::rows::{Lent, Row, TOLERANCE};
use crate::timing::{side, Sides};
use compare::ffi;
use oracle::answers::Point;
use oracle::fixed::nfp_sliding as text;
use oracle::refusals::Settings;
use oracle::replay::traces::path_of;
use oracle::shapes::disc;
use std::hint::black_box;

/// The settings that the Rust has by default.
const DEFAULT: Settings =
    Settings { contact_tolerance: TOLERANCE, min_translation: 1e-8, max_iterations: 10_000 };

/// Of the path of a trace that comes round each leg in several, so that there are so
/// many points: the first legs get one more than the last, if they do not come out even.
fn parted(round: &[Point], points: usize) -> Vec<Point> {
    let (each, more) = (points / round.len(), points % round.len());
    let leg = |i: usize| {
        let (from, to) = (round[i], round[(i + 1) % round.len()]);
        let parts = each + usize::from(i < more);
        (0..parts).map(move |k| {
            let part = k as f64 / parts as f64;
            (from.0 + part * (to.0 - from.0), from.1 + part * (to.1 - from.1))
        })
    };
    (0..round.len()).flat_map(leg).collect()
}

/// The fault and its index by the Rust's pieces, 0 and 0 for none.
fn by_rust(a: &[Point], b: &[Point], path: &[Point], tolerance: f64) -> (u32, u64) {
    for (i, &from) in path.iter().enumerate() {
        let to = path[(i + 1) % path.len()];
        let moved: Vec<Point> = b.iter().map(|&(x, y)| (x + from.0, y + from.1)).collect();
        if text::find_contacts(a, &moved, tolerance).is_empty() {
            return (1, i as u64);
        }
        let by = (to.0 - from.0, to.1 - from.1);
        if text::check_translation_collision(a, &moved, by, tolerance).is_some() {
            return (2, i as u64);
        }
    }
    (0, 0)
}

/// What the library answers: its number, the fault and its index.
fn by_library([a, b, path]: &[Lent; 3], tolerance: f64) -> (u32, u32, u64) {
    let (mut fault, mut index, mut place) = (0, 0, 0);
    // SAFETY: all lists are as long as is said, and every pointer has its cell.
    let number = unsafe {
        ffi::byr_check_path(
            a.list.as_ptr(),
            a.list.len(),
            b.list.as_ptr(),
            b.list.len(),
            tolerance,
            DEFAULT.min_translation,
            DEFAULT.max_iterations,
            path.list.as_ptr(),
            path.list.len(),
            &mut fault,
            &mut index,
            &mut place,
        )
    };
    (number, fault, index)
}

/// Two discs of n vertices, and a path of so many points round them.
pub fn round_discs(n: usize, points: usize) -> ([Vec<f64>; 2], Vec<Point>) {
    let (a, b) = (disc(n, 10.0), disc(n, 10.0));
    let path = parted(&path_of(&a, &b, &DEFAULT), points);
    assert_eq!(path.len(), points);
    ([a, b], path)
}

/// A path of so many points round two discs of n vertices, all of which are gone
/// through: neither side finds a fault.
fn round(n: usize, points: usize) -> Sides {
    let ([a, b], path) = round_discs(n, points);
    let list = path.iter().flat_map(|p| [p.0, p.1]).collect();
    let lent = [a, b, list].map(Lent::new);
    let [an, bn, path] = [0, 1, 2].map(|i: usize| lent[i].points.clone());
    let rust = move || by_rust(&an, &bn, &path, black_box(TOLERANCE));
    let ours = move || by_library(&lent, black_box(TOLERANCE));
    assert_eq!((rust(), ours()), ((0, 0), (0, 0, 0)));
    [side(rust), side(ours)]
}

/// The path, all of it accepted.
pub fn paths() -> Vec<Row> {
    vec![Row::new("check_path, 1000 points, discs 64 x 64", || round(64, 1000))]
}
