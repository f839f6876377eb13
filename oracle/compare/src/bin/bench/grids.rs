//! Floats on a grid, beside plain Rust: once as most programs would do it, with the
//! product rounded, which is not exact; once exactly, in u128.

use crate::rows::Row;
use crate::timing::{side, Sides};
use compare::ffi;
use oracle::grid::{is_on_grid, nearest};
use oracle::seeded::Seeded;
use std::hint::black_box;

/// A drawing in millimetres on a grid of micrometres.
const UNITS: u32 = 1000;

/// So many points of both signs; an eighth of the coordinates are 0.
fn drawn(points: usize) -> Vec<f64> {
    let seeded = &mut Seeded::new(3);
    let mut number = || match seeded.below(8) {
        0 => 0.0,
        _ => ((seeded.bits() >> 11) as f64 / (1_u64 << 53) as f64 - 0.5) * 2000.0,
    };
    (0..2 * points).map(|_| number()).collect()
}

/// The library's call: its number and how many points were written.
fn put(list: &[f64], room: &mut [i32]) -> (u32, u64) {
    let (mut count, mut place) = (0, 0);
    // SAFETY: both lists are as long as is said, and both cells are there.
    let number = unsafe {
        ffi::byr_to_grid(
            list.as_ptr(),
            list.len(),
            black_box(UNITS),
            room.as_mut_ptr(),
            room.len(),
            &mut count,
            &mut place,
        )
    };
    (number, count)
}

/// The product, rounded, tested and rounded to a whole number.
fn by_product(list: &[f64], room: &mut [i32]) -> bool {
    let units = f64::from(black_box(UNITS));
    if !list.iter().all(|x| (x * units).abs() <= 1e6) {
        return false;
    }
    for (x, to) in list.iter().zip(room) {
        *to = (x * units).round() as i32;
    }
    true
}

/// Exactly, by the oracle's fractions.
fn by_fractions(list: &[f64], room: &mut [i32]) -> bool {
    let units = black_box(UNITS);
    if !list.iter().all(|&x| x.abs() <= 1e6 && is_on_grid(units, x)) {
        return false;
    }
    for (&x, to) in list.iter().zip(room) {
        *to = nearest(units, x);
    }
    true
}

/// So many points, beside one of the two.
fn points(count: usize, plain: fn(&[f64], &mut [i32]) -> bool) -> Sides {
    let list = drawn(count);
    let (mut ours, mut theirs) = (vec![0; list.len()], vec![0; list.len()]);
    assert_eq!(put(&list, &mut ours), (0, count as u64));
    assert!(plain(&list, &mut theirs));
    assert_eq!(ours, theirs);
    let lent = list.clone();
    [side(move || plain(black_box(&list), &mut theirs)), side(move || put(&lent, &mut ours))]
}

/// A disc's corners and the longest list there is.
pub fn grids() -> Vec<Row> {
    vec![
        Row::new("to_grid, 64 points, product rounded", || points(64, by_product)),
        Row::new("to_grid, 10,001 points, product rounded", || points(10_001, by_product)),
        Row::new("to_grid, 10,001 points, exactly in u128, under 80.0 µs", || {
            points(10_001, by_fractions)
        }),
    ]
}
