//! Seeded polygons, tolerances and rooms for the long runs.

use super::lengths::RINGS;
use super::{with, EDGES};
use crate::calls;
use crate::refusals::LARGEST;
use crate::seeded::Seeded;
use crate::shapes::{comb, disc, placed, reversed, seeded_ring, square, star, whole_shapes};

/// Most numbers of a polygon in the lists.
const MOST_POLYGON: usize = 600;

/// Tolerances within the bounds.
const TOLERANCES: [f64; 14] =
    [1e-6, 1e-6, 1e-6, 1e-6, 1e-12, 1e-9, 1e-8, 1e-4, 1e-3, 0.01, 0.1, 0.25, 0.5, 1.0];

/// Tolerances past the bounds, or on them.
const ODD_TOLERANCES: [f64; 10] = [
    0.0,
    -0.0,
    5e-324,
    1.0_f64.next_up(),
    1.0_f64.next_down(),
    -1e-6,
    f64::NAN,
    f64::INFINITY,
    f64::NEG_INFINITY,
    f64::MIN_POSITIVE,
];

/// A shape near the origin.
fn shape(seeded: &mut Seeded) -> Vec<f64> {
    match seeded.below(16) {
        0 | 1 => square(1.0 + seeded.below(4) as f64),
        2 => vec![0.0, 0.0, 4.0, 0.0, 0.0, 3.0],
        3..6 => {
            let all = whole_shapes();
            all[seeded.below(all.len())].clone()
        }
        6 => comb(1 + seeded.below(3)),
        7 => star(3 + seeded.below(4), 3.0, 0.5 + 2.0 * seeded.unit()),
        8 => disc(4 + seeded.below(12), 1.0 + seeded.unit()),
        9..13 => {
            let (n, size) = (3 + seeded.below(5), 1 + seeded.below(4));
            (0..2 * n).map(|_| seeded.whole(size)).collect()
        }
        13 => {
            let n = 3 + seeded.below(4);
            (0..2 * n).map(|_| seeded.spread(4.0)).collect()
        }
        _ => {
            let n = 3 + seeded.below(6);
            seeded_ring(seeded, n)
        }
    }
}

/// A shape of many vertices.
fn large_shape(seeded: &mut Seeded) -> Vec<f64> {
    let n = seeded.pick(&[32, 64, 100, 255, 256]);
    match seeded.below(3) {
        0 => disc(n, 5.0),
        1 => star(n / 2, 6.0, 4.0),
        _ => comb((n - 2) / 4),
    }
}

/// The ring with one vertex twice.
fn doubled(seeded: &mut Seeded, ring: &[f64]) -> Vec<f64> {
    let place = 2 * seeded.below(ring.len() / 2);
    [&ring[..place + 2], &ring[place..]].concat()
}

/// A polygon within the bounds: turned, scaled, moved, with a corner twice.
pub fn polygon(seeded: &mut Seeded) -> Vec<f64> {
    let mut ring = shape(seeded);
    if seeded.below(4) == 0 {
        ring = reversed(&ring);
    }
    if seeded.below(12) == 0 {
        ring = doubled(seeded, &ring);
    }
    let scale = seeded.pick(&[1.0, 1.0, 1.0, 1.0, 1.0, 1.0, -1.0, 0.5, 0.1, 1.0 / 3.0, 100.0]);
    let (x, y) = match seeded.below(12) {
        0..6 => (0.0, 0.0),
        6..9 => (seeded.whole(5), seeded.whole(5)),
        9 | 10 => (seeded.spread(5.0), seeded.spread(5.0)),
        _ => (seeded.spread(LARGEST), seeded.spread(LARGEST)),
    };
    within(&placed(&ring, scale, x, y))
}

/// The ring drawn in to the bounds.
pub fn within(ring: &[f64]) -> Vec<f64> {
    ring.iter().map(|x| x.clamp(-LARGEST, LARGEST)).collect()
}

/// Two polygons; one of them is large at times.
pub fn pair(seeded: &mut Seeded, large_in: usize) -> [Vec<f64>; 2] {
    let mut pair = [polygon(seeded), polygon(seeded)];
    if seeded.below(large_in) == 0 {
        pair[seeded.below(2)] = large_shape(seeded);
    }
    pair
}

/// Something wrong with a polygon, or just odd: cut off, of a length about its
/// bounds, too long, a number on its bound or past it.
pub fn damaged(seeded: &mut Seeded, ring: &[f64]) -> Vec<f64> {
    let cut = seeded.below(ring.len().min(9));
    match seeded.below(6) {
        0 => ring[..cut].to_vec(),
        1 => ring[..ring.len() - 1].to_vec(),
        2 => [ring, &[1.0]].concat(),
        3 if seeded.below(2) == 0 => {
            let n = if seeded.below(9) == 0 { MOST_POLYGON } else { seeded.pick(&RINGS) };
            ring.iter().cycle().take(n).copied().collect()
        }
        _ => with(ring, seeded.below(ring.len()), seeded.pick(&EDGES)),
    }
}

/// The pair, of which one in so many is damaged, and of these some twice.
pub fn damaged_pair(seeded: &mut Seeded, pair: [Vec<f64>; 2], one_in: usize) -> [Vec<f64>; 2] {
    let [mut a, mut b] = pair;
    if seeded.below(one_in) == 0 {
        let which = seeded.below(5);
        if which != 1 && which != 2 {
            a = damaged(seeded, &a);
        }
        if which != 3 && which != 4 {
            b = damaged(seeded, &b);
        }
    }
    [a, b]
}

/// A tolerance, of which one in so many is odd.
pub fn tolerance(seeded: &mut Seeded, odd_in: usize) -> f64 {
    if seeded.below(odd_in) == 0 {
        seeded.pick(&ODD_TOLERANCES)
    } else if seeded.below(6) == 0 {
        1.0 - seeded.unit()
    } else {
        seeded.pick(&TOLERANCES)
    }
}

/// A length near this one: short, exact, longer, or none.
pub fn near(seeded: &mut Seeded, exact: usize) -> usize {
    match seeded.below(12) {
        0 => exact.saturating_sub(1),
        1 => exact.saturating_sub(2),
        2 => exact + 1,
        3 => exact + 2 + seeded.below(6),
        4 => seeded.below(exact + 1),
        5 if seeded.below(3) == 0 => 0,
        _ => exact,
    }
}

/// Two polygons whose first contact is, for rounding, just the tolerance away,
/// and that tolerance: neither is it a contact nor can it be recovered.
pub fn lost(seeded: &mut Seeded) -> Option<([Vec<f64>; 2], f64)> {
    let x = seeded.unit();
    let top = seeded.pick(&[LARGEST, -LARGEST, 999_999.0, 123_456.0]);
    let stationary = vec![x, 0.0, x + 0.3, 1.0, x + 0.25, 1.0];
    let orbiting = vec![top, 0.0, top - top.signum(), -1.0, top - 0.5 * top.signum(), -1.0];
    let start = calls::find_start_position(&stationary, &orbiting).ok()?;
    let gap = (x - (top + start.0)).abs();
    (gap > 0.0).then_some(([stationary, orbiting], gap))
}
