//! Seeded cases for a long run.

use super::corners::EDGES;
use super::{Case, IS_SIMPLE_POLYGON, SEGMENTS_INTERSECT, SIGNED_AREA2};
use crate::seeded::Seeded;
use crate::shapes::{comb, disc, knot, parabola, placed, star};
use crate::whole::MOST;

/// The coordinates rounded to whole numbers.
pub fn rounded(ring: &[f64]) -> Vec<i32> {
    ring.iter().map(|x| x.round() as i32).collect()
}

/// A seeded number within the bounds: small, of any size, or at a corner.
fn number(seeded: &mut Seeded, kind: usize) -> i32 {
    match kind {
        0 => seeded.whole(2) as i32,
        1 => seeded.whole(40) as i32,
        2 => seeded.pick(&[MOST, -MOST, MOST - 1, 1 - MOST, 0, 1]),
        _ => seeded.whole(MOST as usize) as i32,
    }
}

/// So many seeded numbers of one kind.
fn numbers(seeded: &mut Seeded, count: usize) -> Vec<i32> {
    let kind = seeded.below(4);
    (0..count).map(|_| number(seeded, kind)).collect()
}

/// The number, moved by a unit at most and kept within the bounds.
fn beside(seeded: &mut Seeded, x: i32) -> i32 {
    (x + seeded.pick(&[-1, 0, 0, 1])).clamp(-MOST, MOST)
}

/// A point between the ends a and b, on their line or about a unit beside it.
fn near_line(seeded: &mut Seeded, ends: &[i32]) -> [i32; 2] {
    let (part, of) = (seeded.below(5) as i64, 1 + seeded.below(4) as i64);
    [0, 1].map(|i| {
        let (from, to) = (i64::from(ends[i]), i64::from(ends[i + 2]));
        let on = (from + (to - from) * part / of).clamp(-i64::from(MOST), i64::from(MOST));
        beside(seeded, on as i32)
    })
}

/// Three points: anything, or nearly in line.
fn three(seeded: &mut Seeded) -> Vec<i32> {
    let mut list = numbers(seeded, 6);
    if seeded.below(2) == 0 {
        let on = near_line(seeded, &list[..4]);
        list[4..].copy_from_slice(&on);
    }
    list
}

/// Two segments: anything, or such that touch or nearly do.
fn segments(seeded: &mut Seeded) -> Vec<i32> {
    let mut list = numbers(seeded, 8);
    for place in [4, 6] {
        if seeded.below(2) == 0 {
            let on = near_line(seeded, &list[..4]);
            list[place..place + 2].copy_from_slice(&on);
        }
    }
    if seeded.below(2) == 0 {
        list.rotate_left(4);
    }
    list
}

/// A shape with whole coordinates, of up to 256 vertices.
fn shape(seeded: &mut Seeded) -> Vec<i32> {
    let radius = seeded.pick(&[1e6, 5e4, 900.0]);
    let half = 2 + seeded.below(127);
    rounded(&match seeded.below(5) {
        0 => disc(2 * half, radius),
        1 => star(half, radius, radius / 3.0),
        2 => placed(&comb(1 + half / 2), 4.0, -300.0, 7.0),
        3 => parabola(2 * half),
        _ => knot(2 * half),
    })
}

/// A ring: a shape, as it is or with one vertex moved to another edge or beside it; or
/// any numbers.
fn ring(seeded: &mut Seeded) -> Vec<i32> {
    let vertices = if seeded.below(8) == 0 { seeded.below(257) } else { seeded.below(9) };
    let mut ring = match seeded.below(3) {
        0 => return numbers(seeded, 2 * vertices),
        _ => shape(seeded),
    };
    let n = ring.len() / 2;
    if seeded.below(3) > 0 {
        let (edge, vertex) = (seeded.below(n - 1), seeded.below(n));
        let on = near_line(seeded, &ring[2 * edge..2 * edge + 4]);
        ring[2 * vertex..2 * vertex + 2].copy_from_slice(&on);
    }
    if seeded.below(2) == 0 {
        let turned = 2 * seeded.below(n);
        ring.rotate_left(turned);
    }
    ring
}

/// The list, of which one in nine has an edge number in one place.
fn edged(seeded: &mut Seeded, mut list: Vec<i32>) -> Vec<i32> {
    if !list.is_empty() && seeded.below(9) == 0 {
        let place = seeded.below(list.len());
        list[place] = seeded.pick(&EDGES);
    }
    list
}

/// The list, of which one in nine has another length: odd, or of too many entries.
fn lengthened(seeded: &mut Seeded, mut list: Vec<i32>) -> Vec<i32> {
    if seeded.below(9) == 0 {
        let length = seeded.pick(&[1, 511, 512, 513, 514, 515]);
        list.resize(length, seeded.pick(&[3, MOST, MOST + 1]));
    }
    list
}

/// A seeded case of this call.
pub fn case(seeded: &mut Seeded, call: u64) -> Case {
    let list = match call {
        SEGMENTS_INTERSECT => segments(seeded),
        IS_SIMPLE_POLYGON | SIGNED_AREA2 => {
            let ring = ring(seeded);
            lengthened(seeded, ring)
        }
        _ => three(seeded),
    };
    Case { call, list: edged(seeded, list) }
}
