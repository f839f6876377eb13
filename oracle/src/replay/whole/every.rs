//! Every small case: all segments on a grid of 4 by 4 in all pairs, and all rings of
//! up to 5 vertices on a grid of 3 by 3.

use super::{record, Case, RING_CALLS, SEGMENTS_INTERSECT, THREE_POINT_CALLS};

/// The points whose digits, to this base, a number has, so many of them, on a grid of
/// that side.
fn on_grid(number: usize, points: usize, side: usize) -> Vec<i32> {
    let base = side * side;
    let digit = |place: u32| number / base.pow(place) % base;
    let point = |place| [digit(place) % side, digit(place) / side].map(|x| x as i32);
    (0..points as u32).flat_map(point).collect()
}

/// All lists of so many points on a grid of that side.
pub fn grids(points: usize, side: usize) -> impl Iterator<Item = Vec<i32>> {
    let all = (side * side).pow(points as u32);
    (0..all).map(move |number| on_grid(number, points, side))
}

/// The records of them all, one at a time.
pub fn every() -> impl Iterator<Item = Vec<u64>> {
    let triples = grids(3, 4).flat_map(|list| THREE_POINT_CALLS.map(|call| Case::of(call, &list)));
    let segments = grids(4, 4).map(|list| Case::of(SEGMENTS_INTERSECT, &list));
    let rings = (0..=5).flat_map(|vertices| grids(vertices, 3));
    let rings = rings.flat_map(|list| RING_CALLS.map(|call| Case::of(call, &list)));
    triples.chain(segments).chain(rings).map(|case| record(&case))
}
