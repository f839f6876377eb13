//! Seeded cases for a long run.

use super::corners::{seeded_in_line, seeded_list};
use super::mending::{lent, repeated};
use super::{Case, IS_SIMPLE_POLYGON, MEND_RING, MIRROR_POLYGON, OPEN_RING, POINT_ON_SEGMENT};
use super::{RING_DISTANCE, SEGMENTS_INTERSECT, SIGNED_AREA2, SIGNED_AREA_ROBUST};
use crate::replay::polygons::{damaged, near, polygon, tolerance, within};
use crate::replay::{float_room, with, EDGES};
use crate::seeded::Seeded;
use crate::shapes::{closed, disc, knot, placed, seeded_ring, star};

/// Most numbers of a room in the list.
const MOST_ROOM: usize = 600;

/// Counts of vertices about those from which on edges are passed over by chains of
/// eight, and at which the last chain is short or full.
const CHAINED: [usize; 12] = [14, 15, 16, 17, 23, 24, 25, 32, 33, 64, 255, 256];

/// Three points: anything, nearly in line, or the last of them one of the others.
fn three(seeded: &mut Seeded) -> Vec<f64> {
    let kind = seeded.below(6);
    let mut list = match seeded.below(3) {
        0 => seeded_in_line(seeded, kind),
        _ => seeded_list(seeded, kind, 6),
    };
    if seeded.below(8) == 0 {
        let from = 2 * seeded.below(2);
        list.copy_within(from..from + 2, 4);
    }
    list
}

/// Two segments: anything, or such that share an end or a line.
fn segments(seeded: &mut Seeded) -> Vec<f64> {
    let kind = seeded.below(6);
    let line = seeded_in_line(seeded, kind);
    match seeded.below(4) {
        0 => [line, seeded_list(seeded, kind, 2)].concat(),
        1 => [&line[4..], &line[..2], &line[2..4], &line[..2]].concat(),
        2 => [&line[..4], &line[4..], &line[2..4]].concat(),
        _ => seeded_list(seeded, kind, 8),
    }
}

/// The list, of which one in nine has an edge number in one place.
fn edged(seeded: &mut Seeded, list: Vec<f64>) -> Vec<f64> {
    if seeded.below(9) > 0 {
        return list;
    }
    with(&list, seeded.below(list.len()), seeded.pick(&EDGES))
}

/// A ring: a shape, anything, of few or many vertices, closed at times.
fn ring(seeded: &mut Seeded) -> Vec<f64> {
    let ring = match seeded.below(20) {
        0..10 => polygon(seeded),
        10 => disc(seeded.pick(&[64, 255, 256]), 9.0),
        11 => seeded_ring(seeded, 256),
        _ => {
            let n = seeded.below(12);
            seeded_ring(seeded, n)
        }
    };
    if !ring.is_empty() && seeded.below(5) == 0 {
        return closed(&ring);
    }
    ring
}

/// A ring, of which one in nine is damaged.
fn any_ring(seeded: &mut Seeded) -> Vec<f64> {
    let ring = ring(seeded);
    if ring.is_empty() || seeded.below(9) > 0 {
        return ring;
    }
    damaged(seeded, &ring)
}

/// A ring of many vertices: round, on a grid with ties, in one line with zeros of
/// both signs, with every vertex twice, tiny, or anything.
fn chained(seeded: &mut Seeded) -> Vec<f64> {
    let n = seeded.pick(&CHAINED);
    match seeded.below(9) {
        0 | 1 => disc(n, seeded.pick(&[1e-3, 1.0, 9.0, 1e5])),
        2 => star(n / 2, 9.0, seeded.pick(&[1.0, 4.0, 8.9])),
        3 => knot(n),
        4 => (0..n).flat_map(|_| [seeded.whole(9), seeded.pick(&[0.0, -0.0])]).collect(),
        5 => {
            let ring = seeded_ring(seeded, n / 2);
            ring.chunks_exact(2).flat_map(|p| [p[0], p[1], p[0], p[1]]).collect()
        }
        6 => {
            let unit = seeded.pick(&[5e-324, 1e-300, 1e-162, 1e-155]);
            (0..2 * n).map(|_| seeded.whole(3) * unit).collect()
        }
        _ => seeded_ring(seeded, n),
    }
}

/// Two such rings, one upon the other, side by side, or far off.
fn chained_pair(seeded: &mut Seeded) -> [Vec<f64>; 2] {
    let [a, b] = [(); 2].map(|()| chained(seeded));
    let size = seeded.pick(&[0.0, 1e-162, 1e-3, 5.0, 20.0, 1e3, 9e5]);
    let (x, y) = match seeded.below(3) {
        0 => (size, 0.0),
        1 => (0.0, -size),
        _ => (seeded.spread(size), seeded.spread(size)),
    };
    [a, within(&placed(&b, 1.0, x, y))]
}

/// A seeded case of this call.
pub fn case(seeded: &mut Seeded, call: u64) -> Case {
    match call {
        MIRROR_POLYGON | OPEN_RING => {
            let ring = any_ring(seeded);
            let room = near(seeded, ring.len()).min(MOST_ROOM);
            Case { room: float_room(room), ..Case::of(call, &ring) }
        }
        IS_SIMPLE_POLYGON | SIGNED_AREA2 | SIGNED_AREA_ROBUST => Case::of(call, &any_ring(seeded)),
        RING_DISTANCE => {
            let [a, b] = match seeded.below(2) {
                0 => chained_pair(seeded),
                _ => [(); 2].map(|()| any_ring(seeded)),
            };
            Case { b, ..Case::of(call, &a) }
        }
        MEND_RING => {
            let whole = any_ring(seeded);
            let ring = repeated(seeded, &whole);
            let [room, dropped, points] = [(); 3].map(|()| near(seeded, ring.len()).min(MOST_ROOM));
            lent(&ring, room, dropped, points)
        }
        SEGMENTS_INTERSECT => {
            let list = segments(seeded);
            Case::of(call, &edged(seeded, list))
        }
        _ => {
            let list = three(seeded);
            let mut list = edged(seeded, list);
            if call == POINT_ON_SEGMENT {
                list.push(tolerance(seeded, 12));
            }
            Case::of(call, &list)
        }
    }
}
