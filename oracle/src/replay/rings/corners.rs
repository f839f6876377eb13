//! Cases for the calls that take single points and segment ends.

use super::Case;
use crate::calls;
use crate::replay::{with, EDGES};
use crate::seeded::Seeded;

/// The calls that take three points.
const THREE_POINT_CALLS: [u64; 5] = [
    super::ORIENTATION,
    super::ON_SEGMENT,
    super::POINT_SEGMENT_DISTANCE,
    super::PROJECT_POINT_TO_SEGMENT,
    super::POINT_TO_SEGMENT_DISTANCE,
];

/// A list with each of the edge numbers in each of its places.
fn edged(list: &[f64]) -> Vec<Vec<f64>> {
    let places = 0..list.len();
    places.flat_map(|place| EDGES.map(|number| with(list, place, number))).collect()
}

/// The number and the two floats next to it.
fn around(x: f64) -> [f64; 3] {
    [x.next_down(), x, x.next_up()]
}

/// Every triple of points of a small grid.
fn grid_triples() -> Vec<Vec<f64>> {
    let point = |i: usize| [(i % 3) as f64, (i / 3) as f64];
    let triple = |i: usize| [point(i % 6), point(i / 6 % 6), point(i / 36)].concat();
    (0..216).map(triple).collect()
}

/// Triples whose determinant is at the margin of 1e-9, or a float beside it.
fn margin_triples() -> Vec<Vec<f64>> {
    let mut found = Vec::new();
    for size in [1e-9, -1e-9, 1e-10, -2e-9] {
        for y in around(size) {
            found.push(vec![0.0, 0.0, 1.0, 0.0, 0.5, y]);
            found.push(vec![0.0, 0.0, 0.0, 1.0, y, 0.5]);
            found.push(vec![0.0, 0.0, 1000.0, 0.0, 0.0, y / 1000.0]);
            found.push(vec![-0.0, 0.0, 1.0, -0.0, y, 0.0]);
            found.push(vec![0.0, 0.0, 1.0, 0.0, 1.0 + y, 0.0]);
            found.push(vec![2.0, 3.0, 2.0, 3.0, 2.0 + y, 3.0]);
        }
    }
    for x in around(1.0 + 1e-9).into_iter().chain(around(-1e-9)).chain(around(4.0 + 1e-9)) {
        found.push(vec![0.0, 0.0, 1.0, 4.0, x, 0.0]);
        found.push(vec![4.0, 1.0, 0.0, 0.0, 0.0, x]);
        found.push(vec![1.0, 1.0, 0.0, 0.0, x, x]);
    }
    found
}

/// Segments of no length, of a length near 1e-10, and of one whose square is
/// subnormal or vanishes; the point is first, then last.
fn short_segments() -> Vec<Vec<f64>> {
    let mut lengths = vec![0.0, -0.0, 5e-324, 1e-200, 1e-162, 1e-160, 1e-154, 1e-20, 1e-5];
    lengths.extend(around(1e-10));
    let mut found = Vec::new();
    for length in lengths {
        for p in [[3.0, 4.0], [length, 0.0], [length / 2.0, -1.0], [-1e6, 1e6]] {
            found.push(vec![p[0], p[1], 0.0, 0.0, length, 0.0]);
            found.push(vec![p[0], p[1], 1.0, 1.0, 1.0, 1.0 + length]);
            found.push(vec![p[0], p[1], 0.0, 0.0, length, length]);
        }
        found.push(vec![0.0, 0.0, length, 0.0, 1.0, 1.0]);
    }
    found
}

/// Feet before, on, between and past the ends of a segment; the piece of
/// docs/SCOPE.md is the first.
fn feet() -> Vec<Vec<f64>> {
    let mut found = vec![vec![7.0, 4.0, 0.0, 0.0, 4.0, 0.0]];
    for x in [-1.0, -0.0, 0.0, 5e-324, 1.0, 3.0, 4.0, 4.0_f64.next_down(), 4.0_f64.next_up()] {
        for y in [0.0, -0.0, 3.0, -1e-7] {
            found.push(vec![x, y, 0.0, 0.0, 4.0, 0.0]);
            found.push(vec![y, x, 0.0, 4.0, 0.0, 0.0]);
            found.push(vec![x, y, -0.0, -0.0, 4.0, 4.0]);
        }
    }
    found
}

/// Seeded numbers of one size, whole, fractional, large or tiny.
pub fn seeded_list(seeded: &mut Seeded, kind: usize, length: usize) -> Vec<f64> {
    let number = |seeded: &mut Seeded| match kind % 6 {
        0 => seeded.whole(3),
        1 => seeded.whole(1_000_000),
        2 => seeded.spread(1_000_000.0),
        3 => seeded.spread(5.0),
        4 => seeded.spread(1e-4),
        _ => seeded.spread(1e-161),
    };
    (0..length).map(|_| number(seeded)).collect()
}

/// Three points nearly in line, of seeded size and place.
pub fn seeded_in_line(seeded: &mut Seeded, kind: usize) -> Vec<f64> {
    let ends = seeded_list(seeded, kind, 4);
    let t = seeded.pick(&[0.0, 0.25, 0.5, 0.3, 0.7, 1.0]);
    let on = |i: usize| ends[i] + t * (ends[i + 2] - ends[i]);
    vec![ends[0], ends[1], ends[2], ends[3], on(0), on(1)]
}

/// All triples of points.
fn triples(seeded: &mut Seeded) -> Vec<Vec<f64>> {
    let mut found = grid_triples();
    found.extend(margin_triples());
    found.extend(short_segments());
    found.extend(feet());
    found.extend(edged(&[0.0, 0.0, 4.0, 0.0, 7.0, 4.0]));
    found.extend((0..120).map(|kind| seeded_list(seeded, kind, 6)));
    found.extend((0..60).map(|kind| seeded_in_line(seeded, kind)));
    found
}

/// Pairs of segments that cross, touch, lie in line, miss, or have no length.
fn plain_pairs() -> Vec<Vec<f64>> {
    let mut found = vec![
        vec![0.0, 0.0, 2.0, 2.0, 0.0, 2.0, 2.0, 0.0],
        vec![0.0, 0.0, 2.0, 0.0, 1.0, 0.0, 1.0, 2.0],
        vec![0.0, 0.0, 2.0, 0.0, 2.0, 0.0, 3.0, 1.0],
        vec![0.0, 0.0, 2.0, 0.0, 1.0, 0.0, 3.0, 0.0],
        vec![0.0, 0.0, 2.0, 0.0, 2.0, 0.0, 4.0, 0.0],
        vec![0.0, 0.0, 2.0, 0.0, 3.0, 0.0, 4.0, 0.0],
        vec![0.0, 0.0, 4.0, 0.0, 1.0, 0.0, 2.0, 0.0],
        vec![0.0, 0.0, 2.0, 0.0, 0.0, 1.0, 2.0, 1.0],
        vec![0.0, 0.0, 2.0, 0.0, 1.0, 1.0, 1.0, 3.0],
        vec![1.0, 1.0, 1.0, 1.0, 0.0, 0.0, 2.0, 2.0],
        vec![1.0, 1.0, 1.0, 1.0, 1.0, 1.0, 1.0, 1.0],
        vec![1.0, 1.0, 1.0, 1.0, 1.0, 2.0, 1.0, 2.0],
        vec![-1e6, -1e6, 1e6, 1e6, -1e6, 1e6, 1e6, -1e6],
        vec![-1e6, 0.0, 1e6, 0.0, 1e6, -1e6, 1e6, 1e6],
        vec![-0.0, -0.0, 0.0, 0.0, 0.0, -0.0, -0.0, 0.0],
        vec![0.1, 0.1, 0.7, 0.7, 0.3, 0.3, 0.9, 0.1],
    ];
    for y in around(0.5e-9).into_iter().chain(around(-0.5e-9)) {
        found.push(vec![0.0, 0.0, 2.0, 0.0, 1.0, y, 1.0, y.signum()]);
        found.push(vec![0.0, 0.0, 2.0, 0.0, 1.0, y, 1.0, -y.signum()]);
        found.push(vec![0.0, 0.0, 2.0, 0.0, 0.5, y, 1.5, y]);
    }
    for x in around(2.0 + 1e-9).into_iter().chain(around(2.0)) {
        found.push(vec![0.0, 0.0, 2.0, 0.0, x, 0.0, 3.0, 0.0]);
        found.push(vec![0.0, 0.0, 2.0, 0.0, x, 0.0, 3.0, 1e-10]);
    }
    found
}

/// The pair in all eight forms: each segment turned round, both exchanged.
fn eight_forms(pair: &[f64]) -> Vec<Vec<f64>> {
    let [a, b, c, d] = [0, 2, 4, 6].map(|i| &pair[i..i + 2]);
    let forms = [[a, b, c, d], [b, a, c, d], [a, b, d, c], [b, a, d, c]];
    let exchanged = forms.map(|[a, b, c, d]| [c, d, a, b]);
    forms.iter().chain(&exchanged).map(|points| points.concat()).collect()
}

/// Whether two segments given as eight numbers meet, by the call.
fn meet(pair: &[f64]) -> bool {
    let p = |i: usize| (pair[2 * i], pair[2 * i + 1]);
    calls::segments_intersect(p(0), p(1), p(2), p(3)) == Ok(true)
}

/// Two segments, the second of which begins beside the first, so that the
/// determinant is near the given one.
fn seeded_touch(seeded: &mut Seeded, kind: usize, determinant: f64) -> Vec<f64> {
    let mut pair = seeded_in_line(seeded, kind);
    let (dx, dy) = (pair[2] - pair[0], pair[3] - pair[1]);
    let share = determinant / (dx * dx + dy * dy);
    pair[4] -= dy * share;
    pair[5] += dx * share;
    pair.extend(seeded_list(seeded, kind, 2));
    pair
}

/// Seeded pairs for which turning a segment round changes the answer: large
/// ones that touch up to rounding, and small ones on the margin.
fn turned_pairs(seeded: &mut Seeded) -> Vec<Vec<f64>> {
    let mut found = Vec::new();
    while found.len() < 25 {
        let (kind, determinant) = [(2, 0.0), (3, 1e-9), (3, -1e-9)][found.len() % 3];
        let pair = seeded_touch(seeded, kind, determinant);
        if eight_forms(&pair).iter().any(|form| meet(form) != meet(&pair)) {
            found.push(pair);
        }
    }
    found
}

/// All pairs of segments.
fn pairs(seeded: &mut Seeded) -> Vec<Vec<f64>> {
    let mut found: Vec<_> = plain_pairs().iter().flat_map(|pair| eight_forms(pair)).collect();
    found.extend(turned_pairs(seeded).iter().flat_map(|pair| eight_forms(pair)));
    found.extend(edged(&[0.0, 0.0, 2.0, 2.0, 0.0, 2.0, 2.0, 0.0]));
    found.extend((0..240).map(|_| seeded_list(seeded, 0, 8)));
    found.extend((0..120).map(|kind| seeded_list(seeded, kind, 8)));
    found
}

/// Points with a tolerance: at the distance and beside it, on the bounds, past
/// them, and with a faulty point besides.
fn tolerant(seeded: &mut Seeded) -> Vec<Vec<f64>> {
    let touching = [1.0, 0.25, 0.0, 0.0, 4.0, 0.0];
    let faulty = [1.0, f64::NAN, 0.0, 0.0, 4.0, 0.0];
    let bounds = [
        0.0,
        -0.0,
        5e-324,
        -5e-324,
        1.0,
        1.0_f64.next_up(),
        1.0_f64.next_down(),
        -1.0,
        2.0,
        f64::NAN,
        f64::INFINITY,
        f64::NEG_INFINITY,
        f64::MIN_POSITIVE,
        1e-6,
    ];
    let mut found = Vec::new();
    for tolerance in bounds.into_iter().chain(around(0.25)) {
        found.push([&touching[..], &[tolerance]].concat());
        found.push([&faulty[..], &[tolerance]].concat());
        found.push([0.0, 0.0, 0.0, 0.0, 4.0, 0.0, tolerance].to_vec());
    }
    found.extend(edged(&touching).iter().map(|list| [&list[..], &[0.5]].concat()));
    for round in 0..90 {
        let list = seeded_list(seeded, [0, 3, 3, 4, 5][round % 5], 6);
        let p = |i: usize| (list[2 * i], list[2 * i + 1]);
        let distance = calls::point_to_segment_distance(p(0), p(1), p(2)).unwrap_or(2.0);
        let beside = if distance < 1.0 { around(distance).to_vec() } else { vec![1.0] };
        for tolerance in beside.into_iter().chain([seeded.unit()]) {
            found.push([&list[..], &[tolerance]].concat());
        }
    }
    found
}

/// All cases of these calls.
pub fn cases(seeded: &mut Seeded) -> Vec<Case> {
    let mut all = Vec::new();
    for triple in triples(seeded) {
        all.extend(THREE_POINT_CALLS.map(|call| Case::of(call, &triple)));
    }
    let footed = [feet(), edged(&feet()[0])].concat();
    all.extend(footed.iter().map(|list| Case::of(super::PROJECTED_FOOT, list)));
    let meeting = pairs(seeded);
    all.extend(meeting.iter().map(|pair| Case::of(super::SEGMENTS_INTERSECT, pair)));
    let near = tolerant(seeded);
    all.extend(near.iter().map(|list| Case::of(super::POINT_ON_SEGMENT, list)));
    all
}
