//! The predicates in whole numbers, from docs/SCOPE.md: exact, without a margin and
//! without a float. Lists are x, y alternating.

use crate::refusals::{lists, unless, Answer, Refusal, RING};

/// A point with whole coordinates.
pub type Spot = (i32, i32);

/// Largest size of a coordinate.
pub const MOST: i32 = 1_000_000;

/// 2 unless every number is at most a million in size.
pub fn within(numbers: &[i32]) -> Answer<()> {
    unless(numbers.iter().all(|x| (-MOST..=MOST).contains(x)), Refusal::of(2))
}

/// 2 unless every point is within the bounds.
fn placed(points: &[Spot]) -> Answer<()> {
    points.iter().try_for_each(|&(x, y)| within(&[x, y]))
}

/// The points of a ring of 0 to 256 vertices, or refusal 1, 9 or 2.
fn ring_of(ring: &[i32]) -> Answer<Vec<Spot>> {
    lists(&[(ring, RING)])?;
    within(ring)?;
    Ok(ring.chunks_exact(2).map(|p| (p[0], p[1])).collect())
}

/// The way from a to b.
fn way(a: Spot, b: Spot) -> (i128, i128) {
    (i128::from(b.0) - i128::from(a.0), i128::from(b.1) - i128::from(a.1))
}

/// The cross product of two ways.
fn cross(d: (i128, i128), e: (i128, i128)) -> i128 {
    d.0 * e.1 - d.1 * e.0
}

// ---------------------------------------------------------------------------
// The rules
// ---------------------------------------------------------------------------

/// Which way a, b, c turn: 1 counter-clockwise, -1 clockwise, 0 collinear.
fn turns(a: Spot, b: Spot, c: Spot) -> i32 {
    cross(way(a, b), way(a, c)).signum() as i32
}

/// Whether p lies in the box of a and b.
fn in_box(a: Spot, b: Spot, p: Spot) -> bool {
    let between = |a: i32, b: i32, p: i32| a.min(b) <= p && p <= a.max(b);
    between(a.0, b.0, p.0) && between(a.1, b.1, p.1)
}

/// Whether the segments p1-p2 and p3-p4 meet, by turns and boxes.
fn meet(p1: Spot, p2: Spot, p3: Spot, p4: Spot) -> bool {
    let [d1, d2] = [p1, p2].map(|p| turns(p3, p4, p));
    let [d3, d4] = [p3, p4].map(|p| turns(p1, p2, p));
    d1 * d2 < 0 && d3 * d4 < 0
        || d1 == 0 && in_box(p3, p4, p1)
        || d2 == 0 && in_box(p3, p4, p2)
        || d3 == 0 && in_box(p1, p2, p3)
        || d4 == 0 && in_box(p1, p2, p4)
}

/// Whether a ring has three vertices or more and no two edges that are not neighbours
/// meet, as this tells it.
fn simple(ring: &[Spot], meet: impl Fn(Spot, Spot, Spot, Spot) -> bool) -> bool {
    let n = ring.len();
    let edge = |i: usize| (ring[i], ring[(i + 1) % n]);
    let neighbours = |i: usize, j: usize| (i + 1) % n == j || (j + 1) % n == i;
    let apart = |i: usize, j: usize| {
        let ((a, b), (c, d)) = (edge(i), edge(j));
        neighbours(i, j) || !meet(a, b, c, d)
    };
    n >= 3 && (0..n).all(|i| (i + 1..n).all(|j| apart(i, j)))
}

// ---------------------------------------------------------------------------
// The calls
// ---------------------------------------------------------------------------

/// Which way a, b, c turn.
pub fn turn(a: Spot, b: Spot, c: Spot) -> Answer<i32> {
    placed(&[a, b, c])?;
    Ok(turns(a, b, c))
}

/// The same: where no margin is left, the orientation is the turn.
pub fn orientation(a: Spot, b: Spot, c: Spot) -> Answer<i32> {
    turn(a, b, c)
}

/// Whether p lies in the box of a and b.
pub fn on_segment(a: Spot, b: Spot, p: Spot) -> Answer<bool> {
    placed(&[a, b, p])?;
    Ok(in_box(a, b, p))
}

/// Whether the segments p1-p2 and p3-p4 meet.
pub fn segments_intersect(p1: Spot, p2: Spot, p3: Spot, p4: Spot) -> Answer<bool> {
    placed(&[p1, p2, p3, p4])?;
    Ok(meet(p1, p2, p3, p4))
}

/// Whether no two edges meet but neighbours.
pub fn is_simple_polygon(ring: &[i32]) -> Answer<bool> {
    Ok(simple(&ring_of(ring)?, meet))
}

/// Twice the signed area.
pub fn signed_area2(ring: &[i32]) -> Answer<i64> {
    let ring = ring_of(ring)?;
    let next = ring.iter().cycle().skip(1);
    let doubled: i128 =
        ring.iter().zip(next).map(|(&a, &b)| cross(way((0, 0), a), way((0, 0), b))).sum();
    Ok(i64::try_from(doubled).expect("256 terms below 2^41 each"))
}

// ---------------------------------------------------------------------------
// The plane itself, apart from the rules
// ---------------------------------------------------------------------------

/// Whether the stretch between two fractions over one denominator, in either order,
/// has a place from 0 to 1.
fn reaches(from: i128, to: i128, over: i128) -> bool {
    let (from, to, over) = if over < 0 { (-from, -to, -over) } else { (from, to, over) };
    from.min(to) <= over && from.max(to) >= 0
}

/// Whether the closed segments p1-p2 and p3-p4 have a point in common: fractions s and t
/// from 0 to 1 at which p1 + s*(p2 - p1) is p3 + t*(p4 - p3), by a common denominator.
/// Where the ways are not in line there is one such pair at most, D*s and D*t being whole;
/// else the second segment is measured along the first and clipped.
pub fn have_common_point(p1: Spot, p2: Spot, p3: Spot, p4: Spot) -> bool {
    let (d, e, w) = (way(p1, p2), way(p3, p4), way(p1, p3));
    let denominator = cross(d, e);
    if denominator != 0 {
        let [s, t] = [cross(w, e), cross(w, d)];
        return reaches(s, s, denominator) && reaches(t, t, denominator);
    }
    let (origin, along, ends) = match (d, e) {
        ((0, 0), (0, 0)) => return p1 == p3,
        ((0, 0), _) => (p3, e, [p1, p2]),
        _ => (p1, d, [p3, p4]),
    };
    if cross(along, way(origin, ends[0])) != 0 {
        return false;
    }
    let part = |p: Spot| if along.0 != 0 { way(origin, p).0 } else { way(origin, p).1 };
    reaches(part(ends[0]), part(ends[1]), if along.0 != 0 { along.0 } else { along.1 })
}

/// Whether a ring of at most 256 vertices has three or more and no two edges that are
/// not neighbours have a point in common.
pub fn has_edges_apart(ring: &[i32]) -> bool {
    let points: Vec<Spot> = ring.chunks_exact(2).map(|p| (p[0], p[1])).collect();
    simple(&points, have_common_point)
}
