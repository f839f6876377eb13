//! The exact answer to a whole move, apart from the rules: without a parting line, by
//! the times and places at which an edge would lie inside the moved polygon, in whole
//! numbers of 128 bits.
//!
//! Of the orbiting polygon the hull is meant. At the time t a point lies inside it, not
//! on its rim, exactly if it is strictly left of each edge of the hull moved by t times
//! the move. For the point at the part u of a stationary edge this is, for each edge of
//! the hull, `a + b*t + c*u > 0` with whole a, b and c. So the question is whether a pair
//! of a time and a part, both from 0 to 1, has them all above 0.
//!
//! The pairs that have none of them below 0 are a convex region in a square. Its corners
//! are among the points where two of its lines cross, and it is what lies between them.
//! If some pair of the region has `a + b*t + c*u > 0`, then a corner has it too. If for
//! each edge of the hull there is such a corner, then the middle of all corners has them
//! all above 0; and if for some edge there is none, then no pair has.
//!
//! Where no edge ever lies inside, what the polygon sweeps is in one piece and has no
//! edge in it. So it is outside the ring if one point of it is, and the middle of the
//! hull's corners at the start is such a point.

use super::{edges, moved, places, Place};
use crate::whole::Spot;

/// Largest size of a coordinate, at the start and at the end, for which nothing here
/// overflows: the largest number is at most 3072 times its sixth power.
pub const MOST: i64 = 500_000;

/// `a + b*t + c*u`, for a time t and a part u.
type Linear = [i128; 3];

/// A time and a part as fractions over one denominator, which is above 0 and comes first.
type Pair = [i128; 3];

/// The cross product of the ways from a to b and from c to d.
fn cross([a, b]: [Place; 2], [c, d]: [Place; 2]) -> i128 {
    let way = |from: Place, to: Place| (i128::from(to.0 - from.0), i128::from(to.1 - from.1));
    let ((x, y), (z, w)) = (way(a, b), way(c, d));
    x * w - y * z
}

/// The hull of the points, counter-clockwise, without corners in line; of points that
/// are all in line nothing.
pub fn hull(points: &[Place]) -> Option<Vec<Place>> {
    let mut sorted = points.to_vec();
    sorted.sort_unstable();
    let chain = |points: &mut dyn Iterator<Item = Place>| {
        let mut kept: Vec<Place> = Vec::new();
        for p in points {
            while let [.., a, b] = kept[..] {
                if cross([a, b], [a, p]) > 0 {
                    break;
                }
                kept.pop();
            }
            kept.push(p);
        }
        kept.pop();
        kept
    };
    let lower = chain(&mut sorted.iter().copied());
    let upper = chain(&mut sorted.iter().rev().copied());
    let corners = [lower, upper].concat();
    (corners.len() >= 3).then_some(corners)
}

/// Whether a ring goes once round its hull: its corners are left of each of its edges or
/// on it, or all are right of it or on it, and there is an area.
pub fn is_convex(ring: &[i32]) -> bool {
    let ring = places(ring);
    let turns = |sign: i128| {
        edges(&ring).all(|edge| ring.iter().all(|&v| sign * cross(edge, [edge[0], v]) >= 0))
    };
    hull(&ring).is_some() && (turns(1) || turns(-1))
}

/// Where a + b*t + c*u is 0 for both of these; nothing where that is no single pair.
fn crossing(f: Linear, g: Linear) -> Option<Pair> {
    let minor = |i: usize, j: usize| f[i] * g[j] - f[j] * g[i];
    let (over, t, u) = (minor(1, 2), minor(2, 0), minor(0, 1));
    (over != 0).then(|| [over, t, u].map(|x| x * over.signum()))
}

/// What this is at a pair, times the pair's denominator.
fn at(f: Linear, pair: Pair) -> i128 {
    f[0] * pair[0] + f[1] * pair[1] + f[2] * pair[2]
}

/// That the time and the part are from 0 to 1.
const SQUARE: [Linear; 4] = [[0, 1, 0], [1, -1, 0], [0, 0, 1], [1, 0, -1]];

/// Whether a pair in the square has all of these above 0.
fn feasible(inside: &[Linear]) -> bool {
    let all = [inside, &SQUARE].concat();
    let pairs = (0..all.len()).flat_map(|i| (0..i).map(move |j| (i, j)));
    let crossings = pairs.filter_map(|(i, j)| crossing(all[i], all[j]));
    let corners: Vec<Pair> = crossings.filter(|&p| all.iter().all(|&f| at(f, p) >= 0)).collect();
    inside.iter().all(|&f| corners.iter().any(|&p| at(f, p) > 0))
}

/// Whether a point of the edge lies inside the hull at some time of the move.
fn runs_into(hull: &[Place], by: Place, edge: [Place; 2]) -> bool {
    let of = |side: [Place; 2]| {
        let a = cross(side, [side[0], edge[0]]);
        [a, -cross(side, [(0, 0), by]), cross(side, edge)]
    };
    let inside: Vec<Linear> = edges(hull).map(of).collect();
    feasible(&inside)
}

/// How often the ring goes round a point, counter-clockwise: the edges that cross the ray
/// to its right upwards, less those that cross it downwards.
fn winding(ring: &[Place], point: Place) -> i64 {
    let count = |[a, b]: [Place; 2]| {
        let left = cross([a, b], [a, point]);
        let up = a.1 <= point.1 && point.1 < b.1 && left > 0;
        let down = b.1 <= point.1 && point.1 < a.1 && left < 0;
        i64::from(up) - i64::from(down)
    };
    edges(ring).map(count).sum()
}

/// Whether the middle of the hull's corners is outside the ring. All is made so many
/// times larger as there are corners, so that the middle is whole.
fn outside(ring: &[Place], hull: &[Place]) -> bool {
    let times = hull.len() as i64;
    let larger: Vec<Place> = ring.iter().map(|&(x, y)| (x * times, y * times)).collect();
    let middle = hull.iter().fold((0, 0), |(x, y), corner| (x + corner.0, y + corner.1));
    winding(&larger, middle) == 0
}

/// What is so of a move: whether at every time of it every point inside the hull of the
/// orbiting polygon is outside the ring and on none of its edges. Nothing where the hull
/// has no area.
pub fn is_clear(stationary: &[i32], orbiting: &[i32], by: Spot) -> Option<bool> {
    let (ring, by) = (places(stationary), (i64::from(by.0), i64::from(by.1)));
    let hull = hull(&places(orbiting))?;
    let far = |&(x, y): &Place| x.abs() > MOST || y.abs() > MOST;
    assert!(!ring.iter().chain(&hull).chain(&moved(&hull, by)).any(far));
    let runs = edges(&ring).any(|edge| runs_into(&hull, by, edge));
    Some(!runs && outside(&ring, &hull))
}
