//! Rings to try the calls on, as lists of x, y alternating.

use crate::calls::mirror_polygon;
use crate::seeded::Seeded;

/// The square of docs/SCOPE.md's measured pieces with this side, at the origin.
pub fn square(side: f64) -> Vec<f64> {
    vec![0.0, 0.0, side, 0.0, side, side, 0.0, side]
}

/// A convex ring of n vertices on a parabola, whole coordinates.
pub fn parabola(n: usize) -> Vec<f64> {
    let corner = |i: usize| {
        let x = i as f64 - (n / 2) as f64;
        [x, x * x]
    };
    (0..n).flat_map(corner).collect()
}

/// A carrier that is symmetric about x = 0, with a foot and a notch on that line.
pub fn carrier() -> Vec<f64> {
    let left = [0.0, 9.125, -12.5, 18.75, -42.25, 18.75, -42.25, 0.0];
    let right = [0.0, -6.5, 42.25, 0.0, 42.25, 18.75, 12.5, 18.75];
    [left, right].concat()
}

/// A comb with this many teeth: four vertices a tooth, and two.
pub fn comb(teeth: usize) -> Vec<f64> {
    let mut ring = vec![0.0, 0.0, 2.0 * teeth as f64, 0.0];
    for tooth in (0..teeth).rev() {
        let x = 2.0 * tooth as f64;
        ring.extend([x + 1.75, 1.0, x + 1.5, 3.0, x + 0.5, 3.0, x + 0.25, 1.0]);
    }
    ring
}

/// A ring of n vertices that jumps about on a grid and so crosses itself.
pub fn knot(n: usize) -> Vec<f64> {
    let corner = |i: usize| [((i * 7) % 11) as f64, ((i * 5) % 13) as f64];
    (0..n).flat_map(corner).collect()
}

/// The point at this part of a circle of radius 1, from (1, 0) counter-clockwise
/// and once round from 0 to 1; without sines, the same on every machine.
pub(crate) fn round(part: f64) -> [f64; 2] {
    let t = (4.0 * part).fract();
    let (x, y) = ((1.0 - t * t) / (1.0 + t * t), 2.0 * t / (1.0 + t * t));
    match (4.0 * part) as usize % 4 {
        0 => [x, y],
        1 => [-y, x],
        2 => [-x, -y],
        _ => [y, -x],
    }
}

/// A disc of this radius with n vertices, about the origin.
pub fn disc(n: usize, radius: f64) -> Vec<f64> {
    let corner = |i: usize| round(i as f64 / n as f64).map(|x| radius * x);
    (0..n).flat_map(corner).collect()
}

/// A star with this many points: every other vertex of a disc drawn in.
pub fn star(points: usize, radius: f64, inner: f64) -> Vec<f64> {
    let n = 2 * points;
    let reach = |i: usize| if i.is_multiple_of(2) { radius } else { inner };
    let corner = |i: usize| round(i as f64 / n as f64).map(|x| reach(i) * x);
    (0..n).flat_map(corner).collect()
}

/// Named whole-coordinate shapes, simple and not.
pub fn whole_shapes() -> Vec<Vec<f64>> {
    vec![
        square(4.0),
        square(2.0),
        vec![0.0, 0.0, 4.0, 0.0, 0.0, 3.0],
        vec![0.0, 0.0, 0.0, 3.0, 4.0, 0.0],
        vec![0.0, 0.0, 2.0, 2.0, 2.0, 0.0, 0.0, 2.0],
        vec![0.0, 0.0, 1.0, 0.0, 0.0, 0.0, 0.0, 1.0],
        vec![0.0, 0.0, 1.0, 0.0, 2.0, 0.0],
        vec![0.0, 0.0, 4.0, 0.0, 2.0, 0.0, 2.0, 3.0],
        vec![0.0, 0.0, 4.0, 0.0, 4.0, 2.0, 2.0, 2.0, 2.0, 4.0, 0.0, 4.0],
        vec![0.0, 0.0, 6.0, 0.0, 6.0, 4.0, 4.0, 4.0, 4.0, 2.0, 2.0, 2.0, 2.0, 4.0, 0.0, 4.0],
        vec![0.0, 0.0, 4.0, 0.0, 4.0, 4.0, 2.0, 1.0, 0.0, 4.0],
        vec![0.0, -5.0, 3.0, 4.0, -5.0, -2.0, 5.0, -2.0, -3.0, 4.0],
        vec![0.0, 0.0, 4.0, 4.0, 4.0, 0.0, 2.0, 2.0, 0.0, 4.0],
        vec![0.0, 0.0, 4.0, 0.0, 4.0, 4.0, 2.0, 0.0, 0.0, 4.0],
        vec![0.0, 0.0, 2.0, 0.0, 4.0, 0.0, 4.0, 4.0, 2.0, 4.0, 0.0, 4.0],
        vec![5.0, 5.0, 5.0, 5.0, 5.0, 5.0],
        vec![0.0, 0.0, 3.0, 0.0, 3.0, 0.0, 3.0, 3.0, 0.0, 3.0],
        vec![-1.0, -1.0, -3.0, -2.0, -2.0, -5.0],
        comb(1),
        comb(3),
        parabola(7),
        knot(9),
    ]
}

/// The ring with each coordinate multiplied and then moved.
pub fn placed(ring: &[f64], scale: f64, x: f64, y: f64) -> Vec<f64> {
    let moved = |p: &[f64]| [p[0] * scale + x, p[1] * scale + y];
    ring.chunks_exact(2).flat_map(moved).collect()
}

/// The ring with its vertices in the other order.
pub fn reversed(ring: &[f64]) -> Vec<f64> {
    ring.chunks_exact(2).rev().flat_map(|p| [p[0], p[1]]).collect()
}

/// The ring's mirror at x = 0, with -0.0 where the ring has an x of 0.0.
pub fn mirrored(ring: &[f64]) -> Vec<f64> {
    let mut room = vec![0.0; ring.len()];
    mirror_polygon(ring, &mut room).expect("the ring has its mirror");
    room
}

/// The ring with its first vertex repeated at the end.
pub fn closed(ring: &[f64]) -> Vec<f64> {
    [ring, &ring[..2]].concat()
}

/// A seeded ring of n vertices, whole, fractional, large or tiny.
pub fn seeded_ring(seeded: &mut Seeded, n: usize) -> Vec<f64> {
    let kind = seeded.below(6);
    let number = |seeded: &mut Seeded| match kind {
        0 | 1 => seeded.whole(3),
        2 => seeded.whole(1_000_000),
        3 => seeded.spread(1_000_000.0),
        4 => seeded.spread(10.0),
        _ => seeded.spread(1e-5),
    };
    (0..2 * n).map(|_| number(seeded)).collect()
}
