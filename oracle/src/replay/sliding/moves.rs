//! Moves that collide or do not, places to recover from and to interlock at,
//! gaps that overlap or do not, and starts with ties.

use super::scenes::{arrow, notched, open_corner, right_corner, squares, Scene, TOLERANCE};
use super::{Case, COLLISION, INTERLOCKING, OVERLAP, OVERLAP_WITH_TOLERANCE, RECOVER, START};
use crate::answers::Point;
use crate::shapes::{comb, disc, placed, reversed, square, star};

/// The number and the two floats next to it.
pub fn around(x: f64) -> [f64; 3] {
    [x.next_down(), x, x.next_up()]
}

/// docs/SCOPE.md's squares apart: the move along x meets the wall after 3.
pub fn apart() -> Scene {
    Scene { at: (-5.0, 1.0), ..squares() }
}

/// Moves: none, below and at the tolerance, up to the wall and past it, with
/// squares that overflow, that vanish, and with no number.
fn moves() -> Vec<Point> {
    let mut all = vec![(10.0, 0.0), (3.0, 0.0), (0.0, 0.0), (-0.0, 0.0), (-10.0, 0.0)];
    for x in [TOLERANCE, 3.0, 3.0 + TOLERANCE, 3.0 + 2.0 * TOLERANCE] {
        all.extend(around(x).map(|x| (x, 0.0)));
    }
    all.extend([(5e-324, 0.0), (1e-200, 1e-200), (1e-7, -1e-7), (6e-7, 8e-7)]);
    all.extend([(1e6, 1e6), (1e150, 1.0), (1e154, 1e154), (1e155, 0.0), (-1e200, 1e200)]);
    all.extend([(f64::MAX, f64::MIN), (1e300, 5e-324), (0.0, f64::MAX)]);
    all.extend([(f64::INFINITY, 0.0), (0.0, f64::NEG_INFINITY), (f64::NAN, 1.0)]);
    all.extend([(10.0, 1.0), (10.0, -0.5), (9.0, 3.0), (20.0, 10.0), (6.0, -6.0)]);
    all
}

/// Collisions: all moves of the squares apart, some with other tolerances, and
/// moves of other polygons with ties, with vertices that meet edges, into a
/// notch, along an edge.
pub fn collisions() -> Vec<Case> {
    let scene = apart();
    let mut all: Vec<_> =
        moves().into_iter().map(|by| scene.case(COLLISION, by, TOLERANCE)).collect();
    for tolerance in [1e-12, 1e-3, 0.25, 1.0, 5e-324] {
        let some = [(10.0, 0.0), (3.5, 0.0), (4.0, 0.0), (10.0, 0.1), (0.25, 0.0), (1.0, 0.0)];
        all.extend(some.map(|by| scene.case(COLLISION, by, tolerance)));
    }
    let others = [
        (notched(), square(2.0), (2.0, 9.0), vec![(0.0, -9.0), (0.0, -7.0), (1.0, -9.0)]),
        (notched(), square(1.0), (2.5, 9.0), vec![(0.0, -9.0), (0.25, -9.0), (0.5, -9.0)]),
        (arrow(), vec![0.0, 0.0, 1.0, -1.5, 2.0, 0.0], (1.0, 8.0), vec![(0.0, -8.0), (0.5, -8.0)]),
        (square(2.0), square(2.0), (2.0, 0.0), vec![(-3.0, 0.0), (0.0, 3.0), (-1.0, 1.0)]),
        (square(2.0), square(2.0), (0.0, 0.0), vec![(1.0, 1.0), (5.0, 0.0), (0.5, 0.25)]),
        (reversed(&square(4.0)), comb(2), (-9.0, 1.5), vec![(20.0, 0.0), (20.0, -1.0)]),
        (star(5, 3.0, 1.25), disc(8, 0.5), (9.0, 0.3), vec![(-9.0, 0.0), (-9.0, -2.0)]),
    ];
    for (stationary, drawn, at, moves) in others {
        let scene = Scene { stationary, drawn, at };
        all.extend(moves.into_iter().map(|by| scene.case(COLLISION, by, TOLERANCE)));
    }
    all
}

/// Recoveries: near the tolerance, from on top and far away, of polygons with
/// and without area, with positions that are anywhere.
fn recoveries() -> Vec<Case> {
    let mut all = Vec::new();
    let s = square(4.0);
    for gap in around(0.25).into_iter().chain([0.0, 0.125, 0.5, 3.0, 1e5]) {
        let scene = Scene { at: (1.0, -2.0 - gap), ..squares() };
        all.push(scene.case(RECOVER, scene.at, 0.25));
    }
    let others = [
        vec![-3.0, 0.0, -3.0, 0.0, -3.0, 0.0],
        vec![6.0, 6.0, 7.0, 7.0, 8.0, 8.0],
        vec![9.0, 1.0, 9.0 + 1e-10, 1.0, 9.0, 2.0],
        vec![9.0, 1.0, 9.0 + 2e-10, 1.0, 9.0, 2.0],
        vec![5.0, 0.0, 6.0, 1.0, 6.0, 0.0, 5.0, 1.0],
        vec![5.0, -1.0, 7.0, -1.0, 7.0, 5.0, 5.0, 5.0, 6.0, 2.0],
        vec![-9.0, 2.0, -5.0, -2.0, -1.0, 2.0, -5.0, 6.0],
        vec![-1e6, -1e6, -999_999.0, -1e6, -1e6, -999_999.0],
    ];
    for orbiting in others {
        let positions = [(0.0, 0.0), (-0.0, 1e300), (f64::MAX, f64::MIN)];
        all.extend(positions.map(|at| Case::of(RECOVER, &s, &orbiting, &[at.0, at.1, TOLERANCE])));
    }
    all
}

/// Interlocking: corners that are open, right and pointed, of both windings, and
/// positions near them, on them, far away and anywhere.
fn interlockings() -> Vec<Case> {
    let small = vec![0.0, 0.0, 0.5, 0.0, 0.0, 0.5];
    let shapes = [open_corner(), right_corner(), arrow(), notched(), reversed(&square(4.0))];
    let places = [(9.0, 9.0), (2.0, 2.0), (-3.0, 1.0), (2.0, 1.0), (1e300, -1e300)];
    let mut all = Vec::new();
    for shape in &shapes {
        for at in places {
            all.push(Case::of(INTERLOCKING, shape, &small, &[at.0, at.1, TOLERANCE]));
        }
        all.push(Case::of(INTERLOCKING, shape, &square(4.0), &[-7.0, 0.0, 1.0]));
        all.push(Case::of(INTERLOCKING, shape, &square(8.0), &[0.0, -9.0, 0.5]));
    }
    let pointed = star(5, 3.0, 1.25);
    for at in [(4.0, 0.0), (0.0, 4.0), (f64::MAX, f64::MAX), (-2.0, 3.0), (0.0, 0.0)] {
        all.push(Case::of(INTERLOCKING, &pointed, &small, &[at.0, at.1, 0.125]));
    }
    // At a gap of about the margin of 1e-6 that is fixed here.
    for gap in [5e-7, 1e-6, 1.5e-6, 2e-6, 3e-6] {
        all.push(Case::of(INTERLOCKING, &arrow(), &small, &[4.0 + gap, 3.0, 1e-7]));
    }
    all
}

/// Squares side by side with gaps about the tolerance, one in the other, one
/// without area.
fn overlaps() -> Vec<Case> {
    let s = square(4.0);
    let mut all = Vec::new();
    for gap in around(1e-6).into_iter().chain([0.0, -1e-6, 5e-7, 2e-6, 0.25, -3.0]) {
        let scene = Scene { at: (4.0 + gap, 1.0), ..squares() };
        all.push(scene.case(OVERLAP, scene.at, TOLERANCE));
        all.extend([1e-9, 1e-6, 0.25].map(|tol| scene.case(OVERLAP_WITH_TOLERANCE, scene.at, tol)));
        let scene = Scene { at: (-1.0, -2.0 - gap), ..squares() };
        all.push(scene.case(OVERLAP, scene.at, TOLERANCE));
    }
    let tilted = vec![0.0, 0.0, 3.0, 4.0, -1.0, 7.0, -4.0, 3.0];
    let others = [
        vec![2.0, 2.0, 2.0, 2.0, 2.0, 2.0],
        vec![5.0, 2.0, 5.0, 2.0, 5.0, 2.0],
        placed(&square(1.0), 1.0, 1.5, 1.5),
        vec![7.0, 3.0, 3.0, 7.0, 7.0, 7.0],
        vec![4.5, 4.0, 4.0, 4.5, 4.5, 4.5],
        tilted.clone(),
        placed(&tilted, 1.0, 5.0, -2.0),
    ];
    for other in &others {
        all.push(Case::of(OVERLAP, &s, other, &[]));
        all.push(Case::of(OVERLAP, other, &tilted, &[]));
        all.push(Case::of(OVERLAP_WITH_TOLERANCE, other, &s, &[1.0]));
    }
    all
}

/// Starts with ties: equal lowest and highest vertices, and equal ones among
/// these that only the sign of a zero tells apart.
fn starts() -> Vec<Case> {
    let (o, m) = (0.0, -0.0);
    let rings = [
        vec![o, o, m, o, 1.0, 1.0],
        vec![m, o, o, m, 1.0, 1.0],
        vec![o, m, m, m, -1.0, 2.0, m, o],
        vec![1.0, o, m, m, o, o, 3.0, 5.0],
        vec![-1.0, -2.0, o, m, m, o, -3.0, -1.0],
        vec![o, o, m, m, -1.0, -1.0, 1.0, -1.0],
        vec![2.0, 1.0, -2.0, 1.0, 0.0, 1.0],
        vec![-2.0, 1.0, 2.0, 1.0, 0.0, 1.0],
        vec![5.0, 5.0, 5.0, 5.0, 5.0, 5.0],
        vec![1e6, 1e6, -1e6, -1e6, 1e6, -1e6],
    ];
    let mut all = Vec::new();
    for (i, a) in rings.iter().enumerate() {
        all.extend(rings.iter().skip(i % 2).step_by(2).map(|b| Case::of(START, a, b, &[])));
    }
    all
}

/// All of these cases.
pub fn cases() -> Vec<Case> {
    let mut all = collisions();
    all.extend(recoveries());
    all.extend(interlockings());
    all.extend(overlaps());
    all.extend(starts());
    all
}
