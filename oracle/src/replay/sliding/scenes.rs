//! Two polygons in several places: touching, apart, overlapping, interlocking.

use super::{Case, COLLISION, EXPLAIN, FIND_CONTACTS, INTERLOCKING, OVERLAP};
use super::{OVERLAP_WITH_TOLERANCE, PERFECT_FIT, RECOVER, START, TRANSLATION_VECTORS};
use crate::answers::Point;
use crate::calls;
use crate::refusals::Settings;
use crate::replay::traces::path_of;
use crate::shapes::{comb, disc, knot, placed, reversed, square, star};

/// The usual tolerance.
pub const TOLERANCE: f64 = 1e-6;

/// A stationary polygon, an orbiting one as drawn, and the place it is moved to.
pub struct Scene {
    pub stationary: Vec<f64>,
    pub drawn: Vec<f64>,
    pub at: Point,
}

impl Scene {
    /// The orbiting polygon in its place.
    pub fn moved(&self) -> Vec<f64> {
        placed(&self.drawn, 1.0, self.at.0, self.at.1)
    }

    /// The case of a call here, with a tolerance and, where the call takes one,
    /// this move.
    pub fn case(&self, call: u64, by: Point, tolerance: f64) -> Case {
        let (a, moved) = (&self.stationary, &self.moved());
        let at = [self.at.0, self.at.1, tolerance];
        match call {
            FIND_CONTACTS | TRANSLATION_VECTORS | OVERLAP_WITH_TOLERANCE => {
                Case::of(call, a, moved, &[tolerance])
            }
            PERFECT_FIT => Case::fitting(a, moved, at, &[self.at.0 + by.0, self.at.1 + by.1]),
            COLLISION | EXPLAIN => Case::of(call, a, moved, &[by.0, by.1, tolerance]),
            RECOVER => Case::of(call, a, moved, &at),
            INTERLOCKING => Case::of(call, a, &self.drawn, &at),
            OVERLAP => Case::of(call, a, moved, &[]),
            _ => Case::of(START, a, &self.drawn, &[]),
        }
    }
}

/// docs/SCOPE.md's squares where they first touch.
pub fn squares() -> Scene {
    Scene { stationary: square(4.0), drawn: square(2.0), at: (0.0, -2.0) }
}

/// A block with a notch from above, two wide and two deep.
pub fn notched() -> Vec<f64> {
    vec![0.0, 0.0, 6.0, 0.0, 6.0, 4.0, 4.0, 4.0, 4.0, 2.0, 2.0, 2.0, 2.0, 4.0, 0.0, 4.0]
}

/// An L whose inner corner is wider than a right angle.
pub fn open_corner() -> Vec<f64> {
    vec![0.0, 0.0, 4.0, 0.0, 4.0, 2.0, 2.0, 2.0, 1.0, 4.0, 0.0, 4.0]
}

/// An L whose inner corner is right.
pub fn right_corner() -> Vec<f64> {
    vec![0.0, 0.0, 4.0, 0.0, 4.0, 2.0, 2.0, 2.0, 2.0, 4.0, 0.0, 4.0]
}

/// A block with a pointed notch.
pub fn arrow() -> Vec<f64> {
    vec![0.0, 0.0, 4.0, 0.0, 4.0, 4.0, 2.0, 1.0, 0.0, 4.0]
}

/// The pairs that are put in several places.
fn pairs() -> Vec<[Vec<f64>; 2]> {
    let triangle = vec![0.0, 0.0, 4.0, 0.0, 0.0, 3.0];
    let zero_edge = vec![0.0, 0.0, 3.0, 0.0, 3.0, 0.0, 3.0, 3.0, 0.0, 3.0];
    let point = vec![5.0, 5.0, 5.0, 5.0, 5.0, 5.0];
    let line = vec![0.0, 0.0, 1.0, 0.0, 2.0, 0.0];
    vec![
        [square(4.0), square(2.0)],
        [square(2.0), square(4.0)],
        [triangle.clone(), square(1.0)],
        [reversed(&triangle), reversed(&square(2.0))],
        [placed(&square(2.0), 1.0 / 3.0, 0.1, -0.7), placed(&triangle, 0.1, 0.3, 0.2)],
        [notched(), square(2.0)],
        [right_corner(), triangle.clone()],
        [open_corner(), vec![0.0, 0.0, 0.5, 0.0, 0.0, 0.5]],
        [arrow(), vec![0.0, 0.0, 1.0, -1.5, 2.0, 0.0]],
        [comb(2), placed(&comb(1), -1.0, 0.0, 0.0)],
        [star(5, 3.0, 1.25), disc(8, 0.5)],
        [disc(12, 2.0), disc(8, 1.0)],
        [zero_edge, point.clone()],
        [point, line.clone()],
        [line, knot(5)],
        [placed(&triangle, 1e5, -4e5, 7e5), placed(&square(1.0), 3e4, 0.7, 0.1)],
    ]
}

/// The points of the trace of a pair, up to forty passes.
fn path(pair: &[Vec<f64>; 2]) -> Vec<Point> {
    let settings =
        Settings { contact_tolerance: TOLERANCE, min_translation: 1e-8, max_iterations: 40 };
    path_of(&pair[0], &pair[1], &settings)
}

/// The pair where it first touches, half way along its path and at its end, a
/// little off, overlapping or far apart.
fn scenes(pair: &[Vec<f64>; 2]) -> Vec<Scene> {
    let path = path(pair);
    let start = path[0];
    let mut places = vec![start, path[path.len() / 2], path[path.len() - 1]];
    places.push(if path.len().is_multiple_of(2) {
        (start.0, start.1 - 5e-7)
    } else {
        (start.0 + 0.5, start.1 - 2e-6)
    });
    places.push(if pair[0].len() > pair[1].len() {
        (start.0 + 1.0, start.1 + 1.5)
    } else {
        (start.0 - 7.25, start.1 - 3.5)
    });
    let scene = |at| Scene { stationary: pair[0].clone(), drawn: pair[1].clone(), at };
    places.into_iter().map(scene).collect()
}

/// Which calls are made on the i-th scene, each with which move and tolerance:
/// all of the calls in time, so that the list stays short.
fn calls_on(i: usize) -> Vec<(u64, Point, f64)> {
    let by = [(3.0, 0.0), (0.0, 5.0), (-4.0, 0.5), (1.0, 2.0), (0.0, -1.0), (-1.0, 0.0)];
    let tolerances = [TOLERANCE, 1e-9, 0.25, 1.0, 1e-12, 1e-3];
    let (one, two) = (by[i % 6], by[(i + 1) % 6]);
    vec![
        ([FIND_CONTACTS, TRANSLATION_VECTORS, PERFECT_FIT][i % 3], one, TOLERANCE),
        (COLLISION, one, TOLERANCE),
        ([COLLISION, RECOVER, COLLISION, OVERLAP][i % 4], two, tolerances[i % 6]),
        ([OVERLAP_WITH_TOLERANCE, RECOVER, INTERLOCKING][i % 3], one, tolerances[i / 3 % 6]),
    ]
}

/// Discs and a comb of up to 256 vertices, for a few calls.
fn large() -> Vec<Case> {
    let wide = Scene { stationary: disc(256, 50.0), drawn: disc(256, 20.0), at: (0.0, -70.0) };
    let few = Scene { stationary: disc(64, 10.0), drawn: disc(32, 1.0), at: (11.0, 0.0) };
    let teeth = Scene { stationary: comb(20), drawn: square(0.5), at: (3.75, 1.0) };
    let mut all = vec![
        wide.case(FIND_CONTACTS, (0.0, 0.0), 1e-3),
        wide.case(COLLISION, (1.0, 40.0), TOLERANCE),
        few.case(COLLISION, (-3.0, 9.0), TOLERANCE),
    ];
    let some = [FIND_CONTACTS, PERFECT_FIT, RECOVER, OVERLAP];
    all.extend(some.map(|call| few.case(call, (0.0, 0.0), 0.01)));
    all.extend([TRANSLATION_VECTORS, INTERLOCKING].map(|call| teeth.case(call, (0.0, 0.0), 0.25)));
    all.push(teeth.case(COLLISION, (100.0, 0.0), TOLERANCE));
    all
}

/// The smaller square in a corner of the larger one: their edges there begin at one
/// vertex, so that the foot of the one is at the start of the other.
fn in_the_corner() -> Case {
    let inside = Scene { at: (0.0, 0.0), ..squares() };
    inside.case(FIND_CONTACTS, (0.0, 0.0), TOLERANCE)
}

/// All cases of scenes.
pub fn cases() -> Vec<Case> {
    let mut all = vec![in_the_corner()];
    for (i, scene) in pairs().iter().flat_map(scenes).enumerate() {
        let calls = calls_on(i);
        all.extend(calls.into_iter().map(|(call, by, tolerance)| scene.case(call, by, tolerance)));
    }
    for [a, b] in pairs() {
        all.push(Case::of(START, &a, &b, &[]));
        all.push(Case::of(START, &b, &a, &[]));
        let start = calls::find_start_position(&b, &a).expect("both are polygons");
        all.push(Scene { stationary: b, drawn: a, at: start }.case(INTERLOCKING, start, 0.5));
    }
    all.extend(large());
    all
}
