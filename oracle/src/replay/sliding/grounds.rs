//! Moves to explain: of each ground and each kind of hit, with few and many pairs
//! at one distance, of lengths about one and two tolerances, tiny and huge.

use super::moves::{apart, around, collisions};
use super::scenes::{squares, Scene, TOLERANCE};
use super::{Case, EXPLAIN};
use crate::answers::Point;
use crate::replay::polygons::{damaged_pair, polygon, tolerance};
use crate::seeded::Seeded;
use crate::shapes::{comb, disc, placed, square, star};

/// Tolerances so small that a length whose square vanishes is not below them, or
/// just is.
const TINY: [f64; 4] = [5e-324, f64::MIN_POSITIVE, 1e-170, 3e-162];

/// Lengths whose squares vanish, are subnormal, or overflow.
const ODD_LENGTHS: [f64; 10] =
    [5e-324, 1e-200, 3e-162, 1e-160, 2e-154, 1e-100, 1e150, 1e154, 1e155, f64::MAX];

/// Two combs with so many teeth, tips to tips, this far apart and shifted.
fn combs(teeth: usize, gap: f64, shift: f64) -> Scene {
    let drawn = placed(&comb(teeth), -1.0, 2.0 * teeth as f64, 6.0);
    Scene { stationary: comb(teeth), drawn, at: (shift, gap) }
}

/// Two equal discs of so many corners, the orbiting one this far along x or y.
fn discs(n: usize, radius: f64, at: Point) -> Scene {
    Scene { stationary: disc(n, radius), drawn: disc(n, radius), at }
}

/// Two upright lines, this far apart: all hits of a move along x are at one
/// distance.
fn uprights(apart: f64) -> Scene {
    let line = vec![0.0, 0.0, 0.0, 2.0, 0.0, 4.0];
    Scene { stationary: line.clone(), drawn: line, at: (-apart, 0.5) }
}

/// Lengths about one and two tolerances, and halfway.
fn about(tolerance: f64) -> Vec<f64> {
    let mut all = [around(tolerance), around(2.0 * tolerance)].concat();
    all.push(1.5 * tolerance);
    all
}

/// Moves of a length about one and two tolerances, with hits at distances about
/// the tolerance and about the length less the tolerance.
fn lengths() -> Vec<Case> {
    let mut all = Vec::new();
    for tolerance in [0.25, 1.0] {
        for length in about(tolerance) {
            for part in [0.0, 0.25, 0.5, 0.75, 1.0, 1.25] {
                let scene = uprights(part * tolerance);
                all.push(scene.case(EXPLAIN, (length, 0.0), tolerance));
            }
            let scene = Scene { at: (-2.0 - tolerance, 1.0), ..squares() };
            all.push(scene.case(EXPLAIN, (length, 0.0), tolerance));
        }
        for apart in around(tolerance).into_iter().chain(around(3.0 - tolerance)) {
            all.push(uprights(apart).case(EXPLAIN, (3.0, -0.0), tolerance));
        }
    }
    all
}

/// Moves with a few and with many pairs at the hit's distance.
fn ties() -> Vec<Case> {
    let mut all = Vec::new();
    for teeth in [1, 2, 5, 12] {
        for (gap, shift) in [(0.5, 0.0), (0.5, 0.25), (2.0, 1.0), (0.0, 0.0)] {
            all.push(combs(teeth, gap, shift).case(EXPLAIN, (0.0, -2.5), TOLERANCE));
        }
    }
    for n in [4, 8, 24] {
        for (at, by) in [((7.0, 0.0), (-9.0, 0.0)), ((0.0, -7.0), (-0.0, 9.0))] {
            all.push(discs(n, 2.0, at).case(EXPLAIN, by, TOLERANCE));
            all.push(discs(n, 2.0, (0.0, 0.0)).case(EXPLAIN, by, TOLERANCE));
        }
    }
    all.push(discs(64, 10.0, (0.0, 27.0)).case(EXPLAIN, (0.0, -20.0), TOLERANCE));
    all.push(discs(256, 50.0, (140.0, 0.0)).case(EXPLAIN, (-200.0, 0.0), TOLERANCE));
    all
}

/// Moves of odd lengths, with usual and with tiny tolerances.
fn odd() -> Vec<Case> {
    let mut all = Vec::new();
    for (i, length) in ODD_LENGTHS.into_iter().enumerate() {
        for tolerance in [TINY[i % 4], TINY[(i + 1) % 4], TOLERANCE] {
            all.push(apart().case(EXPLAIN, (length, -0.0), tolerance));
            all.push(squares().case(EXPLAIN, (-length, length), tolerance));
        }
    }
    all
}

/// All stored moves: those of the collision check, and more.
pub fn cases() -> Vec<Case> {
    let mut all: Vec<Case> =
        collisions().into_iter().map(|case| Case { call: EXPLAIN, ..case }).collect();
    all.extend(lengths());
    all.extend(ties());
    all.extend(odd());
    all
}

// ---------------------------------------------------------------------------
// Seeded moves
// ---------------------------------------------------------------------------

/// A place this far along an axis.
fn along(seeded: &mut Seeded, far: f64) -> Point {
    seeded.pick(&[(far, 0.0), (-far, -0.0), (0.0, far), (-0.0, -far)])
}

/// Two polygons that face each other along an axis, some with a gap of this size.
fn facing(seeded: &mut Seeded, gap: f64) -> Scene {
    let shift = seeded.pick(&[0.0, 0.0, 0.0, 0.25, 0.5, 1.0, 2.0]);
    match seeded.below(10) {
        0..4 => {
            let teeth = if seeded.below(8) == 0 { 16 } else { 1 + seeded.below(6) };
            combs(teeth, gap, shift)
        }
        4 | 5 => {
            let n = seeded.pick(&[4, 4, 8, 12, 24, 64]);
            let radius = 1.0 + seeded.below(3) as f64;
            let at = along(seeded, 2.0 * radius + gap);
            discs(n, radius, at)
        }
        6 => uprights(gap),
        7 => Scene { stationary: square(4.0), drawn: square(2.0), at: (-2.0 - gap, shift) },
        8 => {
            let (points, n) = (3 + seeded.below(6), 4 * (1 + seeded.below(4)));
            let at = along(seeded, 4.0 + gap);
            Scene { stationary: star(points, 3.0, 1.25), drawn: disc(n, 1.0), at }
        }
        _ => {
            let at = (seeded.whole(9), seeded.whole(9));
            Scene { stationary: polygon(seeded), drawn: polygon(seeded), at }
        }
    }
}

/// A length: about one or two tolerances, just up to the gap or past it, plain, or
/// odd.
fn length(seeded: &mut Seeded, gap: f64, tolerance: f64) -> f64 {
    match seeded.below(12) {
        0 | 1 => tolerance * (1.0 + 1.25 * seeded.unit()),
        2 => {
            let all = about(tolerance);
            all[seeded.below(all.len())]
        }
        3 | 4 => gap + seeded.pick(&[0.0, 0.5, 1.0, 1.0, 2.0, 3.0]) * tolerance,
        5 => (gap + tolerance).next_up(),
        6 => seeded.pick(&ODD_LENGTHS),
        _ => seeded.pick(&[0.5, 1.0, 3.0, 6.5, 10.0, 1e4]),
    }
}

/// A way to go: back along the axis that the place lies on, or anywhere.
fn way(seeded: &mut Seeded, at: Point) -> Point {
    match seeded.below(8) {
        0..5 if at.0 == 0.0 => (at.0, if at.1 < 0.0 { 1.0 } else { -1.0 }),
        0..5 if at.1.abs() <= 2.0 => (if at.0 < 0.0 { 1.0 } else { -1.0 }, -0.0),
        5 | 6 => along(seeded, 1.0),
        _ => seeded.pick(&[(0.6, -0.8), (-0.6, 0.8), (-0.5, -0.25), (1.0, 1.0), (-1.0, 1e-9)]),
    }
}

/// A seeded move to explain.
pub fn case(seeded: &mut Seeded) -> Case {
    let tolerance = match seeded.below(12) {
        0 => seeded.pick(&TINY),
        _ => tolerance(seeded, 25),
    };
    let gap = match seeded.below(6) {
        0 => 0.0,
        1 => tolerance,
        2 => tolerance * seeded.unit(),
        _ => seeded.pick(&[0.5, 1.0, 1.25, 3.0]),
    };
    let Scene { stationary, drawn, at } = facing(seeded, gap);
    let [stationary, drawn] = damaged_pair(seeded, [stationary, drawn], 16);
    let (size, way) = (length(seeded, gap, tolerance), way(seeded, at));
    let by = (way.0 * size, way.1 * size);
    Scene { stationary, drawn, at }.case(EXPLAIN, by, tolerance)
}
