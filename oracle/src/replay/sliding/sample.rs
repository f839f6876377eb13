//! Seeded cases of every call, for a long run.

use super::grounds;
use super::lists::selecting;
use super::scenes::Scene;
use super::{Case, COLLISION, EXPLAIN, PERFECT_FIT, SELECT, SIMPLIFY};
use crate::answers::Point;
use crate::calls::{self, points_of};
use crate::fixed::nfp_sliding::{self as text, TranslationVector};
use crate::refusals::Settings;
use crate::replay::polygons::{damaged_pair, near, pair, tolerance};
use crate::replay::traces::path_of;
use crate::replay::EDGES;
use crate::seeded::Seeded;

/// Numbers that are hard on a product or a square.
const HUGE: [f64; 10] = [
    1e150,
    -1e155,
    1e200,
    1e300,
    f64::MAX,
    f64::MIN,
    f64::INFINITY,
    f64::NEG_INFINITY,
    f64::NAN,
    5e-324,
];

/// Where the orbiting polygon is put: at the start, along the path, a little off
/// by parts of the tolerance, anywhere.
fn position(seeded: &mut Seeded, a: &[f64], b: &[f64], tolerance: f64) -> Point {
    let start = calls::find_start_position(a, b).unwrap_or((0.0, 0.0));
    let part = seeded.pick(&[0.25, 0.5, 1.0, 1.5, 2.0, 10.0]) * tolerance;
    match seeded.below(12) {
        0..3 => start,
        3..7 if a.len() + b.len() < 60 => {
            let settings = Settings {
                contact_tolerance: if tolerance > 0.0 && tolerance <= 1.0 {
                    tolerance
                } else {
                    0.5
                },
                min_translation: 1e-8,
                max_iterations: 10,
            };
            let path = path_of(a, b, &settings);
            path[seeded.below(path.len())]
        }
        7 => (start.0, start.1 - part),
        8 => (start.0 + part, start.1),
        9 => (start.0 + seeded.whole(3), start.1 + seeded.whole(3)),
        10 => (seeded.spread(10.0), seeded.spread(10.0)),
        _ => (seeded.whole(12), seeded.whole(12)),
    }
}

/// The vectors at a place, none if something is refused there.
fn vectors(a: &[f64], moved: &[f64], tolerance: f64) -> Vec<TranslationVector> {
    let fine = calls::polygons_overlap_with_tolerance(a, moved, tolerance).is_ok();
    if !fine || a.len() + moved.len() > 100 {
        return Vec::new();
    }
    let (a, moved) = (points_of(a), points_of(moved));
    let group = text::create_touching_group(&a, &moved, (0.0, 0.0), tolerance);
    text::compute_translation_vectors(&group, &a, &moved)
}

/// A move: what a pass would try, along an axis, anywhere, tiny or huge.
fn moving(seeded: &mut Seeded, vectors: &[TranslationVector], tolerance: f64) -> Point {
    let size = seeded.pick(&[1e-7, tolerance, 0.5, 1.0, 3.0, 10.0, 100.0, 1e4]);
    match seeded.below(12) {
        0..5 if !vectors.is_empty() => {
            let v = &vectors[seeded.below(vectors.len())];
            let distance = v.max_distance.min(1000.0);
            (v.direction.0 * distance, v.direction.1 * distance)
        }
        5 => (size, 0.0),
        6 => (0.0, -size),
        7 | 8 => (seeded.whole(10), seeded.whole(10)),
        9 if seeded.below(3) == 0 => (seeded.pick(&HUGE), seeded.pick(&HUGE)),
        9 if seeded.below(2) == 0 => (seeded.pick(&HUGE), seeded.whole(3)),
        _ => (seeded.spread(size), seeded.spread(size)),
    }
}

/// Positions visited: those that the vectors lead to from this one, near them,
/// and others.
fn visited(seeded: &mut Seeded, at: Point, vectors: &[TranslationVector], tol: f64) -> Vec<f64> {
    let mut list = Vec::new();
    for _ in 0..seeded.below(9) {
        let off = seeded.pick(&[0.0, 0.0, 5.0, 9.999, 10.0, 11.0]) * tol;
        if vectors.is_empty() || seeded.below(4) == 0 {
            list.extend([at.0 + seeded.whole(2), at.1 + seeded.whole(2)]);
        } else {
            let v = &vectors[seeded.below(vectors.len())];
            let by = v.max_distance.min(1.0);
            list.extend([at.0 + v.direction.0 * by + off, at.1 + v.direction.1 * by]);
        }
    }
    match seeded.below(60) {
        0 => list.push(1.0),
        1 | 2 => list.extend([seeded.pick(&HUGE), 1.0]),
        3 if seeded.below(12) == 0 => list.resize(seeded.pick(&[20_002, 20_003, 20_004]), 0.5),
        4 => list.resize(600, at.0),
        _ => {}
    }
    list
}

/// A case of a call that takes two polygons.
fn sliding(seeded: &mut Seeded, call: u64) -> Case {
    let drawn = pair(seeded, 150);
    let [stationary, drawn] = damaged_pair(seeded, drawn, 9);
    let tolerance = tolerance(seeded, 25);
    let at = position(seeded, &stationary, &drawn, tolerance);
    let scene = Scene { stationary, drawn, at };
    let found = match call {
        COLLISION | EXPLAIN | PERFECT_FIT => vectors(&scene.stationary, &scene.moved(), tolerance),
        _ => Vec::new(),
    };
    let by = moving(seeded, &found, tolerance);
    let mut case = scene.case(call, by, tolerance);
    if call == PERFECT_FIT {
        case.list = visited(seeded, at, &found, tolerance);
    }
    if case.extra.len() == 3 && seeded.below(40) == 0 {
        case.extra[seeded.below(2)] = seeded.pick(&HUGE).to_bits();
    }
    roomed(seeded, case)
}

/// The case with rooms about as long as its answer, or of some length where it
/// is refused.
fn roomed(seeded: &mut Seeded, case: Case) -> Case {
    let [one, two] = if case.tested().is_ok() { case.exact() } else { [9, 6] };
    match seeded.below(3) {
        0 => case.lent([one, two]),
        _ => case.lent([near(seeded, one), near(seeded, two)]),
    }
}

/// A number for selection: anything.
fn any(seeded: &mut Seeded) -> f64 {
    match seeded.below(12) {
        0 => seeded.pick(&HUGE),
        1 => seeded.pick(&EDGES),
        2 => f64::from_bits(seeded.bits()),
        3..8 => seeded.whole(2),
        _ => seeded.spread(2.0),
    }
}

/// A point for selection.
fn any_point(seeded: &mut Seeded) -> Point {
    match seeded.below(4) {
        0 => (any(seeded), any(seeded)),
        _ => (seeded.whole(4), seeded.whole(4)),
    }
}

/// A selection, from vectors that two polygons give or from anything.
fn selection(seeded: &mut Seeded) -> Case {
    let mut list = Vec::new();
    if seeded.below(2) == 0 {
        let [a, b] = pair(seeded, usize::MAX);
        let at = position(seeded, &a, &b, 1e-6);
        let moved = Scene { stationary: a.clone(), drawn: b, at }.moved();
        for v in vectors(&a, &moved, 1e-6).iter().take(600) {
            list.extend([v.direction.0, v.direction.1, v.max_distance]);
        }
    } else {
        let plain = seeded.below(2) == 0;
        for _ in 0..3 * seeded.below(9) {
            list.push(if plain { seeded.whole(1) } else { any(seeded) });
        }
    }
    if seeded.below(20) == 0 {
        list.extend((0..1 + seeded.below(2)).map(|_| 1.0));
    }
    let previous = if seeded.below(3) == 0 { None } else { Some(any_point(seeded)) };
    selecting(&list, previous, any_point(seeded), any_point(seeded))
}

/// A list to simplify: a walk of whole steps, a trace's path, or anything.
fn path(seeded: &mut Seeded) -> Vec<f64> {
    let n = seeded.below(16);
    match seeded.below(8) {
        0..4 => {
            let (mut x, mut y) = (0.0, 0.0);
            let scale = seeded.pick(&[1.0, 1.0, 0.1, 1e-7]);
            let mut step = |_| {
                x += seeded.whole(1);
                y += seeded.whole(1);
                [x * scale, y * scale]
            };
            (0..n).flat_map(&mut step).collect()
        }
        4 => (0..2 * n).map(|_| seeded.spread(3.0)).collect(),
        5 => (0..2 * n).map(|_| seeded.pick(&[1e155, -1e160, 1e308, 0.0, 1.0, 3e-170])).collect(),
        6 => {
            let [a, b] = pair(seeded, usize::MAX);
            let settings =
                Settings { contact_tolerance: 1e-6, min_translation: 1e-8, max_iterations: 40 };
            path_of(&a, &b, &settings).into_iter().flat_map(|p| [p.0, p.1]).collect()
        }
        _ => (0..2 * n).map(|_| seeded.whole(2)).collect(),
    }
}

/// A simplification.
fn simplification(seeded: &mut Seeded) -> Case {
    let mut list = path(seeded);
    match seeded.below(60) {
        0 => list.push(1.0),
        1 | 2 => list.extend([1.0, seeded.pick(&HUGE)]),
        3 if seeded.below(12) == 0 => {
            let n = seeded.pick(&[20_002, 20_003, 20_004]);
            list = [&list[..], &[1.0, 2.0]].concat().into_iter().cycle().take(n).collect();
        }
        _ => {}
    }
    let tolerance = tolerance(seeded, 25);
    roomed(seeded, Case::simplifying(&list, tolerance))
}

/// A seeded case of this call.
pub fn case(seeded: &mut Seeded, call: u64) -> Case {
    match call {
        SELECT => selection(seeded),
        SIMPLIFY => simplification(seeded),
        EXPLAIN if seeded.below(3) > 0 => grounds::case(seeded),
        _ => sliding(seeded, call),
    }
}
