//! Seeded paths, for a long run.

use super::runs::{flat, nudged, DEFAULT};
use super::{Case, MOST_PATH};
use crate::answers::Point;
use crate::refusals::{Settings, LEAST_POINTS};
use crate::replay::edge;
use crate::replay::polygons::{damaged_pair, pair, tolerance};
use crate::replay::traces::path_of;
use crate::seeded::Seeded;
use crate::shapes::reversed;

/// Settings, wrong ones among them.
fn settings(seeded: &mut Seeded) -> Settings {
    let contact_tolerance = if seeded.below(2) == 0 { 1e-6 } else { tolerance(seeded, 30) };
    match seeded.below(40) {
        0 => Settings {
            contact_tolerance,
            min_translation: seeded.pick(&[-0.0, -1.0, f64::NAN, f64::INFINITY, f64::MAX]),
            ..DEFAULT
        },
        1 => Settings {
            contact_tolerance,
            max_iterations: seeded.pick(&[0, 10_001, u64::MAX]),
            ..DEFAULT
        },
        _ => Settings { contact_tolerance, ..DEFAULT },
    }
}

/// The path of the pair's own trace, of few passes; of under three points it is gone
/// through again, mostly.
fn own(seeded: &mut Seeded, a: &[f64], b: &[f64], settings: &Settings) -> Vec<Point> {
    let most = if a.len() * b.len() > 2_000 { 6 } else { 40 };
    let max_iterations = 3 + seeded.below(most) as u64;
    let path = path_of(a, b, &Settings { max_iterations, ..*settings });
    let least = if seeded.below(20) == 0 { 0 } else { LEAST_POINTS };
    let points = path.len().max(least);
    path.into_iter().cycle().take(points).collect()
}

/// A part of each leg of a path in the place of the leg: so many points on each.
fn parted(path: &[Point], each: usize) -> Vec<Point> {
    let leg = |i: usize| {
        let (from, to) = (path[i], path[(i + 1) % path.len()]);
        (0..each).map(move |k| {
            let part = k as f64 / each as f64;
            (from.0 + (to.0 - from.0) * part, from.1 + (to.1 - from.1) * part)
        })
    };
    (0..path.len()).flat_map(leg).collect()
}

/// Points anywhere near the pair.
fn anywhere(seeded: &mut Seeded) -> Vec<Point> {
    let n = seeded.below(9);
    let whole = seeded.below(2) == 0;
    let mut number = || if whole { seeded.whole(6) } else { seeded.spread(6.0) };
    (0..n).map(|_| (number(), number())).collect()
}

/// A path for the pair: its trace's own, parts of it, its way back, one point again and
/// again, or anything.
fn path(seeded: &mut Seeded, a: &[f64], b: &[f64], settings: &Settings) -> Vec<Point> {
    let mut path = own(seeded, a, b, settings);
    match seeded.below(16) {
        0..6 => path,
        6 | 7 => parted(&path, 2 + seeded.below(4)),
        8 | 9 => {
            let start = seeded.below(path.len());
            path.rotate_left(start);
            path
        }
        10 => {
            // There and back, so that no leg is new.
            let back: Vec<Point> = path.iter().rev().skip(1).copied().collect();
            [path, back].concat()
        }
        11 => {
            path.truncate(seeded.below(path.len() + 1));
            path
        }
        12 | 13 => vec![path[seeded.below(path.len())]; 3 + seeded.below(6)],
        _ => anywhere(seeded),
    }
}

/// The case with a number of its path moved by a hair or by much, odd, or cut off.
fn changed(seeded: &mut Seeded, mut case: Case) -> Case {
    if case.path.is_empty() {
        return case;
    }
    let (place, tolerance) = (seeded.below(case.path.len()), case.settings.contact_tolerance);
    match seeded.below(24) {
        0..6 => {
            let part = seeded.pick(&[0.1, 0.5, 0.999, 1.0, 1.001, 2.0, 1e3]);
            let much = seeded.whole(3);
            let by = seeded.pick(&[tolerance * part, -tolerance * part, much]);
            nudged(&case, place, by)
        }
        6 => {
            case.path[place] = edge(seeded);
            case
        }
        7 => {
            case.path.truncate(place);
            case
        }
        _ => case,
    }
}

/// A seeded case.
pub fn case(seeded: &mut Seeded) -> Case {
    let settings = settings(seeded);
    let [a, b] = pair(seeded, 400);
    let mut numbers = flat(&path(seeded, &a, &b, &settings));
    if seeded.below(500) == 0 {
        let n = seeded.pick(&[20_002, 20_002, 20_003, 20_004]);
        numbers = numbers.iter().chain(&[0.0, 1.0]).cycle().take(n).copied().collect();
    }
    numbers.truncate(MOST_PATH);
    let turned = |seeded: &mut Seeded, ring: Vec<f64>| match seeded.below(6) {
        0 => reversed(&ring),
        _ => ring,
    };
    let pair = [turned(seeded, a), turned(seeded, b)];
    let [a, b] = damaged_pair(seeded, pair, 25);
    let case = Case::of([&a, &b], settings, &numbers);
    changed(seeded, case)
}
