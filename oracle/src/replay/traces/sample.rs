//! Seeded traces, for a long run.

use super::{runs, traced, Case, MOST_ROOM};
use crate::refusals::Settings;
use crate::replay::polygons::{damaged_pair, lost, near, pair, tolerance};
use crate::seeded::Seeded;
use crate::shapes::placed;

/// Smallest moves past the bounds, or on them.
const ODD_MOVES: [f64; 9] =
    [-0.0, -5e-324, -1.0, f64::NAN, f64::INFINITY, f64::NEG_INFINITY, f64::MAX, 5e-324, 1e300];

/// A smallest move.
fn smallest_move(seeded: &mut Seeded) -> f64 {
    match seeded.below(20) {
        0 => seeded.pick(&ODD_MOVES),
        1 => seeded.unit(),
        2..5 => 0.0,
        _ => seeded.pick(&[1e-8, 1e-8, 1e-8, 1e-8, 1e-12, 1e-5, 1e-3, 0.1, 0.5, 1.0, 2.0]),
    }
}

/// A pass limit: short ones mostly, and the most there may be at times.
fn limit(seeded: &mut Seeded) -> u64 {
    match seeded.below(100) {
        0 if seeded.below(4) == 0 => 10_000,
        1 => seeded.pick(&[10_001, 10_002, 1 << 32, u64::MAX]),
        2..10 => seeded.pick(&[0, 1, 2, 3]),
        10..50 => 60,
        50..55 => 200,
        _ => 4 + seeded.below(40) as u64,
    }
}

/// The settings, wrong ones among them.
fn settings(seeded: &mut Seeded) -> Settings {
    Settings {
        contact_tolerance: if seeded.below(2) == 0 { 1e-6 } else { tolerance(seeded, 20) },
        min_translation: smallest_move(seeded),
        max_iterations: limit(seeded),
    }
}

/// The length of the result room beside this work room.
fn beside(seeded: &mut Seeded, work: usize) -> usize {
    match seeded.below(10) {
        0 if seeded.below(4) == 0 => near(seeded, work),
        1 => work + 1,
        2 => work + 2 + seeded.below(7),
        _ => work,
    }
}

/// The length of a work room for so many points.
fn room(seeded: &mut Seeded, points: usize) -> usize {
    match seeded.below(20) {
        0 => 2,
        1..4 => 2 * (points - 1).max(1),
        4 => 2 * (1 + seeded.below(points)),
        5 if seeded.below(2) == 0 => near(seeded, 2 * points),
        6..9 => 2 * (points + 1 + seeded.below(5)),
        _ => 2 * points,
    }
}

/// A trace whose polygons lose each other at the start.
fn losing(seeded: &mut Seeded) -> Option<Case> {
    let ([stationary, orbiting], gap) = lost(seeded)?;
    let contact_tolerance = seeded.pick(&[gap, gap, gap.next_up(), gap.next_down()]);
    let settings = Settings { contact_tolerance, min_translation: 1e-8, max_iterations: 60 };
    Some(Case::of(&stationary, &orbiting, settings))
}

/// One of the stored traces that end in a way of their own, larger or smaller by
/// a power of two and with either polygon moved by whole steps.
fn eventful(seeded: &mut Seeded) -> ([Vec<f64>; 2], Settings) {
    let all = runs::eventful();
    let (a, b, tolerance, smallest) = &all[seeded.below(all.len())];
    let scale = seeded.pick(&[0.25, 0.5, 1.0, 1.0]);
    let mut place = |ring: &[f64]| placed(ring, scale, seeded.whole(9), seeded.whole(9));
    let settings = Settings {
        contact_tolerance: tolerance * scale,
        min_translation: smallest * scale,
        max_iterations: 60,
    };
    ([place(a), place(b)], settings)
}

/// Two polygons with settings; a large pair gets few passes.
fn drawn(seeded: &mut Seeded) -> ([Vec<f64>; 2], Settings) {
    if seeded.below(15) == 0 {
        return eventful(seeded);
    }
    let drawn = pair(seeded, 300);
    let [a, b] = damaged_pair(seeded, drawn, 20);
    let mut settings = settings(seeded);
    if a.len() * b.len() > 2_000 {
        settings.max_iterations = settings.max_iterations.min(12);
    }
    ([a, b], settings)
}

/// A seeded case.
pub fn case(seeded: &mut Seeded) -> Case {
    if seeded.below(60) == 0 {
        if let Some(case) = losing(seeded) {
            return case;
        }
    }
    let ([stationary, orbiting], settings) = drawn(seeded);
    let stored = traced(&stationary, &orbiting, &settings).map_or(4, |trace| trace.path.len());
    let work = room(seeded, stored).min(MOST_ROOM - 10);
    // A long path is refused early, or the record would be as long.
    let work = if work > 1_000 && seeded.below(8) > 0 { 2 * seeded.below(500) } else { work };
    let rooms = [work, beside(seeded, work)];
    Case { stationary, orbiting, settings, rooms }
}
