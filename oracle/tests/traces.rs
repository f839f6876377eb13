//! How a trace counts, stops and fills its rooms.

use oracle::calls::{self, Traced};
use oracle::refusals::{Refusal, Settings};

const S: [f64; 8] = [0.0, 0.0, 4.0, 0.0, 4.0, 4.0, 0.0, 4.0];
const Q: [f64; 8] = [0.0, 0.0, 2.0, 0.0, 2.0, 2.0, 0.0, 2.0];
const DEFAULT: Settings =
    Settings { contact_tolerance: 1e-6, min_translation: 1e-8, max_iterations: 10_000 };

/// The trace with rooms of these lengths, and the rooms, filled with 7.5 before.
fn trace(a: &[f64], b: &[f64], settings: &Settings, rooms: [usize; 2]) -> (Traced, [Vec<f64>; 2]) {
    let [mut work, mut result] = rooms.map(|length| vec![7.5; length]);
    let traced = calls::compute_nfp_sliding(a, b, settings, &mut work, &mut result);
    (traced, [work, result])
}

#[test]
fn a_standstill_uses_up_the_passes() {
    let (traced, [work, result]) = trace(&S, &Q, &DEFAULT, [16, 17]);
    assert_eq!(traced, Traced::Done { points: 4, stored: 7, passes: 10_000, stop: 5 });
    assert_eq!(work[12..], [2.000001, 4.0, 7.5, 7.5]);
    assert_eq!(result[..9], [0.0, -2.0, 4.0, -2.0, 4.0, 4.0, 2.000001, 4.0, 7.5]);
}

#[test]
fn at_the_standstill_the_move_is_blocked_at_once() {
    let there: Vec<f64> = Q.chunks_exact(2).flat_map(|p| [p[0] + 2.000001, p[1] + 4.0]).collect();
    let hit = calls::check_translation_collision(&S, &there, (-2.000001, 0.0), 1e-6);
    let hit = hit.expect("no refusal").expect("a hit");
    assert_eq!((hit.kind, hit.stationary, hit.orbiting), (0, 1, 1));
    assert_eq!(2.000001 - (hit.distance - 1e-6), 2.000001);
}

#[test]
fn a_full_room_is_told_when_a_point_is_about_to_be_stored() {
    let (traced, [work, result]) = trace(&S, &Q, &DEFAULT, [6, 6]);
    assert_eq!(traced, Traced::Full { passes: 3 });
    assert_eq!(work, [0.0, -2.0, 2.0, -2.0, 4.0, -2.0]);
    assert_eq!(result, [7.5; 6]);
    // The fifth pass stores nothing, so the sixth is the one that is refused.
    assert_eq!(trace(&S, &Q, &DEFAULT, [10, 10]).0, Traced::Full { passes: 6 });
    assert_eq!(trace(&S, &Q, &DEFAULT, [14, 14]).0.refusal(), None);
}

#[test]
fn the_closing_point_needs_no_room() {
    let closed = Traced::Done { points: 4, stored: 8, passes: 8, stop: 4 };
    assert_eq!(trace(&S, &S, &DEFAULT, [16, 16]).0, closed);
    assert_eq!(trace(&S, &S, &DEFAULT, [14, 14]).0, Traced::Full { passes: 7 });
    let other = Traced::Done { points: 4, stored: 10, passes: 11, stop: 4 };
    assert_eq!(trace(&Q, &S, &DEFAULT, [20, 20]).0, other);
}

#[test]
fn a_break_in_the_last_pass_keeps_its_reason() {
    let limited = |max_iterations| Settings { max_iterations, ..DEFAULT };
    let stop_of = |limit| match trace(&S, &S, &limited(limit), [20, 20]).0 {
        Traced::Done { passes, stop, .. } | Traced::Short { passes, stop } => (passes, stop),
        other => panic!("{other:?}"),
    };
    assert_eq!(stop_of(7), (7, 5));
    assert_eq!(stop_of(8), (8, 4));
    assert_eq!(stop_of(1), (1, 5));
}

#[test]
fn every_reason_is_met() {
    let lost = [0.7, 0.0, 1.0, 1.0, 0.95, 1.0];
    let far = [1e6, 0.0, 999_999.0, -1.0, 999_999.5, -1.0];
    let gap = 0.7 - (1e6 + (0.7 - 1e6));
    let settings = Settings { contact_tolerance: gap, ..DEFAULT };
    assert_eq!(trace(&lost, &far, &settings, [2, 2]).0, Traced::Short { passes: 1, stop: 1 });

    let settings = Settings { contact_tolerance: 1.0, ..DEFAULT };
    let [a, b] = [[1.0, 2.0, 1.0, 2.0, -1.0, -1.0], [2.0, -2.0, -2.0, -2.0, -1.0, 2.0]];
    assert_eq!(trace(&a, &b, &settings, [8, 8]).0, Traced::Short { passes: 1, stop: 2 });

    let settings = Settings { min_translation: 1e300, ..DEFAULT };
    assert_eq!(trace(&S, &Q, &settings, [8, 8]).0, Traced::Short { passes: 1, stop: 3 });
}

#[test]
fn a_step_to_interlock_may_lose_the_contact() {
    // The step is as long as the tolerance, and so is the distance after it.
    let settings = Settings { contact_tolerance: 0.5, min_translation: 0.0, ..DEFAULT };
    let [a, b] =
        [&[0.0, -1.0, -1.0, -1.0, 0.0, 1.0, -1.0, 1.0][..], &[0.0, -2.0, -1.0, -1.0, -1.0, -1.0]];
    let (traced, [work, _]) = trace(a, b, &settings, [8, 8]);
    assert_eq!(traced, Traced::Short { passes: 2, stop: 1 });
    assert_eq!(work[..4], [0.0, 0.0, 0.0, -0.5]);

    // A path of three points succeeds all the same.
    let settings = Settings { contact_tolerance: 1.0, ..settings };
    let [a, b] =
        [&[-1.0, -1.0, -2.0, 2.0, 1.0, -2.0, 0.0, 0.0][..], &[-1.0, -2.0, -2.0, 0.0, 1.0, -2.0]];
    let (traced, [_, result]) = trace(a, b, &settings, [8, 8]);
    assert_eq!(traced, Traced::Done { points: 3, stored: 3, passes: 3, stop: 1 });
    assert_eq!(result[..6], [3.0, -2.0, 2.0, -2.0, 1.0, -2.0]);
}

#[test]
fn a_path_that_closes_may_lead_through_the_stationary_polygon() {
    let a = [-3.0, 0.0, 0.0, 0.0, -2.0, 3.0];
    let b = [-2.0, -2.0, 0.0, -2.0, -2.0, -1.0];
    let (traced, [work, _]) = trace(&a, &b, &DEFAULT, [8, 8]);
    assert!(matches!(traced, Traced::Done { points: 3, stored: 3, stop: 4, .. }));
    assert_eq!(work[..6], [-1.0, 1.0, -1.0, 2.0, -3.0, 2.0]);
    // At (-1, 2) both hold the point (-2.5, 0.25), well inside.
    let inside = |ring: &[f64], x: f64, y: f64| {
        let turn = |i: usize| {
            let [p, q] = [i, (i + 1) % 3].map(|i| (ring[2 * i], ring[2 * i + 1]));
            calls::orientation(p, q, (x, y)) == Ok(1)
        };
        (0..3).all(turn)
    };
    assert!(inside(&a, -2.5, 0.25) && inside(&b, -1.5, -1.75));
    // The pass there saw no hit: what touches already is none.
    let moved = [-3.0, -1.0, -1.0, -1.0, -3.0, 0.0];
    assert_eq!(calls::check_translation_collision(&a, &moved, (0.0, 1.0), 1e-6), Ok(None));
}

#[test]
fn rooms_are_tested_after_settings() {
    for (rooms, number) in [([0, 8], 4), ([7, 8], 4), ([1, 8], 4), ([8, 7], 4), ([2, 3], 5)] {
        let refused = |a: &[f64], b: &[f64], settings| trace(a, b, settings, rooms).0.refusal();
        assert_eq!(refused(&S, &Q, &DEFAULT), Some(Refusal::of(number)), "{rooms:?}");
        let settings = Settings { min_translation: -1.0, ..DEFAULT };
        assert_eq!(refused(&S, &Q, &settings), Some(Refusal::of(3)));
        assert_eq!(refused(&[f64::NAN; 8], &Q, &settings), Some(Refusal::of(2)));
        assert_eq!(refused(&[f64::NAN; 8], &Q[..5], &settings), Some(Refusal::at(1, 1)));
    }
}

#[test]
fn settings_have_their_bounds() {
    let passes =
        |settings: Settings| trace(&S, &Q, &settings, [20, 20]).0.refusal() != Some(Refusal::of(3));
    for (contact_tolerance, expected) in
        [(0.0, false), (-0.0, false), (5e-324, true), (1.0, true), (1.0_f64.next_up(), false)]
    {
        assert_eq!(passes(Settings { contact_tolerance, ..DEFAULT }), expected);
    }
    for (min_translation, expected) in [
        (-0.0, true),
        (-5e-324, false),
        (f64::MAX, true),
        (f64::INFINITY, false),
        (f64::NAN, false),
    ] {
        assert_eq!(passes(Settings { min_translation, ..DEFAULT }), expected);
    }
    assert!(passes(Settings { max_iterations: 10_000, ..DEFAULT }));
    assert!(!passes(Settings { max_iterations: 10_001, ..DEFAULT }));
    assert!(!passes(Settings { max_iterations: u64::MAX, ..DEFAULT }));
}
