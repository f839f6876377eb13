//! Wrong numbers and tolerances in every call that takes polygons.

use super::scenes::{squares, TOLERANCE};
use super::{Case, COLLISION, EXPLAIN, FIND_CONTACTS, INTERLOCKING, OVERLAP};
use super::{OVERLAP_WITH_TOLERANCE, PERFECT_FIT, RECOVER, START, TRANSLATION_VECTORS};
use crate::replay::{with, EDGES};

/// The calls that take two polygons.
pub const POLYGON_CALLS: [u64; 10] = [
    FIND_CONTACTS,
    TRANSLATION_VECTORS,
    PERFECT_FIT,
    COLLISION,
    INTERLOCKING,
    RECOVER,
    OVERLAP,
    OVERLAP_WITH_TOLERANCE,
    START,
    EXPLAIN,
];

/// Tolerances on their bounds and past them, and no numbers.
pub const TOLERANCES: [f64; 14] = [
    0.0,
    -0.0,
    5e-324,
    -5e-324,
    f64::MIN_POSITIVE,
    1.0,
    1.0_f64.next_up(),
    1.0_f64.next_down(),
    -1.0,
    2.0,
    f64::NAN,
    f64::INFINITY,
    f64::NEG_INFINITY,
    1e-12,
];

/// The extra numbers of a call, with this tolerance where it takes one.
fn extra(call: u64, tolerance: f64) -> Vec<f64> {
    match call {
        OVERLAP | START => vec![],
        FIND_CONTACTS | TRANSLATION_VECTORS | OVERLAP_WITH_TOLERANCE => vec![tolerance],
        _ => vec![1.5, -2.0, tolerance],
    }
}

/// The case with rooms that are just long enough, or of one entry where it is
/// refused.
pub fn roomed(case: Case) -> Case {
    if case.tested().is_ok() {
        case.fitted()
    } else {
        case.lent([3, 2])
    }
}

/// The call on these polygons, with rooms.
pub fn on(call: u64, stationary: &[f64], orbiting: &[f64], tolerance: f64) -> Case {
    roomed(Case::of(call, stationary, orbiting, &extra(call, tolerance)))
}

/// The polygon with a number that is none, too large or not finite.
fn faulty(ring: &[f64]) -> [Vec<f64>; 3] {
    [with(ring, 0, f64::NAN), with(ring, 7, 1e6_f64.next_up()), with(ring, 3, f64::NEG_INFINITY)]
}

/// A wrong number in either polygon and in both, and beside a wrong tolerance.
fn polygons(call: u64) -> Vec<Case> {
    let scene = squares();
    let (s, q) = (&scene.stationary, &scene.moved());
    let (of_s, of_q) = (faulty(s), faulty(q));
    let mut all = Vec::new();
    all.extend(of_s.iter().map(|a| on(call, a, q, TOLERANCE)));
    all.extend(of_q.iter().map(|b| on(call, s, b, TOLERANCE)));
    all.push(on(call, &of_s[2], &of_q[1], TOLERANCE));
    // A wrong length or number, and a wrong tolerance.
    all.push(on(call, &s[..7], q, 0.0));
    all.push(on(call, s, &q[..4], 0.0));
    all.push(on(call, s, &of_q[0], f64::NAN));
    for (i, number) in EDGES.into_iter().enumerate() {
        if (i as u64 + call).is_multiple_of(2) {
            all.push(on(call, &with(s, i % 8, number), q, TOLERANCE));
        } else {
            all.push(on(call, s, &with(q, (i + 3) % 8, number), TOLERANCE));
        }
    }
    all
}

/// All cases of faults.
pub fn cases() -> Vec<Case> {
    let scene = squares();
    let (s, q) = (&scene.stationary, &scene.moved());
    let mut all = Vec::new();
    for call in POLYGON_CALLS {
        all.extend(polygons(call));
        if call != OVERLAP && call != START {
            all.extend(TOLERANCES.map(|tolerance| on(call, s, q, tolerance)));
        }
    }
    for number in [f64::NAN, f64::INFINITY, f64::NEG_INFINITY, f64::MAX, -0.0] {
        for call in [PERFECT_FIT, COLLISION, INTERLOCKING, RECOVER, EXPLAIN] {
            all.push(Case::of(call, s, q, &[number, 1.0, TOLERANCE]));
            all.push(Case::of(call, s, q, &[1.0, number, 2.0]));
        }
    }
    let path = [0.0, 0.0, 2.0, 0.0, 4.0, 0.0, 4.0, 4.0];
    all.extend(TOLERANCES.map(|tolerance| Case::simplifying(&path, tolerance)));
    all.push(Case::simplifying(&path[..7], 0.0));
    all.push(Case::simplifying(&with(&path, 5, f64::NAN), 0.0));
    all
}
