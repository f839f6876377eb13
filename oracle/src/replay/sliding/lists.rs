//! Lists of vectors to select from, positions visited, lists to simplify.

use super::scenes::{squares, TOLERANCE};
use super::{Case, SELECT};
use crate::answers::Point;
use crate::replay::bits;

/// Infinity, its negative, and NaN.
const INF: f64 = f64::INFINITY;
const NEG: f64 = f64::NEG_INFINITY;
const NAN: f64 = f64::NAN;

/// A selection from these vectors.
pub fn selecting(list: &[f64], previous: Option<Point>, centroid: Point, at: Point) -> Case {
    let (px, py) = previous.unwrap_or((0.0, 0.0));
    let mut extra = vec![u64::from(previous.is_some())];
    extra.extend(bits(&[px, py, centroid.0, centroid.1, at.0, at.1]));
    Case { call: SELECT, list: list.to_vec(), extra, ..Case::default() }
}

/// Vectors: none, ties, short ones, scores that are NaN or infinite.
fn vectors() -> Vec<Vec<f64>> {
    let short = 1e-6_f64.next_down();
    vec![
        vec![],
        vec![1.0, 0.0, 1.0],
        vec![-1.0, 0.0, 1.0, 1.0, 0.0, 1.0, 1.0, 0.0, 2.0],
        vec![1.0, 0.0, 1e-6, 1.0, 0.0, 1.0],
        vec![1.0, 0.0, short, -1.0, 0.0, 1.0, 0.0, 1.0, 1.0],
        vec![1.0, 0.0, -3.0, 0.5, 0.0, 0.0, 1.0, 0.0, NEG],
        vec![1.0, 0.0, NAN, 1.0, 0.0, INF],
        vec![NAN, 0.0, 1.0, 0.0, NAN, 1.0],
        vec![NAN, 0.0, 1.0, 1.0, 0.0, 1.0, 1.0, 0.0, 1.0],
        vec![1.0, 0.0, 1.0, NAN, NAN, NAN, 2.0, 0.0, 1.0],
        vec![NEG, 0.0, 1.0, NEG, 0.0, 2.0],
        vec![NEG, 0.0, 1.0, NAN, 0.0, 1.0, -1e308, 0.0, 1.0],
        vec![1e308, 0.0, 1.0, INF, 0.0, 1.0, INF, 0.0, 2.0],
        vec![INF, 0.0, 0.0, INF, 0.0, 1.0],
        vec![INF, INF, 1.0, 0.0, 1.0, 1.0],
        vec![0.0, -0.0, 1.0, -0.0, 0.0, 1.0],
        vec![1e308, 1e308, 1.0, -1e308, 1e308, 1.0],
        vec![0.6, 0.8, 5.0, 0.8, 0.6, 5.0, 1.0, 0.0, 1e-7, 0.0, 1.0, 1.0],
    ]
}

/// Selections: each list with and without a direction before, seen from several
/// positions; the centroid itself, and places where nothing is a number.
fn selections() -> Vec<Case> {
    let previous = [None, Some((1.0, 0.0)), Some((-1.0, 0.5)), Some((0.0, 0.0))];
    let odd = [None, Some((NAN, 0.0)), Some((INF, NEG)), Some((1e308, -1e308))];
    let mut all = Vec::new();
    for (i, list) in vectors().iter().enumerate() {
        for before in [previous[0], previous[1 + i % 3]] {
            all.push(selecting(list, before, (0.0, 0.0), (0.0, -2.0)));
        }
        all.push(selecting(list, previous[i % 4], (2.0, 2.0), (2.0, 2.0)));
        all.push(selecting(list, odd[i % 4], (1.0, 1.0), (3.0, 0.0)));
    }
    let three = [0.0, 1.0, 1.0, 1.0, 0.0, 1.0, -1.0, 0.0, 1.0];
    let places = [
        (NAN, 0.0),
        (INF, 0.0),
        (0.0, NEG),
        (1e308, 1e308),
        (1e-11, 0.0),
        (1e-10, 0.0),
        (7.0, 1.0),
    ];
    for at in places {
        all.push(selecting(&three, None, (0.0, 0.0), at));
        all.push(selecting(&three, Some((0.0, 1.0)), at, (0.5, 0.0)));
    }
    for n in [1, 2, 4, 5, 7, 8] {
        all.push(selecting(&[NAN; 8][..n], Some((NAN, NAN)), (NAN, NAN), (NAN, NAN)));
    }
    let many: Vec<f64> = (0..300).map(|i| f64::from(i * 37 % 101) - 50.0).collect();
    all.push(selecting(&many, None, (0.0, 0.0), (0.0, -2.0)));
    all.push(selecting(&many, Some((0.25, -0.5)), (-3.0, 7.0), (11.0, 2.5)));
    all
}

/// Positions visited: none, those that a vector leads to and near them, anywhere,
/// odd, not finite, the most there may be and one more.
fn visited() -> Vec<Case> {
    let scene = squares();
    let (s, q) = (&scene.stationary, &scene.moved());
    let at = [0.0, -2.0, TOLERANCE];
    let mut all = vec![Case::fitting(s, q, at, &[])];
    let near = [1.0, 1.0 + 1e-5, 1.0 + 0.999e-5, 1.0 - 1e-5, 1.0 + 1.001e-5];
    all.extend(near.map(|x| Case::fitting(s, q, at, &[x, -2.0])));
    let lists: [&[f64]; 9] = [
        &[1.0, -2.0, -1.0, -2.0],
        &[-1.0, -2.0],
        &[1e300, -1e300, f64::MAX, f64::MIN],
        &[1.0],
        &[1.0, -2.0, 3.0],
        &[1.0, NAN],
        &[INF, -2.0],
        &[NEG],
        &[-0.0, -3.0, 0.0, -1.0, 0.0, -2.0],
    ];
    all.extend(lists.map(|list| Case::fitting(s, q, at, list)));
    let references = [(1.0, 1.0), (f64::MAX, -f64::MAX), (1e16, 0.0), (NAN, 0.0), (0.0, INF)];
    for (x, y) in references {
        all.push(Case::fitting(s, q, [x, y, TOLERANCE], &[x + 1.0, y]));
    }
    all.extend([0.125, 1.0].map(|tol| Case::fitting(s, q, [0.0, -2.0, tol], &[5.0, -2.0])));
    // No contact, so no vector.
    all.push(Case::fitting(s, &scene.drawn[..6], [0.0, 0.0, TOLERANCE], &[]));
    let far: Vec<f64> = (0..20_004).map(|i| if i == 20_001 { -2.0 } else { 1.0 }).collect();
    all.push(Case::fitting(s, q, at, &far[..20_002]));
    all.push(Case::fitting(s, q, at, &far));
    all
}

/// Lists to simplify: up to five points, in line, repeated, out and back, huge,
/// the most there may be and one more.
fn simplified() -> Vec<Case> {
    let huge = [1e200, 0.0, 0.0, 1e200, -1e200, -1e200, 1e200, -1e200];
    let most = [f64::MAX, 0.0, f64::MIN, 1.0, 0.0, f64::MAX, 1.0, f64::MIN];
    let lists: [&[f64]; 22] = [
        &[],
        &[1.0, 2.0],
        &[1.0, 2.0, 3.0, 4.0],
        &[0.0, 0.0, 1.0, 0.0, 2.0, 0.0],
        &[0.0, 0.0, 4.0, 0.0, 2.0, 0.0],
        &[0.0, 0.0, 4.0, 0.0, 0.0, 3.0],
        &[5.0, 5.0, 5.0, 5.0, 5.0, 5.0],
        &[0.0, 0.0, 2.0, 0.0, 4.0, 0.0, 4.0, 4.0],
        &[0.0, 0.0, 4.0, 0.0, 4.0, 0.0, 4.0, 4.0, 0.0, 4.0],
        &[0.0, 0.0, 4.0, 0.0, 4.0, 4.0, 0.0, 4.0, 0.0, 0.0],
        &[0.0, 0.0, 6.0, 0.0, 4.0, 0.0, 4.0, 4.0, 0.0, 4.0],
        &[0.0, 0.0, 4.0, 0.0, 6.0, 0.0, 2.0, 0.0, 1.0, 0.0],
        &[0.0, -2.0, 2.0, -2.0, 4.0, -2.0, 4.0, 4.0, 2.000001, 4.0],
        &[0.1, 0.1, 0.2, 0.2, 0.3, 0.3, 0.7, 0.7, 0.0, 5.0],
        &[-0.0, 0.0, 0.0, -0.0, 1.0, 1.0, 0.0, 2.0],
        &[0.0, 0.0, 1.0, 1e-9, 2.0, 0.0, 2.0, 2.0],
        &huge,
        &most,
        &[1e155, 1e155, 2e155, 2e155, 3e155, 3e155, 0.0, 1e155],
        &[1e-170, 0.0, 2e-170, 1e-170, 0.0, 3e-170],
        &[f64::MAX, f64::MAX, f64::MAX, f64::MAX, 0.0, 0.0],
        &[1.0, 2.0, 3.0],
    ];
    let mut all = Vec::new();
    for (i, list) in lists.into_iter().enumerate() {
        all.push(Case::simplifying(list, TOLERANCE));
        if i % 3 == 0 {
            all.push(Case::simplifying(list, 1.0));
        }
    }
    let faults: [&[f64]; 5] =
        [&[1.0], &[NAN], &[0.0, NAN], &[INF, 0.0, 1.0, 1.0], &[NEG, NAN, 1.0]];
    all.extend(faults.map(|list| Case::simplifying(list, TOLERANCE)));
    // Ten sides, each of a thousand points, and one more point.
    let (corner, out) = (|k: usize| 3.0 * k as f64, |k: usize| (k % 2) as f64 * 8.0);
    let point = |i: usize| {
        let (k, part) = (i / 1000, (i % 1000) as f64 / 1024.0);
        [corner(k) + part, out(k) + part * 2.0]
    };
    let long: Vec<f64> = (0..10_002).flat_map(point).collect();
    all.push(Case::simplifying(&long[..20_002], TOLERANCE));
    all.push(Case::simplifying(&long, TOLERANCE));
    all
}

/// All cases of lists.
pub fn cases() -> Vec<Case> {
    let mut all = selections();
    all.extend(visited());
    all.extend(simplified());
    all
}
