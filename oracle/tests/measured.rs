//! docs/SCOPE.md's measured pieces, starred or not, against the calls.

use oracle::calls::{self, Hit, Traced};
use oracle::refusals::{Refusal, Settings};

const S: [f64; 8] = [0.0, 0.0, 4.0, 0.0, 4.0, 4.0, 0.0, 4.0];
const Q: [f64; 8] = [0.0, 0.0, 2.0, 0.0, 2.0, 2.0, 0.0, 2.0];
const TOLERANCE: f64 = 1e-6;

/// The polygon moved by (x, y).
fn moved(polygon: &[f64], x: f64, y: f64) -> Vec<f64> {
    polygon.chunks_exact(2).flat_map(|p| [p[0] + x, p[1] + y]).collect()
}

/// A convex ring of n vertices.
fn ring(n: usize) -> Vec<f64> {
    oracle::shapes::parabola(n)
}

/// The trace of Q round S with this tolerance and this pass limit.
fn trace(contact_tolerance: f64, max_iterations: u64) -> (Traced, Vec<f64>, Vec<f64>) {
    let settings = Settings { contact_tolerance, min_translation: 1e-8, max_iterations };
    let (mut work, mut result) = (vec![7.5; 20], vec![8.5; 20]);
    let traced = calls::compute_nfp_sliding(&S, &Q, &settings, &mut work, &mut result);
    (traced, work, result)
}

#[test]
fn roots() {
    assert_eq!(calls::sqrt(4.0), 2.0);
    assert_eq!(calls::sqrt(0.25), 0.5);
    assert_eq!(calls::sqrt(-0.0).to_bits(), (-0.0_f64).to_bits());
    let root = f64::from_bits((1023 - 537) << 52); // 2^-537
    assert_eq!(calls::sqrt(f64::from_bits(1)), root);
}

#[test]
fn point_to_segment() {
    let (p, a, b) = ((7.0, 4.0), (0.0, 0.0), (4.0, 0.0));
    assert_eq!(calls::project_point_to_segment(p, a, b), Ok((1.0, 1)));
    assert_eq!(calls::point_to_segment_distance(p, a, b), Ok(5.0));
    assert_eq!(calls::point_segment_distance(p, a, b), Ok(5.0));
}

#[test]
fn start_and_contacts_there() {
    assert_eq!(calls::find_start_position(&S, &Q), Ok((0.0, -2.0)));
    let (mut which, mut points) = ([9; 25], [-1.5; 13]);
    let there = moved(&Q, 0.0, -2.0);
    let count = calls::find_contacts(&S, &there, TOLERANCE, &mut which, &mut points);
    assert_eq!(count, Ok(6));
    let feet = [2, 0, 1, 1, 0, 2];
    let expected = [[0, 0, 2], [0, 0, 3], [0, 3, 3], [1, 0, 2], [1, 0, 3], [2, 0, 2]];
    let entries = expected.iter().zip(feet).map(|(&[kind, s, o], foot)| [kind, s, o, foot]);
    assert_eq!(which[..24], entries.collect::<Vec<_>>().concat());
    assert_eq!(points[10..12], [1.0, 0.0]);
    assert_eq!((which[24], points[12]), (9, -1.5));
}

#[test]
fn collisions() {
    let there = moved(&Q, -5.0, 1.0);
    let by = |x, y| calls::check_translation_collision(&S, &there, (x, y), TOLERANCE);
    let hit = Hit { distance: 3.0, kind: 0, stationary: 3, orbiting: 1 };
    assert_eq!(by(10.0, 0.0), Ok(Some(hit)));
    assert_eq!(by(3.0, 0.0), Ok(None));
    assert_eq!(by(0.0, 0.0), Ok(None));
}

#[test]
fn simplification() {
    let path = [0.0, 0.0, 1.0, 0.0, 2.0, 0.0];
    let mut room = [5.5; 7];
    assert_eq!(calls::simplify_polygon(&path, TOLERANCE, &mut room), Ok(3));
    assert_eq!(room, [0.0, 0.0, 1.0, 0.0, 2.0, 0.0, 5.5]);
}

#[test]
fn crossed_ring() {
    let crossed = [0.0, 0.0, 2.0, 2.0, 2.0, 0.0, 0.0, 2.0];
    assert_eq!(calls::is_simple_polygon(&crossed), Ok(false));
    assert_eq!(calls::signed_area2(&crossed), Ok(0.0));
}

#[test]
fn area_and_mirror() {
    let triangle = [0.0, 0.0, 4.0, 0.0, 0.0, 3.0];
    assert_eq!(calls::signed_area2(&triangle), Ok(12.0));
    assert_eq!(calls::signed_area_robust(&triangle), Ok(6.0));
    let mut room = [0.0; 6];
    assert_eq!(calls::mirror_polygon(&triangle, &mut room), Ok(3));
    let expected = [-0.0, 3.0, -4.0, 0.0, -0.0, 0.0];
    assert_eq!(room.map(f64::to_bits), expected.map(f64::to_bits));
}

#[test]
fn lengths() {
    for (n, number) in [(2, Some(8)), (257, Some(9)), (3, None), (256, None)] {
        let at = |place| number.map(|number| Refusal::at(number, place));
        assert_eq!(calls::find_start_position(&ring(n), &Q).err(), at(0));
        assert_eq!(calls::find_start_position(&S, &ring(n)).err(), at(1));
        let settings =
            Settings { contact_tolerance: TOLERANCE, min_translation: 1e-8, max_iterations: 1 };
        let (mut work, mut result) = ([0.0; 8], [0.0; 8]);
        let traced = calls::compute_nfp_sliding(&ring(n), &Q, &settings, &mut work, &mut result);
        assert_eq!(traced.refusal().filter(Refusal::tells_place), at(0));
    }
    for (n, refusal) in [(0, None), (2, None), (256, None), (257, Some(Refusal::at(9, 0)))] {
        assert_eq!(calls::signed_area2(&ring(n)).err(), refusal);
        assert_eq!(calls::is_simple_polygon(&ring(n)).err(), refusal);
        assert_eq!(calls::ring_distance(&ring(n), &Q).err(), refusal);
        assert_eq!(calls::mirror_polygon(&ring(n), &mut [0.0; 512]).err(), refusal);
    }
}

#[test]
fn coordinates() {
    for largest in [1_000_000.0, -1_000_000.0_f64] {
        let past = if largest > 0.0 { largest.next_up() } else { largest.next_down() };
        for (number, expected) in [(largest, Ok(())), (past, Err(Refusal::of(2)))] {
            let mut polygon = S;
            polygon[4] = number;
            assert_eq!(calls::find_start_position(&polygon, &Q).map(|_| ()), expected);
            assert_eq!(calls::signed_area2(&polygon).map(|_| ()), expected);
            let at = (number, 0.0);
            assert_eq!(calls::orientation(at, (0.0, 0.0), (1.0, 1.0)).map(|_| ()), expected);
        }
    }
}

#[test]
fn tolerances() {
    assert_eq!(trace(0.0, 100).0, Traced::Refused(Refusal::of(3)));
    assert_ne!(trace(1.0, 100).0.refusal(), Some(Refusal::of(3)));
    let refused = Err(Refusal::of(3));
    for (tolerance, expected) in [(0.0, refused), (-0.0, refused), (1.0, Ok(true))] {
        assert_eq!(calls::polygons_overlap_with_tolerance(&S, &Q, tolerance), expected);
    }
}

#[test]
fn pass_limits() {
    let (traced, work, result) = trace(TOLERANCE, 0);
    assert_eq!(traced, Traced::Short { passes: 0, stop: 5 });
    assert_eq!(work[..3], [0.0, -2.0, 7.5]);
    assert_eq!(result, [8.5; 20]);
    assert_eq!(trace(TOLERANCE, 10_001).0, Traced::Refused(Refusal::of(3)));
}
