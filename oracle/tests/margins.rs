//! What the text makes of near misses: which segments meet, and which points of
//! a list stay.

use oracle::answers::Point;
use oracle::fixed::nfp_sliding::simplify_polygon;
use oracle::fixed::polygon_ops::segments_intersect;

/// Whether the segment of these ends on the x axis meets the upright one
/// through the origin of the same length.
fn crosses(half: f64) -> bool {
    segments_intersect((-half, 0.0), (half, 0.0), (0.0, -half), (0.0, half))
}

/// What stays of the points.
fn left(points: &[Point]) -> Vec<Point> {
    simplify_polygon(points, 1e-6).expect("it always answers")
}

#[test]
fn short_segments_cross_and_do_not_meet() {
    assert!(crosses(1.0) && crosses(1e-4) && !crosses(1e-5));
    let beside =
        |gap: f64| segments_intersect((0.0, 0.0), (1.0, 0.0), (1.0 + gap, 0.0), (2.0, 0.0));
    assert!(beside(5e-10) && !beside(2e-9));
}

#[test]
fn two_equal_points_side_by_side_both_go() {
    let [a, b, c, d] = [(0.0, 0.0), (2.0, 0.0), (2.0, 2.0), (0.0, 2.0)];
    assert_eq!(left(&[a, b, b, c, d]), [a, c, d]);
    assert_eq!(left(&[a, b, c, d, a]), [b, c, d]);
}

#[test]
fn the_tip_of_a_spike_stays_and_so_does_a_point_nearly_in_line() {
    let [a, b, c, d] = [(0.0, 0.0), (2.0, 0.0), (2.0, 2.0), (0.0, 2.0)];
    assert_eq!(left(&[a, b, (9.0, 0.0), b, c, d]), [a, (9.0, 0.0), b, c, d]);
    let bent = [a, (1.0, 1e-12), b, c, d];
    assert_eq!(left(&bent), bent);
    assert_eq!(left(&[a, (1.0, 0.0), b, c, d]), [a, b, c, d]);
}
