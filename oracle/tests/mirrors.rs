//! What mirroring leaves as it was and what it does not, on inputs that
//! docs/DIFFERENCES.md names.

use oracle::answers::{Error, Point, Trace};
use oracle::fixed::nfp_sliding::{compute_nfp_sliding, SlidingNfpConfig};
use oracle::fixed::polygon_ops::{mirror_polygon, segments_intersect, signed_area2};
use oracle::seeded::Seeded;

/// The trace with the default settings and at most 60 passes.
fn traced(a: &[Point], b: &[Point]) -> Trace {
    let config = SlidingNfpConfig { max_iterations: 60, ..Default::default() };
    match compute_nfp_sliding(a, b, &config, 61) {
        Ok(nfp) => nfp.trace,
        Err(Error::Short(trace) | Error::Full(trace)) => trace,
        Err(Error::InvalidGeometry(message)) => panic!("{message}"),
    }
}

/// A triangle that slides round itself closes; mirrored, it uses up its passes.
#[test]
fn a_mirrored_pair_has_another_trace() {
    let triangle = [(0.0, 0.0), (1.0, 0.0), (0.0, 1.0)];
    let closed = traced(&triangle, &triangle);
    assert_eq!((closed.passes, closed.stop, closed.path.len()), (6, 4, 6));
    let mirrored = mirror_polygon(&triangle);
    let other = traced(&mirrored, &mirrored);
    assert_eq!((other.passes, other.stop, other.path.len()), (60, 5, 61));
}

/// The area of a mirrored ring is summed in another order.
#[test]
fn a_mirrored_ring_may_have_another_area() {
    let ring = [(0.0, 0.1), (0.1, 0.0), (0.2, 0.1), (0.0, 0.3)];
    assert_eq!(signed_area2(&ring), 0.06);
    assert_eq!(signed_area2(&mirror_polygon(&ring)), 0.060_000_000_000_000_005);
}

/// With x negated the area changes its sign alone, and segments meet as before.
#[test]
fn a_sign_is_all_that_changes() {
    let seeded = &mut Seeded::new(23);
    for _ in 0..20_000 {
        let ring = [0; 4].map(|_| (seeded.spread(3.0), seeded.whole(2) / 10.0));
        let across = ring.map(|p| (-p.0, p.1));
        assert_eq!(signed_area2(&ring), -signed_area2(&across));
        let [one, other] = [ring, across].map(|r| segments_intersect(r[0], r[1], r[2], r[3]));
        assert_eq!(one, other);
    }
}
