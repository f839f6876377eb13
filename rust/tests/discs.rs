//! Discs through the safe call: known vertices, zeros, radii and centres at the bounds,
//! and each refusal.

use byrlygent::discs::make_disc;
use byrlygent::polygon_ops::{is_simple_polygon, signed_area2};
use byrlygent::{Point, Refusal};

/// The bits of the points, one after the other.
fn bits(points: &[Point]) -> Vec<u64> {
    points.iter().flat_map(|point| [point.0.to_bits(), point.1.to_bits()]).collect()
}

/// The next float after a positive one.
fn after(x: f64) -> f64 {
    f64::from_bits(x.to_bits() + 1)
}

#[test]
fn known_vertices_are_made() {
    let (x, y) = (644_245_094.0 / 1_073_741_824.0, 858_993_459.0 / 1_073_741_824.0);
    let eight =
        [(1.0, 0.0), (x, y), (0.0, 1.0), (-y, x), (-1.0, 0.0), (-x, -y), (0.0, -1.0), (y, -x)];
    let disc = make_disc([0.0, 0.0], 1.0, 2).expect("it is in bounds");
    assert_eq!(bits(&disc), bits(&eight));
}

#[test]
fn no_entry_is_minus_zero() {
    let four = [(1.0, 0.0), (0.0, 1.0), (-1.0, 0.0), (0.0, -1.0)];
    let disc = make_disc((-0.0, -0.0), 1.0, 1).expect("it is in bounds");
    assert_eq!(bits(&disc), bits(&four));
}

#[test]
fn all_seven_are_simple_and_counter_clockwise() {
    for quarter in [1, 2, 4, 8, 16, 32, 64] {
        let disc = make_disc((-7.25, 1_000.5), 12.5, quarter).expect("it is in bounds");
        assert_eq!(disc.len() as u64, 4 * quarter);
        assert_eq!(is_simple_polygon(&disc), Ok(true));
        assert!(signed_area2(&disc).expect("it is a ring") > 0.0);
    }
}

#[test]
fn radii_and_centres_reach_the_bounds() {
    assert_eq!(make_disc((0.0, 0.0), 1e6, 64).map(|disc| disc[0]), Ok((1e6, 0.0)));
    assert_eq!(make_disc((0.0, 0.0), after(1e6), 64), Err(Refusal::Number));
    let small = make_disc((1e6, -1e6), 5e-324, 64).expect("each vertex is the centre");
    assert!(small.iter().all(|&vertex| vertex == (1e6, -1e6)));
    assert_eq!(make_disc((after(1e6), 0.0), 5e-324, 1), Err(Refusal::Number));
}

#[test]
fn wrong_numbers_are_refused() {
    for quarter in [0, 3, 5, 63, 65, 128, 1 << 32, u64::MAX] {
        assert_eq!(make_disc((f64::NAN, 0.0), -1.0, quarter), Err(Refusal::Quarter(quarter)));
    }
    for radius in [0.0, -0.0, -1.0, f64::NAN, f64::INFINITY, f64::NEG_INFINITY] {
        assert_eq!(make_disc((1.0, 2.0), radius, 1), Err(Refusal::Number));
    }
    for wrong in [f64::NAN, f64::INFINITY, f64::NEG_INFINITY] {
        assert_eq!(make_disc((wrong, 2.0), 1.0, 1), Err(Refusal::Number));
        assert_eq!(make_disc((1.0, wrong), 1.0, 1), Err(Refusal::Number));
    }
}
