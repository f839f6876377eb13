//! What the two sets of helpers rest on: Rust's sum, power and order of zeros.

use oracle::fixed::helpers::{larger, orient2d_filtered, polygon_centroid, smaller};
use oracle::repository;
use oracle::seeded::Seeded;

#[test]
fn rusts_sum_is_a_fold_from_its_start() {
    let seeded = &mut Seeded::new(3);
    for length in 0..50 {
        let list: Vec<f64> = (0..length).map(|_| seeded.spread(1e3)).collect();
        let folded = list.iter().fold(repository::helpers::SUM_START, |sum, x| sum + x);
        assert_eq!(list.iter().sum::<f64>().to_bits(), folded.to_bits());
    }
}

#[test]
fn the_second_power_is_one_product() {
    let seeded = &mut Seeded::new(4);
    for _ in 0..10_000 {
        let x = f64::from_bits(seeded.bits());
        let (power, product) = (std::hint::black_box(x).powi(2), x * x);
        assert!(power.to_bits() == product.to_bits() || (power.is_nan() && product.is_nan()));
    }
}

#[test]
fn zeros_and_nans_are_ordered() {
    for (a, b) in [(0.0, -0.0), (-0.0, 0.0)] {
        assert_eq!(smaller(a, b).to_bits(), (-0.0_f64).to_bits());
        assert_eq!(larger(a, b).to_bits(), 0.0_f64.to_bits());
    }
    for of in [smaller, larger] {
        assert_eq!(of(f64::NAN, 1.0), 1.0);
        assert_eq!(of(1.0, f64::NAN), 1.0);
        assert!(of(f64::NAN, f64::NAN).is_nan());
    }
}

#[test]
fn a_turn_that_is_no_number_is_collinear() {
    assert!(orient2d_filtered((0.0, 0.0), (1e300, 1e300), (1e300, 1e300)).is_collinear());
    assert!(orient2d_filtered((0.0, 0.0), (0.0, 1.0), (1.0, 0.0)).is_cw());
}

#[test]
fn the_centroid_follows_the_area() {
    let kite = [(0.0, 0.0), (3.0, 0.0), (3.0, 3.0), (0.0, 6.0)];
    assert_eq!(polygon_centroid(&kite), (4.0 / 3.0, 7.0 / 3.0));
    assert_eq!(repository::helpers::polygon_centroid(&kite), (1.5, 2.25));
    let line = [(0.0, 0.0), (1.0, 1.0), (5.0, 5.0)];
    assert_eq!(polygon_centroid(&line), (2.0, 2.0));
    let huge = [(1e200, 0.0), (0.0, 1e200), (-1e200, -1e200)];
    assert!(polygon_centroid(&huge).0.is_nan());
}
