//! The machine's square root against whole numbers: over every such record of
//! the replay list, and over seeded ones.

use oracle::replay::scalars::{records, seeded_root, SQRT};
use oracle::seeded::Seeded;

/// The whole part of the square root.
fn whole_root(n: u128) -> u128 {
    let (mut low, mut high) = (0_u128, 1_u128 << 55);
    while high - low > 1 {
        let middle = (low + high) / 2;
        if middle * middle <= n {
            low = middle;
        } else {
            high = middle;
        }
    }
    low
}

/// The float nearest to the root of a positive finite number, by whole numbers:
/// 54 digits of the root, of which the last decides the rounding.
fn root_bits(bits: u64) -> u64 {
    let (field, fraction) = (bits >> 52, bits & ((1 << 52) - 1));
    let significand = if field == 0 { fraction } else { fraction | 1 << 52 };
    let shift = significand.leading_zeros() as i64 - 11;
    let exponent = field.max(1) as i64 - 1075 - shift;
    let odd = exponent.rem_euclid(2);
    let radicand = (u128::from(significand) << shift) << (odd + 54);
    let digits = whole_root(radicand) as u64;
    let biased = (exponent - odd) / 2 - 27 + 1 + 1075;
    ((biased as u64 - 1) << 52) + digits.div_ceil(2)
}

/// Asserts that a record holds the nearest float to the root.
fn holds(record: &[u64]) {
    let (x, root) = (f64::from_bits(record[1]), record[4]);
    if x.is_finite() && x > 0.0 {
        assert_eq!(root, root_bits(record[1]), "root of {x:e}");
    } else if x.is_nan() || x < 0.0 {
        assert_eq!(root, 0x7ff8_0000_0000_0000);
    } else {
        assert_eq!(root, record[1]);
    }
}

#[test]
fn the_root_is_the_nearest_float() {
    let stored: Vec<_> = records().into_iter().filter(|record| record[0] == SQRT).collect();
    assert!(stored.len() >= 2_400);
    stored.iter().for_each(|record| holds(record));
}

#[test]
fn seeded_roots_are_the_nearest_floats() {
    let seeded = &mut Seeded::new(5);
    (0..100_000).for_each(|_| holds(&seeded_root(seeded)));
}
