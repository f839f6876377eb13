//! Floats on a grid: known answers, each refusal, and that what is nearest is nearest,
//! by fractions.

use oracle::grid::{is_on_grid, is_tie, nearest, to_grid, LARGEST, MOST_UNITS};
use oracle::refusals::{Refusal, MOST_POINTS};
use oracle::seeded::Seeded;

/// What rooms hold before a call.
const HELD: i32 = -77;

/// The refusal of these numbers in a room of this length, which must be as it was; 0 for
/// none.
fn number(points: &[f64], units: u32, room: usize) -> u32 {
    let mut held = vec![HELD; room];
    let number = to_grid(points, units, &mut held).map_or_else(|no| no.number, |_| 0);
    assert!(number == 0 || held.iter().all(|&z| z == HELD));
    number
}

/// Units times a coordinate of at most 60 digits behind the point, in units of 2^-60.
fn fine(units: u32, x: f64) -> i128 {
    let scaled = x * (1_u64 << 60) as f64;
    assert_eq!(scaled.fract(), 0.0, "{x} has more digits");
    i128::from(units) * scaled as i128
}

#[test]
fn the_nearest_whole_number_is_told_and_ties_go_away_from_zero() {
    let cases = [
        (1000, 0.1234, 123),
        (10, 0.25, 3),
        (10, -0.25, -3),
        (10, 0.25_f64.next_down(), 2),
        (1, 0.49999999999999994, 0),
        (1, 0.5, 1),
        (1, -0.5, -1),
        (1, 999_999.5, 1_000_000),
        (1, -1e6, -1_000_000),
        (1_000_000, 1.0, 1_000_000),
        (1_000_000, 5e-324, 0),
        (1_000_000, 5e-7, 0),
        (1_000_000, 5e-7_f64.next_up(), 1),
        (3, 0.0, 0),
        (3, -0.0, 0),
    ];
    for (units, x, z) in cases {
        assert_eq!(nearest(units, x), z, "{units} times {x:e}");
    }
    assert!(is_tie(10, 0.25) && is_tie(2, -0.25) && !is_tie(1_000_000, 5e-7));
}

#[test]
fn what_is_told_is_within_half_a_unit() {
    let seeded = &mut Seeded::new(7);
    for _ in 0..200_000 {
        let units = 1 + seeded.below(MOST_UNITS as usize) as u32;
        let most = (2_000_000 / u64::from(units)) as f64;
        let x = ((seeded.bits() >> 24) as f64 / (1_u64 << 40) as f64 - 0.5) * most;
        let told = i128::from(nearest(units, x)) << 60;
        let exact = fine(units, x);
        let off = (told - exact).abs();
        assert!(2 * off <= 1 << 60, "{units} times {x:e}");
        assert!(2 * off < 1 << 60 || told.abs() > exact.abs(), "{units} times {x:e}");
    }
}

#[test]
fn the_exact_product_decides_what_is_on_the_grid() {
    assert!(is_on_grid(1, 1e6) && is_on_grid(MOST_UNITS, 1.0) && is_on_grid(MOST_UNITS, 0.0));
    assert!(!is_on_grid(MOST_UNITS, 1.0_f64.next_up()) && !is_on_grid(2, 500_000.0_f64.next_up()));
    let above = 90_909.090_909_090_91;
    assert!(above * 11.0 == 1e6 && !is_on_grid(11, above) && is_on_grid(11, above.next_down()));
    for units in 1..2_000 {
        let least = 1e6 / f64::from(units);
        let floats = [least.next_down(), least, least.next_up()];
        for x in floats.map(|x| if x > 1e6 { 1e6 } else { x }) {
            let exact = fine(units, x) <= (LARGEST as i128) << 60;
            assert_eq!(is_on_grid(units, x), exact, "{units} times {x:e}");
        }
    }
}

#[test]
fn each_refusal_comes_in_its_turn() {
    let room = 2;
    assert_eq!(number(&[f64::NAN], 0, 0), 1);
    assert_eq!(number(&vec![f64::NAN; 2 * MOST_POINTS + 2], 0, 0), 9);
    assert_eq!(number(&[f64::NAN, 1e6], 0, 0), 2);
    assert_eq!(number(&[1e6_f64.next_up(), 1e6], 2, 0), 2);
    assert_eq!(number(&[1e6, 1e6], 0, 0), 3);
    assert_eq!(number(&[1e6, 1e6], MOST_UNITS + 1, 0), 3);
    assert_eq!(number(&[1e6, 1e6], 2, 0), 14);
    assert_eq!(number(&[1e6, 1e6], 1, 1), 5);
    assert_eq!(number(&[1e6, -1e6], 1, room), 0);
    assert_eq!(number(&[], 1, 0), 0);
    let place = |points: &[f64]| to_grid(points, 1, &mut []).err();
    assert_eq!(place(&[0.0]), Some(Refusal::at(1, 0)));
}

#[test]
fn the_rest_of_a_room_stays() {
    let mut room = [HELD; 5];
    assert_eq!(to_grid(&[0.25, -0.75], 2, &mut room), Ok(1));
    assert_eq!(room, [1, -2, HELD, HELD, HELD]);
    assert_eq!(to_grid(&[], 2, &mut room), Ok(0));
    assert_eq!(room, [1, -2, HELD, HELD, HELD]);
}
