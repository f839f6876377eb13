//! Drawings on a grid: known answers, each refusal, and that what is put there is taken
//! by the calls in whole numbers.

use byrlygent::grid::to_grid;
use byrlygent::{whole, Entries, List, Point, Refusal};

/// A square whose corners lie a little off the thousandths.
const SQUARE: [Point; 4] = [(0.0004, 0.0), (3.9996, -0.0), (4.0, 4.0005), (-0.0005, 3.9995)];

#[test]
fn each_coordinate_is_the_nearest_whole_number() {
    // The floats 4.0005 and 3.9995 lie below these, and -0.0005 beyond: none is a tie.
    let expected = vec![(0, 0), (4000, 0), (4000, 4000), (-1, 3999)];
    assert_eq!(to_grid(&SQUARE, 1000), Ok(expected));
    assert_eq!(to_grid(&[(0.25, -0.25)], 10), Ok(vec![(3, -3)]));
    assert_eq!(to_grid(&[(0.25_f64.next_down(), 5e-324)], 10), Ok(vec![(2, 0)]));
    assert_eq!(to_grid(&[] as &[Point], 1), Ok(vec![]));
}

#[test]
fn what_is_put_on_the_grid_is_taken_in_whole_numbers() {
    let told = to_grid(&[[1e6, -1e6], [-1e6, -1e6], [0.0, 1e6]], 1).unwrap();
    assert_eq!(whole::is_simple_polygon(&told), Ok(true));
    assert_eq!(whole::signed_area2(&to_grid(&SQUARE, 1).unwrap()), Ok(32));
}

#[test]
fn units_and_products_keep_their_bounds() {
    let at = |x: f64, units| to_grid(&[(0.0, x)], units).err();
    for units in [0, 1_000_001, u32::MAX] {
        assert_eq!(at(0.0, units), Some(Refusal::Setting));
        assert_eq!(at(f64::NAN, units), Some(Refusal::Number));
    }
    for x in [f64::NAN, f64::INFINITY, 1e6_f64.next_up()] {
        assert_eq!(at(x, 1), Some(Refusal::Number));
    }
    for (last, units) in [(1e6, 1), (1.0, 1_000_000), (90_909.090_909_090_9, 11)] {
        assert_eq!((at(last, units), at(-last, units)), (None, None));
        let next = last.next_up();
        let beyond = if next > 1e6 { Refusal::Number } else { Refusal::Grid };
        assert_eq!((at(next, units), at(-next, units)), (Some(beyond), Some(beyond)));
    }
}

#[test]
fn a_list_has_at_most_10001_points() {
    let points = vec![(0.5, 0.5); 10_002];
    assert_eq!(to_grid(&points[..10_001], 3).map(|told| told[10_000]), Ok((2, 2)));
    let entries = Entries { list: List::Points, has: 10_002, least: 0, most: 10_001 };
    assert_eq!(to_grid(&points, 3), Err(Refusal::Many(entries)));
}
