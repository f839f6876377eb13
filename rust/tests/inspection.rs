//! Places to inspect through the safe call: shifts one after the other, and the bounds.

use byrlygent::inspection::{next_places, Shift};
use byrlygent::Refusal;

/// How often each place is inspected in so many shifts, the first of them from here.
fn times(points: u64, per_shift: u64, start: u64, shifts: u64) -> Vec<u64> {
    let (mut times, mut start) = (vec![0; points as usize], start);
    for _ in 0..shifts {
        let shift = next_places(points, per_shift, start).expect("all is within its bounds");
        shift.places.iter().for_each(|&place| times[place as usize] += 1);
        start = shift.following;
    }
    times
}

#[test]
fn five_shifts_of_five_inspect_24_places() {
    let mut expected = vec![1; 24];
    expected[0] = 2;
    assert_eq!(times(24, 5, 0, 5), expected);
    assert!(times(24, 5, 17, 5).iter().all(|&times| times >= 1));
}

#[test]
fn a_short_path_is_inspected_whole() {
    assert_eq!(next_places(3, 5, 2), Ok(Shift { places: vec![2, 0, 1], following: 2 }));
    assert_eq!(next_places(1, 64, 0), Ok(Shift { places: vec![0], following: 0 }));
}

#[test]
fn the_longest_path_is_inspected_in_157_shifts() {
    assert!(times(10_001, 64, 0, 157).iter().all(|&times| times == 1 || times == 2));
    assert!(times(10_001, 64, 9_990, 157).iter().all(|&times| times >= 1));
    assert!(times(10_001, 64, 0, 156).contains(&0));
}

#[test]
fn bounds_are_kept() {
    let refused = [(0, 1, 0), (10_002, 1, 0), (24, 0, 0), (24, 65, 0), (24, 5, 24)];
    for (points, per_shift, start) in refused.into_iter().chain([(u64::MAX, u64::MAX, u64::MAX)]) {
        assert_eq!(next_places(points, per_shift, start), Err(Refusal::Inspection));
    }
    assert!(next_places(10_001, 64, 10_000).is_ok());
}
