//! The check of a path: known answers, a fault at every point and leg, the first of
//! several, windings, each refusal and their order.

use oracle::calls::{check_translation_collision, compute_nfp_sliding, find_contacts, Traced};
use oracle::path::{check_path, numbered, Fault};
use oracle::refusals::{Refusal, Settings};
use oracle::shapes::{disc, placed, reversed, square};

const DEFAULT: Settings =
    Settings { contact_tolerance: 1e-6, min_translation: 1e-8, max_iterations: 10_000 };

/// Twelve points on which a square of side 2 goes round one of side 4, so that a corner
/// meets a corner at the end of each leg.
const ROUND: [[f64; 2]; 12] = [
    [-2.0, -2.0],
    [0.0, -2.0],
    [2.0, -2.0],
    [4.0, -2.0],
    [4.0, 0.0],
    [4.0, 2.0],
    [4.0, 4.0],
    [2.0, 4.0],
    [0.0, 4.0],
    [-2.0, 4.0],
    [-2.0, 2.0],
    [-2.0, 0.0],
];

/// The first fault of a path round the square.
fn checked(path: &[[f64; 2]]) -> Option<Fault> {
    check_path(&square(4.0), &square(2.0), &DEFAULT, &path.concat()).expect("nothing is wrong")
}

/// The round with this point in a place of its own.
fn with(place: usize, point: [f64; 2]) -> Vec<[f64; 2]> {
    let mut path = ROUND.to_vec();
    path[place] = point;
    path
}

/// The point farther from the square, by half a unit each way.
fn outward([x, y]: [f64; 2]) -> [f64; 2] {
    let away = |z: f64| if z < 1.0 { z - 0.5 } else { z + 0.5 };
    [away(x), away(y)]
}

/// The point on the other side of the square.
fn across([x, y]: [f64; 2]) -> [f64; 2] {
    [2.0 - x, 2.0 - y]
}

#[test]
fn a_round_of_two_squares_is_accepted_from_every_point_and_either_way() {
    for start in 0..ROUND.len() {
        let mut path = ROUND.to_vec();
        path.rotate_left(start);
        assert_eq!(checked(&path), None, "{start}");
        path.reverse();
        assert_eq!(checked(&path), None, "{start}");
    }
}

#[test]
fn one_point_of_contact_repeated_is_accepted() {
    for point in ROUND {
        assert_eq!(checked(&[point; 3]), None);
    }
    assert_eq!(checked(&vec![ROUND[5]; 10_001]), None);
    assert_eq!(checked(&[[9.0, 9.0]; 3]), Some(Fault::Point(0)));
}

#[test]
fn a_point_without_contact_is_told_at_every_place() {
    for (place, point) in ROUND.into_iter().enumerate() {
        let path = with(place, outward(point));
        assert_eq!(checked(&path), Some(Fault::Point(place)), "{place}");
    }
}

#[test]
fn a_blocked_leg_is_told_at_every_place() {
    for (place, point) in ROUND[..11].iter().enumerate() {
        let path = with(place + 1, across(*point));
        assert_eq!(checked(&path), Some(Fault::Leg(place)), "{place}");
    }
    // A part of the round: only the leg from its last point to its first is blocked.
    for points in 3..ROUND.len() {
        assert_eq!(checked(&ROUND[..points]), Some(Fault::Leg(points - 1)), "{points}");
    }
}

#[test]
fn the_first_fault_is_told() {
    let apart = with(4, outward(ROUND[4]));
    for place in 0..ROUND.len() - 1 {
        let mut path = apart.clone();
        path[place + 1] = across(ROUND[place]);
        let first = if place < 4 { Fault::Leg(place) } else { Fault::Point(4) };
        assert_eq!(checked(&path), Some(first), "{place}");
    }
    // Of one point its contact is asked for before its leg.
    let path = [[2.0, -3.0], [2.0, 4.0], [2.0, 4.0]];
    let moved = placed(&square(2.0), 1.0, 2.0, -3.0);
    let hit = check_translation_collision(&square(4.0), &moved, (0.0, 7.0), 1e-6);
    assert!(hit.is_ok_and(|hit| hit.is_some()));
    assert_eq!(checked(&path), Some(Fault::Point(0)));
}

#[test]
fn a_corner_that_only_touches_blocks_a_leg_that_goes_on() {
    // Two legs in one: the corner is met half way.
    assert_eq!(checked(&[ROUND[1], ROUND[3], ROUND[2]]), Some(Fault::Leg(0)));
    assert_eq!(checked(&[ROUND[1], ROUND[2], ROUND[3], ROUND[2]]), None);
}

#[test]
fn contact_is_asked_of_the_polygon_as_it_is_moved() {
    // A point a little off keeps contact below the tolerance, and has none at it.
    for (gap, fault) in [(0.0, None), (0.25, None), (0.5, Some(Fault::Point(0)))] {
        let settings = Settings { contact_tolerance: 0.5, ..DEFAULT };
        let path = [[1.0, -2.0 - gap]; 3].concat();
        let answer = check_path(&square(4.0), &square(2.0), &settings, &path);
        assert_eq!(answer, Ok(fault), "{gap}");
    }
    // Rounded, this vertex lies where the square begins; what is left out is no distance.
    let far = [1e6, 0.0, 999_999.0, -1.0, 999_999.5, -1.0];
    let near = [0.7, 0.0, 1.0, 1.0, 0.95, 1.0];
    let gap: f64 = 0.7 - (1e6 + (0.7 - 1e6));
    let path = [[0.7 - 1e6, 0.0]; 3].concat();
    for (contact_tolerance, fault) in [
        (gap, Some(Fault::Point(0))),
        (gap.next_up(), None),
        (gap.next_down(), Some(Fault::Point(0))),
    ] {
        let settings = Settings { contact_tolerance, ..DEFAULT };
        assert_eq!(check_path(&near, &far, &settings, &path), Ok(fault));
    }
}

#[test]
fn windings_stay_as_lent() {
    let (s, q) = (square(4.0), square(2.0));
    for stationary in [s.clone(), reversed(&s)] {
        for orbiting in [q.clone(), reversed(&q)] {
            let answer = |path: &[[f64; 2]]| {
                check_path(&stationary, &orbiting, &DEFAULT, &path.concat()).expect("two squares")
            };
            assert_eq!(answer(&ROUND), None);
            assert_eq!(answer(&ROUND[..7]), Some(Fault::Leg(6)));
            assert_eq!(answer(&with(5, [4.5, 2.0])), Some(Fault::Point(5)));
        }
    }
}

#[test]
fn every_point_and_leg_is_that_of_the_calls() {
    let (s, q) = (disc(12, 2.0), disc(8, 1.0));
    let (mut work, mut result) = ([0.0; 128], [0.0; 128]);
    let traced = compute_nfp_sliding(&s, &q, &DEFAULT, &mut work, &mut result);
    let Traced::Done { stored, .. } = traced else { panic!("{traced:?}") };
    let path = &work[..2 * stored as usize];
    let fault = |i: usize| {
        let [from, to] = [i, (i + 1) % (path.len() / 2)].map(|i| (path[2 * i], path[2 * i + 1]));
        let moved = placed(&q, 1.0, from.0, from.1);
        let contacts = find_contacts(&s, &moved, 1e-6, &mut [0; 400], &mut [0.0; 200]);
        let by = (to.0 - from.0, to.1 - from.1);
        let hit = check_translation_collision(&s, &moved, by, 1e-6).expect("two discs");
        match (contacts, hit) {
            (Ok(0), _) => Some(Fault::Point(i)),
            (_, Some(_)) => Some(Fault::Leg(i)),
            _ => None,
        }
    };
    let first = (0..path.len() / 2).find_map(fault);
    assert_eq!(check_path(&s, &q, &DEFAULT, path), Ok(first));
}

#[test]
fn a_path_through_the_stationary_polygon_may_be_accepted() {
    // The trace's own path; at its second point the triangles lie in each other.
    let (a, b) = ([-3.0, 0.0, 0.0, 0.0, -2.0, 3.0], [-2.0, -2.0, 0.0, -2.0, -2.0, -1.0]);
    let path = [-1.0, 1.0, -1.0, 2.0, -3.0, 2.0];
    assert_eq!(check_path(&a, &b, &DEFAULT, &path), Ok(None));
}

#[test]
fn a_hit_a_hair_beyond_the_tolerance_blocks_a_leg_of_our_own() {
    let own = |a: &[f64], b: &[f64]| {
        let (mut work, mut result) = ([0.0; 128], [0.0; 128]);
        let traced = compute_nfp_sliding(a, b, &DEFAULT, &mut work, &mut result);
        let Traced::Done { stored, .. } = traced else { panic!("{traced:?}") };
        check_path(a, b, &DEFAULT, &work[..2 * stored as usize])
    };
    let (s, q) = (square(4.0), square(2.0));
    assert_eq!(own(&s, &s), Ok(None));
    assert_eq!(own(&s, &q), Ok(Some(Fault::Leg(4))));
    assert_eq!(own(&q, &s), Ok(Some(Fault::Leg(8))));
    let (a, b) = ([0.0, 1.0, 1.0, 0.0, 1.0, 1.0], [0.0, 0.0, 1.0, 0.0, 1.0, 1.0]);
    assert_eq!(own(&a, &b), Ok(Some(Fault::Leg(4))));
}

#[test]
fn points_of_a_path_need_only_be_finite() {
    let answer = |path: &[f64]| check_path(&square(4.0), &square(2.0), &DEFAULT, path);
    // The difference of these overflows, and the first point has no contact.
    let far = [f64::MAX, 1e300, f64::MIN, -1e300, 0.0, -2.0];
    assert_eq!(answer(&far), Ok(Some(Fault::Point(0))));
    let onto = [0.0, -2.0, f64::MAX, 0.0, f64::MIN, 0.0];
    assert_eq!(answer(&onto), Ok(Some(Fault::Point(1))));
    for number in [f64::NAN, f64::INFINITY, f64::NEG_INFINITY] {
        for place in 0..6 {
            let mut path = onto;
            path[place] = number;
            assert_eq!(answer(&path), Err(Refusal::of(2)));
        }
    }
    // Zeros of either sign and the smallest numbers are what they are.
    let tiny = [-0.0, -2.0, 5e-324, -2.0, 0.0, -2.0];
    assert_eq!(answer(&tiny), Ok(None));
}

/// So many numbers of the square, again and again.
fn of_length(n: usize) -> Vec<f64> {
    square(4.0).into_iter().cycle().take(n).collect()
}

#[test]
fn lists_are_gone_through_one_after_the_other() {
    let refused = |a: usize, b: usize, path: usize| {
        let answer = check_path(&of_length(a), &of_length(b), &DEFAULT, &of_length(path));
        answer.err().map_or((0, 0), |no| (no.number, no.place))
    };
    for (n, number) in [(1, 1), (5, 1), (513, 1), (515, 1), (0, 8), (4, 8), (514, 9), (600, 9)] {
        assert_eq!(refused(n, 8, 8), (number, 0), "{n}");
        assert_eq!(refused(8, n, 8), (number, 1), "{n}");
        for path in [5, 4, 20_004] {
            assert_eq!(refused(n, 7, path), (number, 0), "{n} and {path}");
            assert_eq!(refused(8, n, path), (number, 1), "{n} and {path}");
        }
    }
    for (n, number) in [(1, 1), (5, 1), (7, 1), (0, 8), (2, 8), (4, 8), (20_003, 1), (20_004, 9)] {
        assert_eq!(refused(8, 8, n), (number, 2), "{n}");
    }
    for n in [6, 8, 20_002] {
        assert_eq!(refused(6, 512, n).0, 0, "{n}");
    }
}

#[test]
fn numbers_come_after_all_lists_and_settings_after_all_numbers() {
    let (s, q, path) = (square(4.0), square(2.0), ROUND.concat());
    let (wrong, past) = ([f64::NAN; 8], [1_000_000.0_f64.next_up(); 8]);
    let bad = Settings { contact_tolerance: 0.0, ..DEFAULT };
    let refused = |a: &[f64], b: &[f64], path: &[f64]| {
        check_path(a, b, &bad, path).expect_err("something is wrong")
    };
    assert_eq!(refused(&wrong, &wrong, &path[..5]), Refusal::at(1, 2));
    assert_eq!(refused(&wrong, &wrong, &path[..4]), Refusal::at(8, 2));
    assert_eq!(refused(&wrong, &q, &path), Refusal::of(2));
    assert_eq!(refused(&s, &past, &path), Refusal::of(2));
    assert_eq!(refused(&s, &q, &wrong), Refusal::of(2));
    assert_eq!(refused(&s, &q, &path), Refusal::of(3));
    // What no coordinate may be, a point of a path may.
    assert_eq!(refused(&s, &q, &past), Refusal::of(3));
}

#[test]
fn all_settings_are_tested() {
    let answer =
        |settings: Settings| check_path(&square(4.0), &square(2.0), &settings, &ROUND.concat());
    for contact_tolerance in [0.0, -0.0, -1e-6, 1.0_f64.next_up(), f64::NAN, f64::INFINITY] {
        let settings = Settings { contact_tolerance, ..DEFAULT };
        assert_eq!(answer(settings), Err(Refusal::of(3)), "{contact_tolerance}");
    }
    for min_translation in [-5e-324, -1.0, f64::NAN, f64::INFINITY] {
        let settings = Settings { min_translation, ..DEFAULT };
        assert_eq!(answer(settings), Err(Refusal::of(3)), "{min_translation}");
    }
    for max_iterations in [10_001, u64::MAX] {
        assert_eq!(answer(Settings { max_iterations, ..DEFAULT }), Err(Refusal::of(3)));
    }
    // The smallest move and the limit are tested, and then not used.
    for (min_translation, max_iterations) in [(-0.0, 0), (f64::MAX, 10_000), (1e300, 1)] {
        let settings = Settings { min_translation, max_iterations, ..DEFAULT };
        assert_eq!(answer(settings), Ok(None));
    }
}

#[test]
fn faults_have_numbers() {
    assert_eq!(numbered(None), (0, 0));
    assert_eq!(numbered(Some(Fault::Point(7))), (1, 7));
    assert_eq!(numbered(Some(Fault::Leg(7))), (2, 7));
}
