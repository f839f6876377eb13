//! Faults of a path that another program traced, at every place, and the words that a
//! person reads; tests/lists.rs asks for the lists that the call refuses by name.

use byrlygent::nfp_sliding::{
    check_path, check_translation_collision, compute_nfp_sliding, find_contacts, Fault,
    SlidingNfpConfig,
};
use byrlygent::{Point, Refusal};

const S: [Point; 4] = [(0.0, 0.0), (4.0, 0.0), (4.0, 4.0), (0.0, 4.0)];
const Q: [Point; 4] = [(0.0, 0.0), (2.0, 0.0), (2.0, 2.0), (0.0, 2.0)];

/// Points on which Q goes round S, so that a corner meets a corner at the end of each
/// leg.
const ROUND: [Point; 12] = [
    (-2.0, -2.0),
    (0.0, -2.0),
    (2.0, -2.0),
    (4.0, -2.0),
    (4.0, 0.0),
    (4.0, 2.0),
    (4.0, 4.0),
    (2.0, 4.0),
    (0.0, 4.0),
    (-2.0, 4.0),
    (-2.0, 2.0),
    (-2.0, 0.0),
];

/// The first fault of a path of Q round S.
fn checked(path: &[Point]) -> Fault {
    check_path(&S, &Q, &SlidingNfpConfig::default(), path).expect("all is within its bounds")
}

/// The round with this point in a place of its own.
fn with(place: usize, point: Point) -> Vec<Point> {
    let mut path = ROUND.to_vec();
    path[place] = point;
    path
}

#[test]
fn a_round_is_accepted_from_every_point_and_either_way() {
    for start in 0..ROUND.len() {
        let mut path = ROUND.to_vec();
        path.rotate_left(start);
        assert_eq!(checked(&path), Fault::None);
        path.reverse();
        assert_eq!(checked(&path), Fault::None);
    }
    assert_eq!(checked(&[ROUND[4]; 3]), Fault::None);
    assert_eq!(checked(&vec![ROUND[4]; 10_001]), Fault::None);
}

#[test]
fn a_fault_is_told_at_every_place() {
    for (place, (x, y)) in ROUND.into_iter().enumerate() {
        let away = |z: f64| if z < 1.0 { z - 0.5 } else { z + 0.5 };
        assert_eq!(checked(&with(place, (away(x), away(y)))), Fault::NoContact(place));
        if place + 1 < ROUND.len() {
            let across = with(place + 1, (2.0 - x, 2.0 - y));
            assert_eq!(checked(&across), Fault::Blocked(place));
        }
    }
    // The leg from the last point to the first.
    for points in 3..ROUND.len() {
        assert_eq!(checked(&ROUND[..points]), Fault::Blocked(points - 1));
    }
}

#[test]
fn a_traced_path_is_judged_by_the_calls_that_it_names() {
    let config = SlidingNfpConfig::default();
    let path = compute_nfp_sliding(&S, &Q, &config).expect("a path of seven points").path;
    let fault = |i: usize| {
        let (from, to) = (path[i], path[(i + 1) % path.len()]);
        let moved = Q.map(|(x, y)| (x + from.0, y + from.1));
        let by = (to.0 - from.0, to.1 - from.1);
        let contacts = find_contacts(&S, &moved, config.contact_tolerance).expect("two squares");
        let hit = check_translation_collision(&S, &moved, by, config.contact_tolerance);
        match (contacts.is_empty(), hit.expect("two squares")) {
            (true, _) => Some(Fault::NoContact(i)),
            (false, Some(_)) => Some(Fault::Blocked(i)),
            (false, None) => None,
        }
    };
    let first = (0..path.len()).find_map(fault);
    // At (4, 1.999999) the next hit lies a hair beyond the tolerance. The trace goes on by
    // that hair, and stores no point.
    assert_eq!(first, Some(Fault::Blocked(4)));
    assert_eq!(checked(&path), Fault::Blocked(4));
}

#[test]
fn windings_stay_as_lent() {
    let (mut s, mut q, config) = (S, Q, SlidingNfpConfig::default());
    s.reverse();
    q.reverse();
    for (stationary, orbiting) in [(S, q), (s, Q), (s, q)] {
        let answer = |path: &[Point]| check_path(&stationary, &orbiting, &config, path);
        assert_eq!(answer(&ROUND), Ok(Fault::None));
        assert_eq!(answer(&ROUND[..7]), Ok(Fault::Blocked(6)));
        assert_eq!(answer(&with(5, (4.5, 2.0))), Ok(Fault::NoContact(5)));
    }
}

#[test]
fn numbers_and_settings_out_of_bounds_are_refused() {
    let default = SlidingNfpConfig::default();
    let wrong = SlidingNfpConfig { contact_tolerance: 0.0, ..default };
    for number in [f64::NAN, f64::INFINITY, f64::NEG_INFINITY] {
        assert_eq!(check_path(&S, &Q, &wrong, &with(11, (number, 0.0))), Err(Refusal::Number));
        assert_eq!(check_path(&S, &[(number, 0.0); 3], &wrong, &ROUND), Err(Refusal::Number));
    }
    assert_eq!(check_path(&[(0.0, 1e7); 3], &Q, &wrong, &ROUND), Err(Refusal::Number));
    // A point of a path need only be finite.
    assert_eq!(checked(&with(1, (f64::MAX, f64::MIN))), Fault::NoContact(1));
    for config in [
        wrong,
        SlidingNfpConfig { contact_tolerance: 1.0 + f64::EPSILON, ..default },
        SlidingNfpConfig { min_translation: -1e-9, ..default },
        SlidingNfpConfig { min_translation: f64::INFINITY, ..default },
        SlidingNfpConfig { max_iterations: 10_001, ..default },
        SlidingNfpConfig { max_iterations: usize::MAX, ..default },
    ] {
        assert_eq!(check_path(&S, &Q, &config, &ROUND), Err(Refusal::Setting));
    }
    let unused = SlidingNfpConfig { min_translation: f64::MAX, max_iterations: 0, ..default };
    assert_eq!(check_path(&S, &Q, &unused, &ROUND), Ok(Fault::None));
}

#[test]
fn faults_have_the_numbers_of_the_library_and_words() {
    let all = [
        (Fault::None, 0, "the path is accepted"),
        (Fault::NoContact(7), 1, "at point 7 there is no contact"),
        (Fault::Blocked(7), 2, "the leg from point 7 to the next runs into something"),
    ];
    for (fault, number, words) in all {
        assert_eq!((fault.number(), fault.to_string().as_str()), (number, words));
    }
}
