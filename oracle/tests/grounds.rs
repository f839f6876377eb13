//! Why a move is clear, or not: known answers of every ground and both kinds, ties,
//! short moves, refusals in their order, and the collision check's own answer.

use oracle::calls::{check_translation_collision, Hit};
use oracle::grounds::{explain_collision, Explanation};
use oracle::grounds::{BOTH_SIDES, FAR, HIT, NEAR, NEVER, SHORT};
use oracle::refusals::Refusal;
use oracle::replay::{list, sliding};
use oracle::seeded::Seeded;
use oracle::shapes::{comb, placed, square};

const TOLERANCE: f64 = 1e-6;

/// A square of side 4, and one of side 2 at this point.
fn squares(x: f64, y: f64) -> [Vec<f64>; 2] {
    [square(4.0), placed(&square(2.0), 1.0, x, y)]
}

/// Two upright lines, this far apart, with three vertices each.
fn uprights(apart: f64) -> [Vec<f64>; 2] {
    let line = [0.0, 0.0, 0.0, 2.0, 0.0, 4.0];
    [line.to_vec(), placed(&line, 1.0, -apart, 0.5)]
}

/// The explanation of a move of the second polygon.
fn explained([a, b]: &[Vec<f64>; 2], by: (f64, f64), tolerance: f64) -> Explanation {
    explain_collision(a, b, by, tolerance).expect("nothing is wrong")
}

/// That a move is clear for this ground, with hits too near and too far in these
/// numbers.
fn clear(pair: &[Vec<f64>; 2], by: (f64, f64), tolerance: f64, ground: u32, near: u64, far: u64) {
    let expected =
        Explanation { ground, hit: None, others: 0, too_near: near, between: 0, too_far: far };
    assert_eq!(explained(pair, by, tolerance), expected, "{by:?} {tolerance}");
}

#[test]
fn a_short_move_is_not_scanned() {
    for pair in [squares(-5.0, 1.0), squares(1.0, 1.0), squares(-2.0, 1.0)] {
        for by in [(0.0, 0.0), (-0.0, 9e-7), (TOLERANCE.next_down(), 0.0), (5e-324, 5e-324)] {
            clear(&pair, by, TOLERANCE, SHORT, 0, 0);
        }
        clear(&pair, (1.0_f64.next_down(), 0.0), 1.0, SHORT, 0, 0);
    }
    // One of the tolerance's own length is scanned.
    clear(&squares(-5.0, 1.0), (-1.0, 0.0), 1.0, NEVER, 0, 0);
}

#[test]
fn grounds_of_nothing() {
    clear(&squares(-5.0, 1.0), (-10.0, 0.0), TOLERANCE, NEVER, 0, 0);
    clear(&squares(1.0, -2.0), (0.0, -9.0), TOLERANCE, NEAR, 2, 0);
    clear(&squares(-5.0, 1.0), (3.0, 0.0), TOLERANCE, FAR, 0, 8);
    clear(&squares(-2.0, 1.0), (1.0, 0.0), TOLERANCE, BOTH_SIDES, 2, 6);
    // The square of this length overflows, and no direction is left.
    clear(&squares(-5.0, 1.0), (1e200, 0.0), TOLERANCE, NEVER, 0, 0);
}

#[test]
fn a_hit_too_near_and_too_far_is_too_near() {
    // The move is 1.5 long: what is beyond 0.5 is far, and up to 1 near.
    for (apart, near, far) in [(0.25, 16, 0), (0.75, 16, 0), (1.0, 16, 0), (1.25, 0, 16)] {
        let ground = if far == 0 { NEAR } else { FAR };
        clear(&uprights(apart), (1.5, 0.0), 1.0, ground, near, far);
    }
    // A tolerance of 1 makes each edge longer by its length at both ends: each square's
    // vertices hit both uprights of the other.
    clear(&squares(-2.75, 1.0), (1.5, 0.0), 1.0, BOTH_SIDES, 4, 12);
    // Nothing lies between in a move of two tolerances, and in a longer one it does.
    clear(&uprights(1.0), (2.0, 0.0), 1.0, NEAR, 16, 0);
    clear(&uprights(1.0_f64.next_up()), (2.0, 0.0), 1.0, FAR, 0, 16);
    let longer = explained(&uprights(1.25), (2.5, -0.0), 1.0);
    assert_eq!((longer.ground, longer.others, longer.between), (HIT, 15, 16));
}

#[test]
fn hits_are_of_both_kinds() {
    let first = Hit { distance: 3.0, kind: 0, stationary: 3, orbiting: 1 };
    let all = |by| explained(&squares(-5.0, 1.0), by, TOLERANCE);
    let counts = |x: Explanation| (x.ground, x.hit, x.others, [x.too_near, x.between, x.too_far]);
    assert_eq!(counts(all((10.0, 0.0))), (HIT, Some(first), 1, [0, 8, 0]));
    assert_eq!(counts(all((4.0, 0.0))), (HIT, Some(first), 1, [0, 2, 6]));
    let wedge = vec![-3.0, -1.0, 0.0, 1.0, -3.0, 3.0];
    let onto = [wedge, placed(&square(2.0), 1.0, 6.0, 0.0)];
    let corner = Hit { distance: 6.0, kind: 1, stationary: 1, orbiting: 3 };
    let met = explained(&onto, (-8.0, 0.0), TOLERANCE);
    assert_eq!((met.ground, met.hit, met.others), (HIT, Some(corner), 0));
}

#[test]
fn others_are_of_both_kinds_and_without_the_hit() {
    let pair = [square(2.0), placed(&square(2.0), 1.0, 3.0, 0.0)];
    let met = explained(&pair, (-5.0, 0.0), TOLERANCE);
    let first = Hit { distance: 1.0, kind: 0, stationary: 1, orbiting: 0 };
    assert_eq!((met.hit, met.others), (Some(first), 3));
    assert_eq!([met.too_near, met.between, met.too_far], [0, 12, 4]);
    for teeth in [1, 2, 12] {
        let upper = placed(&comb(teeth), -1.0, 2.0 * teeth as f64, 6.5);
        let met = explained(&[comb(teeth), upper], (0.0, -2.0), TOLERANCE);
        assert_eq!(met.hit.map(|hit| hit.distance), Some(0.5));
        assert_eq!(met.others, 8 * teeth as u64 - 1);
    }
}

#[test]
fn refusals_come_in_their_order() {
    let [s, q] = squares(-5.0, 1.0);
    let refused = |a: &[f64], b: &[f64], by, tolerance| {
        explain_collision(a, b, by, tolerance).expect_err("something is wrong")
    };
    let (wrong, long) = ([f64::NAN; 8], vec![0.5; 514]);
    let (no_move, none) = ((f64::NAN, f64::INFINITY), f64::NAN);
    assert_eq!(refused(&s[..7], &q[..4], no_move, none), Refusal::at(1, 0));
    assert_eq!(refused(&wrong, &q[..5], no_move, none), Refusal::at(1, 1));
    assert_eq!(refused(&wrong[..4], &q[..5], no_move, none), Refusal::at(8, 0));
    assert_eq!(refused(&wrong, &[], no_move, none), Refusal::at(8, 1));
    assert_eq!(refused(&long, &[], no_move, none), Refusal::at(9, 0));
    assert_eq!(refused(&wrong, &long, no_move, none), Refusal::at(9, 1));
    assert_eq!(refused(&wrong, &q, (1.0, 0.0), none), Refusal::of(2));
    assert_eq!(refused(&s, &wrong, (1.0, 0.0), none), Refusal::of(2));
    assert_eq!(refused(&s, &q, (0.0, f64::NEG_INFINITY), none), Refusal::of(2));
    for tolerance in [0.0, -0.0, -TOLERANCE, 1.0_f64.next_up(), f64::NAN, f64::INFINITY] {
        assert_eq!(refused(&s, &q, (f64::MAX, 0.0), tolerance), Refusal::of(3));
        assert_eq!(refused(&s, &q, (0.0, 0.0), tolerance), Refusal::of(3));
    }
}

/// The two polygons, the move and the tolerance of a record.
fn lent(record: &[u64]) -> ([Vec<f64>; 2], (f64, f64), f64) {
    let floats = |at: usize, n: u64| -> Vec<f64> {
        record[at..at + n as usize].iter().map(|&word| f64::from_bits(word)).collect()
    };
    let (a, b) = (sliding::HEADER, sliding::HEADER + record[1] as usize);
    let extra = floats(b + record[2] as usize, 3);
    ([floats(a, record[1]), floats(b, record[2])], (extra[0], extra[1]), extra[2])
}

#[test]
fn the_hit_is_that_of_the_collision_check() {
    let (list, seeded) = (list("sliding").expect("it is a list"), &mut Seeded::new(3));
    let long = (0..20_000).map(|place| (list.long)(seeded, place));
    let mut asked = 0;
    for record in sliding::records().into_iter().chain(long).filter(|r| r[0] == sliding::EXPLAIN) {
        let ([a, b], by, tolerance) = lent(&record);
        let checked = check_translation_collision(&a, &b, by, tolerance);
        let explained = explain_collision(&a, &b, by, tolerance);
        assert_eq!(explained.map(|x| x.hit), checked, "{a:?} {b:?} {by:?} {tolerance}");
        let ground = explained.map(|x| x.ground == HIT);
        assert_eq!(ground, checked.map(|hit| hit.is_some()), "{a:?} {b:?} {by:?} {tolerance}");
        asked += 1;
    }
    assert!(asked > 1_500, "{asked}");
}
