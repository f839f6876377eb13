//! Each ground of a collision answer, ties, the counts of hits, and the words that a
//! person reads; tests/lists.rs asks for the lists that the call refuses by name.

use byrlygent::nfp_sliding::{
    check_translation_collision, explain_collision, ContactType, Explanation, Ground,
};
use byrlygent::{Point, Refusal};

const S: [Point; 4] = [(0.0, 0.0), (4.0, 0.0), (4.0, 4.0), (0.0, 4.0)];
const Q: [Point; 4] = [(0.0, 0.0), (2.0, 0.0), (2.0, 2.0), (0.0, 2.0)];
const TOLERANCE: f64 = 1e-6;

/// The ring moved.
fn moved(ring: &[Point], by: Point) -> Vec<Point> {
    ring.iter().map(|p| (p.0 + by.0, p.1 + by.1)).collect()
}

/// The explanation of a move along x, whose hit must be that of the collision check.
fn along(stationary: &[Point], orbiting: &[Point], dx: f64, tolerance: f64) -> Explanation {
    let told = explain_collision(stationary, orbiting, (dx, 0.0), tolerance).expect("two polygons");
    let checked = check_translation_collision(stationary, orbiting, (dx, 0.0), tolerance);
    let hit = match told.ground {
        Ground::Hit { hit, .. } => Some(hit),
        _ => None,
    };
    assert_eq!(checked, Ok(hit));
    told
}

/// The ground of nothing with the hits too near and too far.
fn clear(ground: Ground, too_near: u64, too_far: u64) -> Explanation {
    Explanation { ground, too_near, between: 0, too_far }
}

/// Of a hit its kind, indices, distance and others, and the counts.
fn hit(told: Explanation) -> (ContactType, [usize; 2], f64, u64, [u64; 3]) {
    let Ground::Hit { hit, others } = told.ground else { panic!("{told}") };
    let counts = [told.too_near, told.between, told.too_far];
    (hit.contact_type, [hit.stationary_idx, hit.orbiting_idx], hit.distance, others, counts)
}

#[test]
fn each_ground_of_nothing_has_its_counts() {
    let (beside, touching) = (moved(&Q, (-5.0, 1.0)), moved(&Q, (4.0, 0.0)));
    assert_eq!(along(&S, &beside, 0.0, TOLERANCE), clear(Ground::Short, 0, 0));
    assert_eq!(along(&S, &beside, -10.0, TOLERANCE), clear(Ground::Never, 0, 0));
    assert_eq!(along(&S, &touching, 10.0, TOLERANCE), clear(Ground::Near, 3, 0));
    assert_eq!(along(&S, &beside, 3.0, TOLERANCE), clear(Ground::Far, 0, 8));
    assert_eq!(along(&S, &touching, -1.0, TOLERANCE), clear(Ground::BothSides, 3, 9));
}

#[test]
fn a_short_move_hides_every_other_ground() {
    let touching = moved(&Q, (4.0, 0.0));
    assert_eq!(along(&S, &touching, 0.75, 1.0).ground, Ground::Short);
    assert_eq!(along(&S, &touching, 1.0, 1.0).ground, Ground::Near);
    assert_eq!(along(&S, &touching, -0.75, 1.0), clear(Ground::Short, 0, 0));
    assert_eq!(along(&S, &touching, -1.0, 1.0).ground, Ground::BothSides);
}

#[test]
fn a_hit_too_near_and_too_far_is_too_near() {
    // The limit is 0.5, and the nearest pairs hit at 0.75.
    let close = moved(&Q, (4.75, 1.0));
    assert_eq!(along(&S, &close, -1.5, 1.0), clear(Ground::BothSides, 4, 12));
}

#[test]
fn a_hit_at_the_tolerance_is_too_near_and_one_at_the_limit_too_far() {
    let beside = moved(&Q, (-2.5, 1.0));
    assert_eq!(hit(along(&S, &beside, 1.0, 0.25)).4, [0, 2, 6]);
    assert_eq!(along(&S, &beside, 0.75, 0.25), clear(Ground::Far, 0, 8));
    let nearer = moved(&Q, (-2.25, 1.0));
    assert_eq!(along(&S, &nearer, 1.0, 0.25), clear(Ground::BothSides, 2, 6));
}

#[test]
fn pairs_of_both_kinds_tie() {
    let (ve, ev) = (ContactType::VertexEdge, ContactType::EdgeVertex);
    let beside = moved(&Q, (-5.0, 1.0));
    assert_eq!(hit(along(&S, &beside, 10.0, TOLERANCE)), (ve, [3, 1], 3.0, 1, [0, 8, 0]));
    let before = moved(&S, (-6.0, -1.0));
    assert_eq!(hit(along(&Q, &before, 10.0, TOLERANCE)), (ev, [0, 1], 2.0, 1, [0, 8, 0]));
    let equal = moved(&S, (6.0, 0.0));
    assert_eq!(hit(along(&S, &equal, -10.0, TOLERANCE)), (ve, [1, 0], 2.0, 3, [0, 12, 4]));
    // A corner on a side: one vertex alone at the distance.
    let diamond = [(-3.0, 2.0), (-4.0, 3.0), (-5.0, 2.0), (-4.0, 1.0)];
    let (kind, pair, distance, others, _) = hit(along(&S, &diamond, 10.0, TOLERANCE));
    assert_eq!((kind, pair, distance, others), (ve, [3, 0], 3.0, 0));
}

#[test]
fn a_comb_ties_with_every_tooth() {
    // Teeth from y = 0 to 39, each with its tip at x = -2.
    let teeth = (0..40).map(|y| (if y % 2 == 0 { -2.0 } else { -3.0 }, f64::from(y)));
    let back = [(-9.0, 39.0), (-9.0, 0.0)];
    let comb: Vec<Point> = teeth.chain(back).collect();
    let wall = [(0.0, -5.0), (9.0, -5.0), (9.0, 50.0), (0.0, 50.0)];
    let (kind, pair, distance, others, _) = hit(along(&wall, &comb, 5.0, TOLERANCE));
    assert_eq!((kind, pair, distance, others), (ContactType::VertexEdge, [3, 0], 2.0, 19));
}

#[test]
fn moves_and_tolerances_out_of_bounds_are_refused() {
    for number in [f64::NAN, f64::INFINITY] {
        assert_eq!(explain_collision(&S, &Q, (number, 0.0), 0.0), Err(Refusal::Number));
        assert_eq!(explain_collision(&S, &Q, (0.0, number), 0.0), Err(Refusal::Number));
    }
    assert_eq!(explain_collision(&S, &[(2e6, 0.0); 3], (1.0, 0.0), 0.0), Err(Refusal::Number));
    for tolerance in [0.0, -0.0, 1.0 + f64::EPSILON, f64::NAN] {
        assert_eq!(explain_collision(&S, &Q, (1.0, 0.0), tolerance), Err(Refusal::Setting));
    }
}

#[test]
fn grounds_have_the_numbers_of_the_library_and_words() {
    let beside = moved(&Q, (-5.0, 1.0));
    let hit = along(&S, &beside, 10.0, TOLERANCE).ground;
    let nothing = [
        (Ground::Short, 1, "the move is shorter than the tolerance"),
        (Ground::Never, 2, "no pair is ever hit"),
        (Ground::Near, 3, "all hits are at or below the tolerance"),
        (Ground::Far, 4, "all hits are at or beyond the length less the tolerance"),
        (Ground::BothSides, 5, "there are hits on both sides, and none between"),
    ];
    for (ground, number, words) in nothing {
        assert_eq!((ground.number(), ground.to_string().as_str()), (number, words));
        let told = format!("clear: {words} (hits: 1 too near, 0 between, 2 too far)");
        assert_eq!(clear(ground, 1, 2).to_string(), told);
    }
    assert_eq!(hit.number(), 0);
    let words =
        "the orbiting polygon's vertex 1 and the stationary one's edge 3 meet at distance 3";
    assert_eq!(hit.to_string(), format!("{words}, as 1 other pair does"));
    let with = |others| match hit {
        Ground::Hit { hit, .. } => Ground::Hit { hit, others }.to_string(),
        _ => unreachable!("it is a hit"),
    };
    assert_eq!(with(0), format!("{words}, as no other pair does"));
    assert_eq!(with(12), format!("{words}, as 12 other pairs do"));
    let before = moved(&S, (-6.0, -1.0));
    let words =
        "the orbiting polygon's edge 1 and the stationary one's vertex 0 meet at distance 2";
    assert!(along(&Q, &before, 10.0, TOLERANCE).ground.to_string().starts_with(words));
}
