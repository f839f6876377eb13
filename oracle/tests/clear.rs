//! Whole moves and their reasons: that the search is right where it says clear, and
//! misses nothing for a convex polygon with an area, by the exact answer without a line;
//! that the check accepts what the search hands out, and judges spoilt reasons as they
//! are; paths leg by leg; each refusal and their order.

use oracle::clear::exact::{hull, is_clear, is_convex};
use oracle::clear::{check_reason, clear_move, clear_path, numbered, Ground};
use oracle::refusals::Refusal;
use oracle::seeded::Seeded;
use oracle::shapes::disc;
use oracle::whole::Spot;

const M: i32 = 1_000_000;

/// A square of this side, its lowest corner here.
fn square(side: i32, x: i32, y: i32) -> Vec<i32> {
    vec![x, y, x + side, y, x + side, y + side, x, y + side]
}

/// The list with each point moved by this much.
fn placed(list: &[i32], by: Spot) -> Vec<i32> {
    list.chunks_exact(2).flat_map(|p| [p[0] + by.0, p[1] + by.1]).collect()
}

/// The ring with its corners in the other order.
fn reversed(ring: &[i32]) -> Vec<i32> {
    ring.chunks_exact(2).rev().flatten().copied().collect()
}

/// The points of a list.
fn points(list: &[i32]) -> Vec<(i64, i64)> {
    list.chunks_exact(2).map(|p| (i64::from(p[0]), i64::from(p[1]))).collect()
}

/// The ground of a move, and the reason where it is clear.
fn searched(stationary: &[i32], orbiting: &[i32], by: Spot) -> (Ground, Vec<i32>) {
    let mut room = vec![0; 2 * stationary.len()];
    let ground = clear_move(stationary, orbiting, by, &mut room).expect("all is within bounds");
    (ground, if ground == Ground::Clear { room } else { vec![] })
}

/// The reason judged once more: turns, the lowest height and one sum, and nothing of
/// the oracle's own.
fn holds(stationary: &[i32], orbiting: &[i32], by: Spot, reason: &[i32]) -> bool {
    let (ring, by) = (points(stationary), (i64::from(by.0), i64::from(by.1)));
    let mut way = points(orbiting);
    way.extend(points(orbiting).iter().map(|v| (v.0 + by.0, v.1 + by.1)));
    let low = way.iter().map(|v| v.1).min().expect("corners");
    let mut balance = 0;
    for (j, line) in reason.chunks_exact(4).enumerate() {
        let ends = points(line);
        let (p, q, a, b) = (ends[0], ends[1], ring[j], ring[(j + 1) % ring.len()]);
        let turn = |v: (i64, i64)| (q.0 - p.0) * (v.1 - p.1) - (q.1 - p.1) * (v.0 - p.0);
        if p == q || way.iter().any(|&v| turn(v) < 0) || turn(a) > 0 || turn(b) > 0 {
            return false;
        }
        if q.1 > p.1 {
            balance += i32::from(b.1 > low) - i32::from(a.1 > low);
        }
    }
    balance == 0
}

/// How moves came out: clear, ending at an edge, enclosed.
#[derive(Default)]
struct Counts([u32; 3]);

impl Counts {
    /// Searches a move, holds it to the exact answer and its reason to the check, and
    /// counts it.
    fn add(&mut self, stationary: &[i32], orbiting: &[i32], by: Spot) {
        let (ground, reason) = searched(stationary, orbiting, by);
        let told = format!("{stationary:?} {orbiting:?} {by:?}: {ground:?}");
        let clear = ground == Ground::Clear;
        match is_clear(stationary, orbiting, by) {
            Some(exact) if is_convex(orbiting) => assert_eq!(clear, exact, "{told}"),
            Some(exact) => assert!(exact || !clear, "{told}"),
            None => {}
        }
        if clear {
            let judged = check_reason(stationary, orbiting, by, &reason);
            assert_eq!(judged, Ok(Ground::Clear), "{told}");
            assert!(holds(stationary, orbiting, by, &reason), "{told}");
        }
        self.0[numbered(ground).0 as usize] += 1;
    }

    /// That every way to come out was met at least so often.
    fn all_above(&self, least: u32) {
        assert!(self.0.iter().all(|&count| count >= least), "{:?}", self.0);
    }
}

/// The points whose digits to the base of nine a number has, on a grid of 3 by 3.
fn on_grid(number: u64, points: u32) -> Vec<i32> {
    let digit = |place: u32| (number / 9_u64.pow(place) % 9) as i32;
    (0..points).flat_map(|place| [digit(place) % 3, digit(place) / 3]).collect()
}

/// A point of the grid of 7 by 7 about the origin.
fn within_three(number: u64) -> Spot {
    ((number % 7) as i32 - 3, (number / 7 % 7) as i32 - 3)
}

/// Of all triples of points on a grid of 3 by 3, flat ones and both windings among them,
/// as the stationary ring and as the orbiting polygon, at all places and with all moves
/// within 3 each way: every so many.
fn triangles(step: usize) -> impl Iterator<Item = (Vec<i32>, Vec<i32>, Spot)> {
    let all = 729_u64 * 729 * 49 * 49;
    (0..all).step_by(step).map(|number| {
        let [ring, other] = [on_grid(number, 3), on_grid(number / 729, 3)];
        let rest = number / (729 * 729);
        (ring, placed(&other, within_three(rest)), within_three(rest / 49))
    })
}

#[test]
fn triangles_on_a_grid_are_judged_exactly() {
    let mut counts = Counts::default();
    triangles(1_009).for_each(|(ring, orbiting, by)| counts.add(&ring, &orbiting, by));
    assert_eq!(counts.0.iter().sum::<u32>(), 1_264_609);
    counts.all_above(200);
}

#[test]
fn quadrilaterals_on_a_grid_are_judged_exactly() {
    let (mut counts, seeded) = (Counts::default(), &mut Seeded::new(0xc1ea));
    let mut convex = 0;
    while convex < 120_000 {
        let orbiting = on_grid(seeded.bits() % 6_561, 4);
        let ring = on_grid(seeded.bits() % 59_049, 3 + seeded.below(3) as u32);
        let times = seeded.pick(&[1, 1, 2, 4]);
        let stationary: Vec<i32> = ring.iter().map(|x| x * times).collect();
        let [at, by] = [seeded.bits() % 49, seeded.bits() % 49].map(within_three);
        convex += u32::from(is_convex(&orbiting));
        counts.add(&stationary, &placed(&orbiting, at), by);
    }
    counts.all_above(800);
}

#[test]
fn larger_rings_and_moves_are_judged_exactly() {
    let (mut counts, seeded) = (Counts::default(), &mut Seeded::new(0xb16));
    for _ in 0..60_000 {
        let size = seeded.pick(&[10, 10, 40, 1_000, 100_000]);
        let mut list = |n: usize, size: usize| -> Vec<i32> {
            (0..2 * n).map(|_| seeded.whole(size) as i32).collect()
        };
        let (ring, large, small) = (list(3, size), list(3, size), list(3, size / 5));
        let [by, short] = [list(1, size), list(1, size / 10)].map(|p| (p[0], p[1]));
        match seeded.below(3) {
            0 => counts.add(&ring, &large, by),
            1 => counts.add(&ring, &placed(&large, (2 * size as i32, 0)), by),
            _ => counts.add(&ring, &small, short),
        }
    }
    counts.all_above(200);
}

/// A disc of n corners about the origin, rounded to whole numbers.
fn whole_disc(n: usize, radius: i32) -> Vec<i32> {
    disc(n, f64::from(radius)).iter().map(|x| x.round() as i32).collect()
}

#[test]
fn discs_in_contact_are_judged_exactly() {
    let mut counts = Counts::default();
    for (n, m) in [(8, 8), (16, 12), (24, 16)] {
        let (ring, other) = (whole_disc(n, 15_000), whole_disc(m, 9_000));
        let beside = placed(&other, (24_000, 0));
        for by in [(0, 0), (0, 31_000), (1, 31_000), (-1, 31_000), (0, -7), (-1, 0), (5, 5)] {
            counts.add(&ring, &beside, by);
            counts.add(&reversed(&ring), &beside, by);
            counts.add(&ring, &reversed(&beside), by);
        }
        assert_eq!(searched(&ring, &beside, (0, 31_000)).0, Ground::Clear);
        assert!(matches!(searched(&ring, &beside, (-1, 0)).0, Ground::Edge(_)));
        // Within, at the middle or aside.
        counts.add(&ring, &placed(&whole_disc(m, 900), (200, 100)), (3_000, -2_000));
        assert_eq!(searched(&ring, &whole_disc(m, 900), (3, 3)).0, Ground::Enclosed);
    }
    counts.all_above(3);
}

/// A slot of this width in a block, open at the top; its floor is at height 0.
fn slot(width: i32) -> Vec<i32> {
    let (left, right) = (0, width);
    vec![-30, -20, right + 30, -20, right + 30, 50, right, 50, right, 0, left, 0, left, 50, -30, 50]
}

#[test]
fn a_slot_is_entered_exactly_if_it_is_as_wide() {
    let part = square(10, 0, 60);
    for (width, at, clear) in [(10, 0, true), (9, 0, false), (11, 0, true), (11, 1, true)] {
        for ring in [slot(width), reversed(&slot(width))] {
            let orbiting = placed(&part, (at, 0));
            let mut counts = Counts::default();
            for down in 0..62 {
                counts.add(&ring, &orbiting, (0, -down));
                let ground = searched(&ring, &orbiting, (0, -down)).0;
                let expected = if clear { down <= 60 } else { down <= 10 };
                assert_eq!(ground == Ground::Clear, expected, "{width} {at} {down}");
            }
        }
    }
    // Not straight down: a slot that is one wider leaves one aside.
    assert_eq!(searched(&slot(11), &part, (1, -60)).0, Ground::Clear);
    assert_eq!(searched(&slot(11), &part, (2, -60)).0, Ground::Edge(3));
}

#[test]
fn tangled_flat_and_enclosing_rings_are_judged_exactly() {
    let bow = vec![0, 0, 8, 8, 8, 0, 0, 8];
    let star = vec![0, -10, 6, 8, -10, -3, 10, -3, -6, 8];
    let line = vec![0, 0, 9, 3, 3, 1];
    let point = vec![4, 4, 4, 4, 4, 4];
    let twice = [square(12, -2, -2), square(12, -2, -2)].concat();
    let back = [square(12, -2, -2), reversed(&square(12, -2, -2))].concat();
    let mut counts = Counts::default();
    for ring in [bow, star, line, point, twice, back.clone()] {
        for (x, y) in (0..30).flat_map(|x| (0..30).map(move |y| (x - 15, y - 15))) {
            for by in [(0, 0), (7, 0), (0, -9), (5, 5), (-4, 1)] {
                counts.add(&ring, &placed(&[0, 0, 2, 0, 1, 1], (x, y)), by);
                counts.add(&ring, &placed(&[0, 0, 2, 2, 1, 3, -1, 1], (x, y)), by);
            }
        }
    }
    counts.all_above(600);
    // There and back again encloses nothing: what is within it is outside.
    assert_eq!(searched(&back, &square(2, 3, 3), (1, 1)).0, Ground::Clear);
}

#[test]
fn known_grounds() {
    let s = square(4, 0, 0);
    assert_eq!(searched(&s, &square(4, 4, 0), (0, 9)).0, Ground::Clear);
    assert_eq!(searched(&s, &square(4, 0, 4), (0, -1)).0, Ground::Edge(2));
    assert_eq!(searched(&s, &s, (0, 0)).0, Ground::Enclosed);
    assert_eq!(searched(&s, &square(1, 1, 1), (1, 1)).0, Ground::Enclosed);
    // The smallest that the rule leads straight through.
    let (ring, bar) = (square(1, 0, 0), vec![0, 0, 3, 0, 3, 1, 0, 1]);
    let round = [1, -1, 1, 1, -2, 1, -2, -1];
    assert_eq!(clear_path(&ring, &bar, &round), Ok(Some((2, Ground::Edge(0)))));
    // One line, the left side of the way's box, serves every edge.
    let (_, reason) = searched(&s, &square(4, 4, 0), (0, 9));
    assert_eq!(reason, [4, 1, 4, 0].repeat(4));
}

#[test]
fn a_flat_polygon_has_a_ground_too() {
    let (s, line) = (square(4, 0, 0), [0, 0, 2, 0, 1, 0]);
    assert_eq!(is_clear(&s, &line, (0, 0)), None);
    assert_eq!(searched(&s, &placed(&line, (1, -1)), (0, -3)).0, Ground::Clear);
    assert_eq!(searched(&s, &placed(&line, (1, 1)), (0, 0)).0, Ground::Enclosed);
    // On the rim: nothing is inside a line, and one side of its flat box parts all.
    assert_eq!(searched(&s, &line, (0, 0)).0, Ground::Clear);
    assert_eq!(searched(&s, &placed(&line, (0, 4)), (0, 0)).0, Ground::Clear);
}

#[test]
fn of_a_polygon_that_is_not_convex_the_hull_is_meant() {
    let ell = [0, 0, 6, 0, 6, 2, 2, 2, 2, 6, 0, 6];
    assert!(!is_convex(&ell) && hull(&points(&ell)).expect("it has an area").len() == 5);
    let small = square(1, 4, 4);
    assert_eq!(is_clear(&small, &ell, (0, 0)), Some(true));
    assert_eq!(is_clear(&square(1, 3, 3), &ell, (0, 0)), Some(false));
    assert_eq!(searched(&square(1, 3, 3), &ell, (0, 0)).0, Ground::Edge(0));
}

#[test]
fn spoilt_reasons_are_judged_as_they_are() {
    let seeded = &mut Seeded::new(0x5b01);
    let mut judged = [0; 3];
    for (ring, orbiting, by) in triangles(30_011).chain(triangles(40_009)) {
        let (ground, reason) = searched(&ring, &orbiting, by);
        if ground != Ground::Clear {
            continue;
        }
        for which in 0..6 {
            let mut spoilt = reason.clone();
            let (j, k) = (4 * seeded.below(3), seeded.below(12));
            match which {
                0 => spoilt[k] += 1,
                1 => spoilt[k] -= 1,
                2 => spoilt.copy_within(j..j + 2, j + 2),
                3 => spoilt.rotate_left(4),
                4 => spoilt[j..j + 4].rotate_left(2),
                _ => spoilt = reversed(&spoilt),
            }
            let told = check_reason(&ring, &orbiting, by, &spoilt).expect("within the bounds");
            let held = holds(&ring, &orbiting, by, &spoilt);
            assert_eq!(told == Ground::Clear, held, "{ring:?} {orbiting:?} {by:?} {spoilt:?}");
            // Whatever the reason, what is accepted is so.
            let exact = is_clear(&ring, &orbiting, by);
            assert!(!held || exact != Some(false), "{ring:?} {orbiting:?} {by:?} {spoilt:?}");
            judged[numbered(told).0 as usize] += 1;
        }
    }
    assert!(judged[0] > 1_000 && judged[1] > 1_000 && judged[2] > 5, "{judged:?}");
}

#[test]
fn any_reason_that_is_accepted_is_right() {
    let seeded = &mut Seeded::new(0xacce);
    let mut judged = [0; 3];
    for _ in 0..400_000 {
        let [ring, other] = [on_grid(seeded.bits() % 729, 3), on_grid(seeded.bits() % 729, 3)];
        let (at, by) = (within_three(seeded.bits() % 49), (seeded.whole(1) as i32, 0));
        let orbiting = if seeded.below(4) == 0 { ring.clone() } else { placed(&other, at) };
        // Lines through corners, mostly, so that some part.
        let corners: Vec<Vec<i32>> =
            [&ring[..], &orbiting].concat().chunks_exact(2).map(<[i32]>::to_vec).collect();
        let reason: Vec<i32> =
            (0..6).flat_map(|_| corners[seeded.below(corners.len())].clone()).collect();
        let told = check_reason(&ring, &orbiting, by, &reason).expect("within the bounds");
        assert_eq!(told == Ground::Clear, holds(&ring, &orbiting, by, &reason));
        if told == Ground::Clear {
            let exact = is_clear(&ring, &orbiting, by);
            assert_ne!(exact, Some(false), "{ring:?} {orbiting:?} {by:?} {reason:?}");
        }
        judged[numbered(told).0 as usize] += 1;
    }
    assert!(judged.iter().all(|&count| count > 20), "{judged:?}");
}

#[test]
fn a_check_tells_the_first_edge_that_fails_and_then_the_balance() {
    let (s, beside) = (square(4, 0, 0), square(4, 4, 0));
    let (_, reason) = searched(&s, &beside, (0, 9));
    let told = |reason: &[i32]| check_reason(&s, &beside, (0, 9), reason);
    for j in 0..4 {
        for later in j..4 {
            let mut spoilt = reason.clone();
            [j, later].iter().for_each(|&j| spoilt[4 * j..4 * j + 4].fill(7));
            assert_eq!(told(&spoilt), Ok(Ground::Edge(j)));
        }
    }
    // Each edge's own line parts a square from its equal, and nothing balances.
    let own = [4, 0, 0, 0, 4, 4, 4, 0, 0, 4, 4, 4, 0, 0, 0, 4].to_vec();
    let turned: Vec<i32> = own.chunks_exact(4).flat_map(|p| [p[2], p[3], p[0], p[1]]).collect();
    assert_eq!(check_reason(&s, &s, (0, 0), &turned), Ok(Ground::Enclosed));
    assert_eq!(check_reason(&s, &s, (0, 0), &own), Ok(Ground::Edge(0)));
}

#[test]
fn a_path_is_judged_leg_by_leg() {
    let (s, q) = (square(4, 0, 0), square(2, 0, 0));
    let round = [-2, -2, 4, -2, 4, 4, -2, 4];
    assert_eq!(clear_path(&s, &q, &round), Ok(None));
    assert_eq!(clear_path(&s, &q, &round[..6]), Ok(Some((2, Ground::Edge(0)))));
    assert_eq!(clear_path(&s, &q, &[1, 1, 1, 1, 1, 1]), Ok(Some((0, Ground::Enclosed))));
    let seeded = &mut Seeded::new(0x9a74);
    for _ in 0..20_000 {
        let n = 3 + seeded.below(4);
        let path: Vec<i32> = (0..2 * n).map(|_| seeded.whole(5) as i32).collect();
        let leg = |i: usize| {
            let [from, to] = [i, (i + 1) % n].map(|i| (path[2 * i], path[2 * i + 1]));
            let by = (to.0 - from.0, to.1 - from.1);
            searched(&s, &placed(&q, from), by).0
        };
        let first = (0..n).map(|i| (i, leg(i))).find(|&(_, ground)| ground != Ground::Clear);
        assert_eq!(clear_path(&s, &q, &path), Ok(first));
    }
}

/// So many numbers of a square, again and again.
fn of_length(n: usize) -> Vec<i32> {
    square(4, 0, 0).into_iter().cycle().take(n).collect()
}

#[test]
fn lists_are_gone_through_one_after_the_other() {
    let all = |a: usize, b: usize, third: usize| {
        let [a, b, third] = [a, b, third].map(of_length);
        let found = [
            clear_move(&a, &b, (0, 0), &mut [0; 1_024]).err(),
            check_reason(&a, &b, (0, 0), &third).err(),
            clear_path(&a, &b, &third).err(),
        ];
        found.map(|no| no.map_or((0, 0), |no| (no.number, no.place)))
    };
    for (n, number) in [(1, 1), (5, 1), (513, 1), (515, 1), (0, 8), (4, 8), (514, 9), (600, 9)] {
        for third in [16, 15, 0, 20_004] {
            assert_eq!(all(n, 7, third), [(number, 0); 3], "{n}");
            assert_eq!(all(8, n, third), [(number, 1); 3], "{n}");
        }
    }
    // A reason has four numbers for each of the stationary edges.
    for (edges, n, number) in
        [(4, 15, 1), (4, 14, 1), (4, 17, 1), (4, 12, 8), (4, 0, 8), (4, 20, 9), (3, 16, 9)]
    {
        assert_eq!(all(2 * edges, 8, n)[1], (number, 2), "{n}");
    }
    assert_eq!(all(8, 6, 16)[1], (0, 0));
    for (n, number) in [(1, 1), (5, 1), (0, 8), (4, 8), (20_003, 1), (20_004, 9)] {
        assert_eq!(all(8, 8, n)[2], (number, 2), "{n}");
    }
    assert_eq!(all(512, 512, 20_002)[2], (0, 0));
}

#[test]
fn numbers_come_after_all_lists() {
    let (s, q, reason) = (square(4, 0, 0), square(2, 0, 0), vec![0; 16]);
    for far in [M + 1, -M - 1, i32::MAX, i32::MIN] {
        let wrong = [&s[..7], &[far]].concat();
        assert_eq!(check_reason(&wrong, &q, (0, 0), &[far; 12]), Err(Refusal::at(8, 2)));
        assert_eq!(check_reason(&wrong, &q, (0, 0), &[far; 15]), Err(Refusal::at(1, 2)));
        assert_eq!(check_reason(&wrong, &q, (0, 0), &reason), Err(Refusal::of(2)));
        assert_eq!(check_reason(&s, &wrong, (0, 0), &reason), Err(Refusal::of(2)));
        assert_eq!(check_reason(&s, &q, (far, 0), &reason), Err(Refusal::of(2)));
        assert_eq!(check_reason(&s, &q, (0, far), &reason), Err(Refusal::of(2)));
        let spoilt = [&reason[..15], &[far]].concat();
        assert_eq!(check_reason(&s, &q, (0, 0), &spoilt), Err(Refusal::of(2)));
        assert_eq!(clear_move(&wrong, &q, (0, 0), &mut []), Err(Refusal::of(2)));
        assert_eq!(clear_move(&s, &wrong, (0, 0), &mut []), Err(Refusal::of(2)));
        assert_eq!(clear_move(&s, &q, (far, far), &mut []), Err(Refusal::of(2)));
        assert_eq!(clear_path(&wrong, &q, &[0; 4]), Err(Refusal::at(8, 2)));
        assert_eq!(clear_path(&wrong, &q, &[0; 6]), Err(Refusal::of(2)));
        assert_eq!(clear_path(&s, &q, &[0, 0, 0, 0, 0, far]), Err(Refusal::of(2)));
    }
}

#[test]
fn only_corners_are_bounded() {
    let s = square(4, 0, 0);
    // From one end of the bounds to the other, and a unit too far.
    let low = square(4, -M, -M);
    assert_eq!(searched(&s, &low, (0, 2 * M - 4)).0, Ground::Clear);
    assert!(clear_move(&s, &low, (0, 2 * M - 3), &mut []).is_err());
    assert!(clear_move(&s, &low, (-1, 0), &mut []).is_err());
    // A point of a path may be farther out than a corner, if it brings the polygon near.
    let far = square(4, M - 4, M - 4);
    let path = [10 - M, 0, 20 - M, 0, 20 - M, -9];
    assert_eq!(clear_path(&s, &far, &path), Ok(None));
    let beyond = [-2 * M + 4, -2 * M + 4, -M - 100, -M, -M - 100, -2 * M + 4];
    assert_eq!(clear_path(&s, &far, &beyond), Ok(None));
    let past = [-2 * M + 3, 0, 0, 0, 0, 0];
    assert_eq!(clear_path(&s, &far, &past), Err(Refusal::of(2)));
}

#[test]
fn a_room_is_short_only_where_the_move_is_clear() {
    let (s, beside) = (square(4, 0, 0), square(4, 4, 0));
    let (_, reason) = searched(&s, &beside, (0, 9));
    for n in 0..20 {
        let mut room = vec![77; n];
        let answer = clear_move(&s, &beside, (0, 9), &mut room);
        if n < 16 {
            assert_eq!((answer, room), (Err(Refusal::of(5)), vec![77; n]));
        } else {
            assert_eq!((answer, &room[..16]), (Ok(Ground::Clear), &reason[..]));
            assert!(room[16..].iter().all(|&x| x == 77));
        }
    }
    assert_eq!(clear_move(&s, &beside, (-1, 0), &mut []), Ok(Ground::Edge(1)));
    assert_eq!(clear_move(&s, &s, (0, 0), &mut []), Ok(Ground::Enclosed));
}

#[test]
fn grounds_have_numbers() {
    assert_eq!(numbered(Ground::Clear), (0, 0));
    assert_eq!(numbered(Ground::Edge(7)), (1, 7));
    assert_eq!(numbered(Ground::Enclosed), (2, 0));
}
