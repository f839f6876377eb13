//! The moves, reasons and paths that the repository stores.

use super::{reason_of, Case, CHECK_REASON, CLEAR_MOVE, CLEAR_PATH};
use crate::refusals::MOST_POINTS;
use crate::replay::lengths::{self, Lengths};
use crate::replay::whole::{rounded, EDGES};
use crate::seeded::Seeded;
use crate::shapes::{comb, disc, knot, star};
use crate::whole::{Spot, MOST};
use std::sync::LazyLock;

/// A square of this side, its lowest corner here.
pub fn square(side: i32, x: i32, y: i32) -> Vec<i32> {
    vec![x, y, x + side, y, x + side, y + side, x, y + side]
}

/// The list with each point moved by this much.
pub fn placed(list: &[i32], (dx, dy): Spot) -> Vec<i32> {
    list.chunks_exact(2).flat_map(|p| [p[0] + dx, p[1] + dy]).collect()
}

/// The ring with its corners in the other order.
pub fn reversed(ring: &[i32]) -> Vec<i32> {
    ring.chunks_exact(2).rev().flatten().copied().collect()
}

/// The list with this number in this place.
pub fn with(list: &[i32], place: usize, number: i32) -> Vec<i32> {
    let mut changed = list.to_vec();
    changed[place] = number;
    changed
}

/// The search with rooms that are one short, just long enough and longer, and the check
/// of what it hands out.
fn searched(a: &[i32], b: &[i32], by: Spot) -> Vec<Case> {
    let needed = 4 * (a.len() / 2);
    let lengths = [needed - 1, needed, needed + 3];
    let mut all = lengths.map(|length| Case::search([a, b], by, length)).to_vec();
    all.extend(reason_of(a, b, by).map(|reason| Case::check([a, b], by, &reason)));
    all
}

/// The check of what the search hands out, spoilt in every way.
fn checked(a: &[i32], b: &[i32], by: Spot) -> Vec<Case> {
    let reason = reason_of(a, b, by).expect("the move is clear");
    spoilt(&reason).iter().map(|reason| Case::check([a, b], by, reason)).collect()
}

/// The reason itself; with each number of the first lines changed; lines of one point,
/// turned, exchanged, and left out.
pub fn spoilt(reason: &[i32]) -> Vec<Vec<i32>> {
    let lines = (reason.len() / 4).min(8);
    let mut all = vec![reason.to_vec(), reversed(reason)];
    for place in 0..4 * lines {
        let x = reason[place];
        all.extend([x + 1, x - 1].map(|number| with(reason, place, number)));
    }
    for j in 0..lines {
        let mut one = reason.to_vec();
        one.copy_within(4 * j..4 * j + 2, 4 * j + 2);
        let mut turned = reason.to_vec();
        turned[4 * j..4 * j + 4].rotate_left(2);
        let mut exchanged = reason.to_vec();
        exchanged.rotate_left(4 * j + 4);
        all.extend([one, turned, exchanged]);
    }
    all
}

/// Moves that are clear, that end at each edge, and that are enclosed.
fn known() -> Vec<Case> {
    let (s, q) = (square(4, 0, 0), square(2, 0, 0));
    let wedge = vec![4, 2, 9, 0, 9, 4];
    let slot = |wide: i32| vec![-9, 0, 0, 0, 0, 9, wide, 9, wide, 0, 20, 0, 20, 20, -9, 20];
    let bow = vec![0, 0, 8, 8, 8, 0, 0, 8];
    let line = vec![0, 0, 2, 0, 1, 0];
    let twice = [square(12, -2, -2), square(12, -2, -2)].concat();
    let back = [square(12, -2, -2), reversed(&square(12, -2, -2))].concat();
    let mut all = Vec::new();
    for by in [(0, 0), (0, 9), (0, -9), (9, 0), (-1, 0), (-1, 7), (1, -100)] {
        all.extend(searched(&s, &square(4, 4, 0), by));
        all.extend(searched(&reversed(&s), &square(4, 4, 0), by));
        all.extend(searched(&s, &reversed(&wedge), by));
        all.extend(searched(&wedge, &q, by));
    }
    for (x, y) in [(-3, 1), (1, -3), (5, 1), (1, 5)] {
        all.extend(searched(&s, &placed(&q, (x, y)), (4 - 2 * x, 4 - 2 * y)));
    }
    for wide in [3, 4, 5] {
        all.extend(searched(&slot(wide), &square(4, 0, -4), (0, 9)));
        all.extend(searched(&slot(wide), &square(4, 0, -4), (1, 9)));
        all.extend(searched(&slot(wide), &square(4, 0, -4), (0, 10)));
    }
    for ring in [&bow, &line, &twice, &back, &s] {
        for at in [(3, 3), (0, 0), (-9, 1), (1, 6)] {
            all.extend(searched(ring, &placed(&q, at), (1, 0)));
            all.extend(searched(ring, &placed(&line, at), (0, 1)));
        }
    }
    for by in [(0, 9), (1, -100)] {
        all.extend(checked(&s, &square(4, 4, 0), by));
        all.extend(checked(&reversed(&s), &wedge, by));
        all.extend(checked(&wedge, &q, by));
    }
    all.extend(checked(&slot(4), &square(4, 0, -4), (0, 9)));
    all.extend(checked(&back, &placed(&q, (3, 3)), (1, 0)));
    all.extend(searched(&s, &s, (0, 0)));
    all.extend(searched(&s, &square(1, 1, 1), (1, 1)));
    // Equal lines that part all edges and do not balance, and one line for all that does.
    let own = [0, 0, 4, 0, 4, 0, 4, 4, 4, 4, 0, 4, 0, 4, 0, 0];
    all.extend([(0, 0), (1, 0), (0, -1)].map(|by| Case::check([&s, &s], by, &own)));
    for (x, y) in [(0, 0), (1, 1), (2, 0), (0, 2), (1, 0)] {
        all.extend(
            [(0, 0), (1, 1), (0, 1)].map(|by| Case::check([&s, &square(1, x, y)], by, &own)),
        );
    }
    all.push(Case::check([&s, &square(4, 4, 0)], (0, 9), &[4, MOST, 4, -MOST].repeat(4)));
    all
}

/// Rings of many corners, discs in contact among them.
fn large() -> Vec<Case> {
    let of = |ring: Vec<f64>, x: i32, y: i32| placed(&rounded(&ring), (x, y));
    let [a, b] = [of(disc(32, 15_000.0), 0, 0), of(disc(32, 15_000.0), 30_000, 0)];
    let mut all = Vec::new();
    for by in [(0, 31_000), (0, 0), (-1, 0), (0, -31_000)] {
        let lengths = [127, 128];
        all.extend(lengths.map(|length| Case::search([&a, &b], by, length)));
    }
    all.extend(reason_of(&a, &b, (0, 31_000)).map(|r| Case::check([&a, &b], (0, 31_000), &r)));
    let most = [of(disc(256, 4e5), -5e5 as i32, 0), of(disc(256, 4e5), 4e5 as i32, 0)];
    for by in [(0, 5e5 as i32), (-99_999, 0), (-100_001, 0)] {
        all.push(Case::search([&most[0], &most[1]], by, 1_024));
        all.extend(
            reason_of(&most[0], &most[1], by).map(|r| Case::check([&most[0], &most[1]], by, &r)),
        );
    }
    all.push(Case::search([&most[0], &most[1]], (0, 0), 1_023));
    for ring in [of(star(40, 1e5, 3e4), 0, 0), of(comb(20), 0, 0), of(knot(30), 0, 0)] {
        for at in [(0, 0), (100_000, 0), (3, -20)] {
            all.push(Case::search([&ring, &placed(&square(9, 0, 0), at)], (0, 70), 4 * 256));
        }
    }
    all
}

/// Numbers on the bounds, past them and far past them, in every list and in the move;
/// ends of moves and points of paths about them.
fn numbers() -> Vec<Case> {
    let (s, q) = (square(4, 0, 0), square(2, 5, 5));
    let reason = reason_of(&s, &q, (1, 1)).expect("they are apart");
    let path = [-2, -2, 4, -2, 4, 4];
    let mut all = Vec::new();
    for number in EDGES {
        for place in [0, 3, 7] {
            let [wrong, other] = [with(&s, place, number), with(&q, place, number)];
            all.push(Case::search([&wrong, &q], (1, 1), 16));
            all.push(Case::search([&s, &other], (1, 1), 16));
            all.push(Case::check([&wrong, &q], (1, 1), &reason));
            all.push(Case::check([&s, &other], (1, 1), &reason));
            all.push(Case::check([&s, &q], (1, 1), &with(&reason, 2 * place, number)));
            all.push(Case::path([&wrong, &q], &path));
            all.push(Case::path([&s, &other], &path));
        }
        for by in [(number, 0), (0, number), (number, number)] {
            all.push(Case::search([&s, &q], by, 16));
            all.push(Case::check([&s, &q], by, &reason));
            all.push(Case::path([&s, &q], &with(&with(&path, 4, by.0), 3, by.1)));
        }
    }
    for off in [-1, 0, 1] {
        let far = square(4, MOST - 4, -MOST);
        for by in [(off, 0), (0, off), (off - 2 * MOST + 4, 2 * MOST - 4), (0, 2 * MOST - 4 - off)]
        {
            all.push(Case::search([&s, &far], by, 16));
            all.push(Case::search([&far, &far], by, 20));
            all.push(Case::path([&s, &far], &[by.0, by.1, -MOST, 9, 0, 0]));
            all.push(Case::path([&s, &far], &[0, 0, 0, 7, by.0, by.1]));
        }
    }
    all
}

/// Points on which a square of side 2 goes round one of side 4.
const ROUND: [[i32; 2]; 4] = [[-2, -2], [4, -2], [4, 4], [-2, 4]];

/// Rounds, parts of them, and rounds with a point elsewhere.
fn rounds() -> Vec<Case> {
    let (s, q) = (square(4, 0, 0), square(2, 0, 0));
    let mut paths = vec![ROUND.concat(), ROUND[..3].concat(), vec![1; 6], vec![4; 6]];
    paths.extend([[0, 0, 2, 2, 1, 0], [2, 0, 0, 1, 1, 2]].map(|path| path.to_vec()));
    // Within the square from the second leg on: the first leads in.
    paths.extend([[-2, 1, -2, 1, 1, 1], [1, 1, 1, 1, 9, 1]].map(|path| path.to_vec()));
    for start in 0..4 {
        let mut round = ROUND;
        round.rotate_left(start);
        paths.push(round.concat());
        paths.push(reversed(&round.concat()));
        for (place, by) in [(0, 1), (3, -1), (4, 2), (7, -2)] {
            let path = round.concat();
            paths.push(with(&path, place, path[place] + by));
        }
    }
    let mut all: Vec<Case> = paths.iter().map(|path| Case::path([&s, &q], path)).collect();
    let bar = [0, 0, 3, 0, 3, 1, 0, 1];
    all.push(Case::path([&square(1, 0, 0), &bar], &[1, -1, 1, 1, -2, 1, -2, -1]));
    // Of the most points that there may be, or of one more, only the last leg is not clear.
    for points in [MOST_POINTS, MOST_POINTS + 1] {
        let stands = vec![ROUND[0]; points - 2];
        let path = [&stands[..], &ROUND[1..3]].concat().concat();
        all.push(Case::path([&s, &q], &path));
    }
    all
}

/// Third lists of these lengths for each call: fine, odd, short and long, odd besides.
const THIRDS: [(u64, &[usize]); 3] = [
    (CLEAR_MOVE, &[16, 15, 0]),
    (CHECK_REASON, &[16, 15, 12, 20, 13, 21]),
    (CLEAR_PATH, &[8, 7, 4, 5]),
];
/// Paths that are long, or odd besides.
const LONG: [usize; 2] = [20_004, 20_003];

/// The case of lists of these lengths.
fn of_lengths(call: u64, lengths: &Lengths<3>) -> Case {
    let float = |list: Vec<i32>| list.into_iter().map(f64::from).collect::<Vec<_>>();
    let third = float(square(4, 9, 9).repeat(3));
    let fine = [float(square(4, 0, 0)), float(square(2, 5, 5)), third];
    let number = |x: f64| if x.is_nan() { MOST + 1 } else { x as i32 };
    let lists = lengths.lists([&fine[0], &fine[1], &fine[2]]);
    let [a, b, third] = lists.map(|list| list.into_iter().map(number).collect::<Vec<i32>>());
    match call {
        CLEAR_MOVE => Case::search([&a, &b], (1, 1), third.len()),
        _ => Case::of(call, [&a, &b], &third, if call == CLEAR_PATH { (0, 0) } else { (1, 1) }),
    }
}

/// All pairs of these lengths for every call, beside every third list.
fn beside(pairs: &[Lengths<2>]) -> Vec<(u64, Lengths<3>)> {
    let one = |pair: &Lengths<2>| {
        let pair = *pair;
        THIRDS.iter().flat_map(move |&(call, thirds)| {
            thirds.iter().map(move |&third| (call, pair.beside(third)))
        })
    };
    pairs.iter().flat_map(one).collect()
}

/// Lists in every three ways, but that polygons which are too long stand beside few.
fn about_bounds() -> Vec<Case> {
    let short = |pair: &&Lengths<2>| pair.of.iter().all(|&n| n <= 8);
    let (ways, long) = (lengths::ways(), [[514, 8], [8, 514], [514, 7], [514, 514]]);
    let ways: Vec<_> = ways.iter().filter(short).copied().collect();
    let mut all = beside(&ways);
    for of in long {
        let pair = Lengths { of, wrong: None };
        all.extend(THIRDS.map(|(call, thirds)| (call, pair.beside(thirds[1]))));
    }
    all.iter().map(|(call, lengths)| of_lengths(*call, lengths)).collect()
}

/// The case with this place among lists of all lengths, for a long run; nothing past the
/// last.
pub fn swept(place: u64) -> Option<Case> {
    static ALL: LazyLock<Vec<(u64, Lengths<3>)>> = LazyLock::new(|| {
        let fine = Lengths { of: [8, 8], wrong: None };
        let long = LONG.map(|third| (CLEAR_PATH, fine.beside(third)));
        [long.to_vec(), beside(&lengths::ways()), beside(&lengths::bounds())].concat()
    });
    ALL.get(place as usize).map(|(call, lengths)| of_lengths(*call, lengths))
}

/// Seeded small pairs, of every ground.
fn small() -> Vec<Case> {
    let seeded = &mut Seeded::new(0xc1e);
    let mut all = Vec::new();
    for _ in 0..160 {
        let mut list = |n: usize, size: usize| -> Vec<i32> {
            (0..2 * n).map(|_| seeded.whole(size) as i32).collect()
        };
        let (a, b, path) = (list(4, 5), list(3, 2), list(4, 7));
        let by = (path[0], path[1]);
        all.push(Case::search([&a, &b], by, 16));
        all.push(Case::search([&a, &placed(&b, (path[2], path[3]))], by, 17));
        all.push(Case::path([&a, &b], &path));
        all.extend(reason_of(&a, &b, by).map(|reason| Case::check([&a, &b], by, &reason)));
    }
    all
}

/// All cases of the list.
pub fn cases() -> Vec<Case> {
    [known(), large(), numbers(), rounds(), about_bounds(), small()].concat()
}
