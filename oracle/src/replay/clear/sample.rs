//! Seeded moves, reasons and paths, for a long run.

use super::cases::{placed, reversed, spoilt, square};
use super::{reason_of, Case, CHECK_REASON, CLEAR_MOVE, MOST_PATH};
use crate::replay::lengths::RINGS;
use crate::replay::polygons::near;
use crate::replay::whole::{rounded, EDGES};
use crate::seeded::Seeded;
use crate::shapes::{comb, disc, parabola, star, whole_shapes};
use crate::whole::{Spot, MOST};

/// So many points of this size.
fn anything(seeded: &mut Seeded, points: usize, size: usize) -> Vec<i32> {
    (0..2 * points).map(|_| seeded.whole(size) as i32).collect()
}

/// A point of this size.
fn spot(seeded: &mut Seeded, size: usize) -> Spot {
    (seeded.whole(size) as i32, seeded.whole(size) as i32)
}

/// Two small polygons about the origin, the second anywhere near.
fn small(seeded: &mut Seeded) -> [Vec<i32>; 2] {
    let corners = 3 + seeded.below(4);
    let a = anything(seeded, corners, 3);
    let b = match seeded.below(4) {
        0 => square(1 + seeded.below(3) as i32, 0, 0),
        1 => anything(seeded, 4, 2),
        _ => anything(seeded, 3, 2),
    };
    let at = spot(seeded, 5);
    [a, placed(&b, at)]
}

/// Shapes with whole coordinates, the second beside the first, on it or in it.
fn shapes(seeded: &mut Seeded) -> [Vec<i32>; 2] {
    let mut one = |size: f64| {
        let all = whole_shapes();
        rounded(&match seeded.below(5) {
            0 => all[seeded.below(all.len())].clone(),
            1 => disc(4 * (1 + seeded.below(8)), size),
            2 => star(3 + seeded.below(9), size, size / 3.0),
            3 => comb(1 + seeded.below(4)),
            _ => parabola(3 + seeded.below(12)),
        })
    };
    let [a, b] = [one(20.0), one(7.0)];
    let at = spot(seeded, 30);
    [a, placed(&b, at)]
}

/// Discs of up to 256 corners that touch, or nearly.
fn discs(seeded: &mut Seeded, most: usize) -> [Vec<i32>; 2] {
    let mut one = |radius: f64| rounded(&disc(4 * (2 + seeded.below(most / 4 - 1)), radius));
    let [a, b] = [one(15_000.0), one(9_000.0)];
    let off = seeded.pick(&[0, 0, 1, -1]);
    let at = seeded.pick(&[(24_000 + off, 0), (0, -24_000 - off), (-24_000 + off, 0), (0, 24_000)]);
    [a, placed(&b, at)]
}

/// A small polygon in a ring about it.
fn within(seeded: &mut Seeded) -> [Vec<i32>; 2] {
    let ring = match seeded.below(3) {
        0 => square(80, -40, -40),
        1 => reversed(&square(60, -30, -20)),
        _ => rounded(&disc(8, 40.0)),
    };
    [ring, anything(seeded, 3, 4)]
}

/// Polygons anywhere within the bounds.
fn wide(seeded: &mut Seeded) -> [Vec<i32>; 2] {
    let size = seeded.pick(&[40, 1_000, 500_000, MOST as usize]);
    let corners = 3 + seeded.below(3);
    [anything(seeded, corners, size), anything(seeded, 3, size)]
}

/// A move of a size that suits the polygons.
fn by(seeded: &mut Seeded, orbiting: &[i32]) -> Spot {
    let size = orbiting.iter().map(|x| x.unsigned_abs()).max().unwrap_or(1) as usize;
    let size = seeded.pick(&[3, 10, 2 * size]);
    let (x, y) = spot(seeded, size);
    match seeded.below(6) {
        0 => (0, 0),
        1 => (x, 0),
        2 => (0, y),
        _ => (x, y),
    }
}

/// Two polygons, the first turned round at times; at times both are one.
fn pair(seeded: &mut Seeded) -> [Vec<i32>; 2] {
    let [a, b] = match seeded.below(40) {
        0 => discs(seeded, 256),
        1..5 => discs(seeded, 32),
        5..13 => shapes(seeded),
        13..17 => wide(seeded),
        17..20 => within(seeded),
        _ => small(seeded),
    };
    match seeded.below(12) {
        0 => [reversed(&a), b],
        1 => [a.clone(), a],
        _ => [a, b],
    }
}

/// A reason for the move: that of the search, as it is or spoilt; the edges' own lines;
/// one line for all; or any.
fn reason(seeded: &mut Seeded, [a, b]: &[Vec<i32>; 2], by: Spot) -> Vec<i32> {
    let edges = a.len() / 2;
    if let Some(found) = reason_of(a, b, by) {
        let all = spoilt(&found);
        return match seeded.below(2) {
            0 => found,
            _ => all[seeded.below(all.len())].clone(),
        };
    }
    let next = [&a[2..], &a[..2]].concat();
    match seeded.below(4) {
        0 => anything(seeded, 2, 9).repeat(edges),
        1 => anything(seeded, 2 * edges, 9),
        _ => {
            let edge = |(p, q)| [p, q].concat();
            a.chunks_exact(2).zip(next.chunks_exact(2)).flat_map(edge).collect()
        }
    }
}

/// A path about the stationary polygon: round its box, some points of that, or anything.
fn path(seeded: &mut Seeded, a: &[i32], b: &[i32]) -> Vec<i32> {
    let end = |list: &[i32], from: usize, least: bool| {
        let numbers = list[from..].iter().step_by(2).copied();
        if least { numbers.min() } else { numbers.max() }.unwrap_or(0)
    };
    let beside = |from: usize| {
        [end(a, from, true) - end(b, from, false), end(a, from, false) - end(b, from, true)]
    };
    let ([west, east], [south, north]) = (beside(0), beside(1));
    let mut round = vec![[west, south], [east, south], [east, north], [west, north], [west, south]];
    let turned = seeded.below(round.len());
    round.rotate_left(turned);
    if seeded.below(3) > 0 {
        round.dedup();
    }
    let mut path = match seeded.below(8) {
        0..4 => round.concat(),
        4 => round[..seeded.below(round.len() + 1)].concat(),
        _ => {
            let points = 2 + seeded.below(7);
            anything(seeded, points, 12)
        }
    };
    if !path.is_empty() && seeded.below(3) == 0 {
        let place = seeded.below(path.len());
        path[place] = path[place].saturating_add(seeded.pick(&[-1, 1, 3]));
    }
    path
}

/// The list, of which one in so many has an edge number in one place, or another length.
fn damaged(seeded: &mut Seeded, mut list: Vec<i32>, one_in: usize) -> Vec<i32> {
    if list.is_empty() || seeded.below(one_in) > 0 {
        return list;
    }
    let place = seeded.below(list.len());
    match seeded.below(4) {
        0 => {
            let length = seeded.pick(&RINGS);
            list.iter().cycle().take(length).copied().collect()
        }
        1 => list[..place].to_vec(),
        _ => {
            list[place] = seeded.pick(&EDGES);
            list
        }
    }
}

/// A path of the most points, or of too many, at times.
fn lengthened(seeded: &mut Seeded, path: Vec<i32>) -> Vec<i32> {
    if path.is_empty() || seeded.below(400) > 0 {
        return path;
    }
    let n = seeded.pick(&[20_002, 20_002, 20_003, 20_004]).min(MOST_PATH);
    path.iter().cycle().take(n).copied().collect()
}

/// A seeded case of this call.
pub fn case(seeded: &mut Seeded, call: u64) -> Case {
    let [a, b] = pair(seeded);
    let by = match seeded.below(30) {
        0 => (seeded.pick(&EDGES), seeded.pick(&EDGES)),
        _ => by(seeded, &b),
    };
    let third = match call {
        CLEAR_MOVE => vec![],
        CHECK_REASON => {
            let reason = reason(seeded, &[a.clone(), b.clone()], by);
            damaged(seeded, reason, 30)
        }
        _ => {
            let path = path(seeded, &a, &b);
            let path = lengthened(seeded, path);
            damaged(seeded, path, 30)
        }
    };
    let needed = 4 * (a.len() / 2);
    let pair = [damaged(seeded, a, 30), damaged(seeded, b, 30)];
    let lent = [&pair[0][..], &pair[1]];
    match call {
        CLEAR_MOVE => Case::search(lent, by, near(seeded, needed)),
        CHECK_REASON => Case::check(lent, by, &third),
        _ => Case::path(lent, &third),
    }
}
