//! Cases on a small grid, at the bounds, past them, and a unit off a line.

use super::every::grids;
use super::sample::{case, rounded};
use super::{Case, NAMES, RING_CALLS, SEGMENTS_INTERSECT, THREE_POINT_CALLS};
use crate::replay::lengths::RINGS;
use crate::seeded::Seeded;
use crate::shapes::{comb, disc, knot, parabola, placed, star, whole_shapes};
use crate::whole::MOST;

/// Numbers to put in a place: on the bounds, past them, far past them, and within.
pub const EDGES: [i32; 9] =
    [MOST, -MOST, MOST + 1, -MOST - 1, i32::MAX, i32::MIN, MOST - 1, 1 - MOST, 0];

/// The list with this number in this place.
fn with(list: &[i32], place: usize, number: i32) -> Vec<i32> {
    let mut changed = list.to_vec();
    changed[place] = number;
    changed
}

/// A list with each of the edge numbers in each of its places, and in all of them.
fn edged(list: &[i32]) -> Vec<Vec<i32>> {
    let one = |place| EDGES.map(|number| with(list, place, number));
    let all = EDGES.map(|number| vec![number; list.len()]);
    (0..list.len()).flat_map(one).chain(all).collect()
}

/// Three points whose last is on the line of the others, or a unit beside it, with the
/// longest ways there are.
fn lines() -> Vec<Vec<i32>> {
    let ends = [
        [-MOST, -MOST, MOST, MOST],
        [-MOST, MOST, MOST, -MOST],
        [-MOST, -MOST, MOST, MOST - 1],
        [-MOST, -MOST, MOST - 1, MOST],
        [-MOST, 0, MOST, 1],
        [0, -MOST, 1, MOST],
        [-MOST, -MOST, -MOST, MOST],
        [MOST, -MOST, -MOST, -MOST],
        [0, 0, 999_999, 999_998],
        [7, 7, 7, 7],
    ];
    let mut found = Vec::new();
    for [ax, ay, bx, by] in ends {
        let middle = [(ax + bx) / 2, (ay + by) / 2];
        for [x, y] in [[ax, ay], [bx, by], middle] {
            let beside = [[0, 0], [1, 0], [-1, 0], [0, 1], [0, -1]];
            let off = beside.map(|[dx, dy]| vec![ax, ay, bx, by, x + dx, y + dy]);
            found.extend(off);
        }
    }
    found
}

/// Segments from such a point onwards and back, which so touch, miss or lie in line.
fn pairs_on_lines() -> Vec<Vec<i32>> {
    let mut found = Vec::new();
    for line in lines() {
        let [ax, ay, bx, by, x, y] = line[..] else { unreachable!("three points") };
        found.push([&line[..], &[MOST, -MOST]].concat());
        found.push([&line[..], &[x, y]].concat());
        found.push(vec![x, y, bx, by, ax, ay, x, y]);
        found.push(vec![ax, ay, x, y, bx, by, 2 * x - ax, 2 * y - ay]);
    }
    found
}

/// Rings by name, with whole coordinates.
fn shapes() -> Vec<Vec<i32>> {
    let mut found = vec![
        vec![],
        vec![3, -7],
        vec![1, 2, 3, 4],
        vec![5, 5, 5, 5],
        vec![-MOST, -MOST, MOST, -MOST, MOST, MOST, -MOST, MOST],
        vec![-MOST, MOST, MOST, MOST, MOST, -MOST, -MOST, -MOST],
        vec![-MOST, -MOST, MOST, MOST, MOST, -MOST, -MOST, MOST],
    ];
    for shape in whole_shapes() {
        let small = rounded(&placed(&shape, 4.0, 0.0, 0.0));
        found.push(small.iter().map(|x| x - 9).collect());
        found.push(small.chunks_exact(2).rev().flat_map(|p| [p[0], p[1]]).collect());
        found.push([&small[..], &small[..2]].concat());
        found.push(small);
    }
    // A tip that stands off the edge below it by a unit, touches it, and passes it.
    for tip in [1, 0, -1] {
        let ring = [-MOST, 0, MOST, 0, MOST, MOST, 0, tip, -MOST, MOST];
        found.push(ring.to_vec());
    }
    found
}

/// Rings at and about the most vertices, simple and not, with numbers past the bounds.
fn long_rings() -> Vec<Vec<i32>> {
    let full = rounded(&placed(&comb(63), 4.0, -200.0, 3.0));
    let most = [&full[..], &[-204, 5, -202, 4]].concat();
    let mut found = vec![
        most.clone(),
        rounded(&disc(256, 1e6)),
        rounded(&star(128, 1e6, 3e5)),
        rounded(&parabola(256)),
        rounded(&knot(256)),
        with(&most, 0, MOST + 1),
        with(&most, 511, i32::MIN),
    ];
    let longest = rounded(&parabola(258));
    for n in RINGS {
        found.push(longest[..n].to_vec());
        if n > 0 {
            found.push(with(&longest[..n], n / 2, -MOST - 1));
        }
    }
    found
}

/// All cases, in the order of the list.
pub fn cases(seeded: &mut Seeded) -> Vec<Case> {
    let mut triples: Vec<_> = grids(3, 2).chain(lines()).collect();
    triples.extend(edged(&[0, 0, 4, 0, 7, 4]));
    let mut pairs: Vec<_> = grids(4, 2).chain(pairs_on_lines()).collect();
    pairs.extend(edged(&[0, 0, 4, 4, 0, 4, 4, 0]));
    let mut rings = [shapes(), long_rings(), edged(&[0, 0, 4, 0, 4, 4, 0, 4])].concat();
    rings.extend((0..=4).flat_map(|vertices| grids(vertices, 2)));
    let of = |calls: &[u64], lists: &[Vec<i32>]| -> Vec<Case> {
        let one = |list: &Vec<i32>| calls.iter().map(|&call| Case::of(call, list)).collect();
        lists.iter().flat_map(|list| -> Vec<Case> { one(list) }).collect()
    };
    let mut all = of(&THREE_POINT_CALLS, &triples);
    all.extend(of(&[SEGMENTS_INTERSECT], &pairs));
    all.extend(of(&RING_CALLS, &rings));
    all.extend((0..900).map(|place| case(seeded, place % NAMES.len() as u64)));
    all
}
