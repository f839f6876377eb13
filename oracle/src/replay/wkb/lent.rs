//! Cases for writing a file: rings of every size and of wrong ones, edge numbers,
//! rooms.

use super::{length, Case};
use crate::replay::{with, EDGES, NANS};
use crate::shapes::{closed, disc, parabola, square};

/// A triangle.
const RING: [f64; 6] = [4.0, 0.0, 0.0, 3.0, 0.0, 1.0];

/// This ring with a room that is just long enough.
fn fitting(ring: &[f64]) -> Case {
    Case::writing(ring, length(ring.len()))
}

/// Lists about the bounds of their length: without room, the short ones with room as
/// well, and with a wrong number besides.
fn lengths() -> Vec<Case> {
    let list = parabola(258);
    let mut all: Vec<_> = (0..=8).map(|n| fitting(&list[..n])).collect();
    for n in (0..=8).chain(511..=515) {
        all.push(Case::writing(&list[..n], 0));
        if n > 0 {
            all.push(Case::writing(&with(&list[..n], n - 1, f64::NAN), 1));
        }
    }
    all
}

/// Small rings of every size, some larger ones and the largest.
fn sizes() -> Vec<Case> {
    let sizes = (3..=20).chain([31, 32, 33, 64, 256]);
    sizes.map(|n| fitting(&disc(n, 3.0))).collect()
}

/// Rings that end in a repeat of their first vertex, once and twice, or whose
/// vertices are all equal; zeros of both signs in the first vertex.
fn repeats() -> Vec<Case> {
    let once = closed(&square(4.0));
    let zeros = [-0.0, 0.0, 1.0, -0.0, -0.0, 1.0];
    let signs = [[0.0, 0.0], [0.0, -0.0], [-0.0, 0.0], [-0.0, -0.0]];
    let mut all = vec![fitting(&once), fitting(&closed(&once)), fitting(&closed(&RING))];
    all.extend([fitting(&[2.5; 6]), fitting(&[2.5; 8])]);
    all.extend(signs.map(|first| fitting(&[&first[..], &zeros[2..]].concat())));
    // The repeat has the other zero.
    all.extend(signs.map(|last| fitting(&[&zeros[..], &last[..]].concat())));
    all
}

/// Edge numbers in every place of a triangle, and without room.
fn numbers() -> Vec<Case> {
    let mut all = Vec::new();
    for number in EDGES {
        all.extend((0..6).map(|place| fitting(&with(&RING, place, number))));
        all.push(Case::writing(&with(&RING, 2, number), 76));
    }
    all.extend(NANS.map(|nan| fitting(&with(&RING, 3, f64::from_bits(nan)))));
    all
}

/// Rooms that are empty, short, exact and longer.
fn rooms() -> Vec<Case> {
    let mut all = Vec::new();
    for ring in [RING.to_vec(), square(4.0), disc(9, 3.0)] {
        let exact = length(ring.len());
        let near = [0, 1, 12, 13, 16, exact - 16, exact - 1, exact, exact + 1, exact + 16];
        all.extend(near.map(|room| Case::writing(&ring, room)));
    }
    all.extend([4_124, 4_126].map(|room| Case::writing(&disc(256, 3.0), room)));
    all
}

/// All cases of writing.
pub fn cases() -> Vec<Case> {
    let mut all = lengths();
    all.extend(sizes());
    all.extend(repeats());
    all.extend(numbers());
    all.extend(rooms());
    all
}
