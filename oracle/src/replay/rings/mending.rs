//! Cases for mend_ring: rings over two points with both zeros, every refusal before
//! every other, rooms about their bounds, long rings.

use super::{record, Case, MEND_RING};
use crate::mend::mend_ring;
use crate::replay::{float_room, with};
use crate::seeded::Seeded;
use crate::shapes::{closed, parabola, square};

/// Two points, each in both its zeros.
const POINTS: [[f64; 2]; 4] = [[0.0, 0.0], [-0.0, 0.0], [3.0, 0.0], [3.0, -0.0]];

/// A ring with rooms of these lengths: for itself, for the indices and whys of the
/// dropped ones, for their points.
pub fn lent(ring: &[f64], room: usize, dropped: usize, points: usize) -> Case {
    Case {
        b: float_room(points),
        room: float_room(room),
        dropped: (0..dropped as u64).map(|i| 9_000 + i).collect(),
        ..Case::of(MEND_RING, ring)
    }
}

/// A ring with rooms that hold exactly what is written; longer ones where it is
/// refused.
fn exact(ring: &[f64]) -> Case {
    let n = ring.len();
    let answer = mend_ring(ring, &mut vec![0.0; n], &mut vec![0; n], &mut vec![0.0; n]);
    let (vertices, gone) = answer.unwrap_or((1, 1));
    lent(ring, 2 * vertices, 2 * gone, 2 * gone)
}

/// The ring with this number among those of so many vertices over the two points.
fn small(number: usize, vertices: u32) -> Vec<f64> {
    (0..vertices).flat_map(|place| POINTS[number / 4_usize.pow(place) % 4]).collect()
}

/// All rings of up to seven vertices over the two points.
fn all() -> impl Iterator<Item = Vec<f64>> {
    (1..=7).flat_map(|vertices| (0..4_usize.pow(vertices)).map(move |n| small(n, vertices)))
}

/// The records of them all, one at a time.
pub fn every() -> impl Iterator<Item = Vec<u64>> {
    all().map(|ring| record(&exact(&ring)))
}

/// A ring with some vertices entered twice or oftener, with the other zero at times,
/// and with its first at the end at times; at most 300 vertices.
pub fn repeated(seeded: &mut Seeded, ring: &[f64]) -> Vec<f64> {
    let other = |x: f64| if x == 0.0 { -x } else { x };
    let mut found = Vec::new();
    for vertex in ring.chunks(2) {
        found.extend(vertex);
        while seeded.below(4) == 0 && found.len() < 600 && vertex.len() == 2 {
            let again =
                [vertex[0], vertex[1]].map(|x| if seeded.below(2) == 0 { other(x) } else { x });
            found.extend(again);
        }
    }
    while ring.len() >= 2 && seeded.below(3) == 0 && found.len() < 600 {
        found.extend([ring[0], other(ring[1])]);
    }
    found.truncate(600);
    found
}

/// Every two refusals that one input can have, the first of them told: the ring, and
/// rooms that hold nothing.
fn refused_in_pairs() -> Vec<Case> {
    let one = square(0.0);
    let drawn = square(4.0);
    let long = vec![7.0; 514];
    let rings = [
        vec![],                             // 8, 11, 5
        vec![1.0],                          // 1, 8, 5
        drawn[..7].to_vec(),                // 1, 5
        with(&drawn[..7], 3, f64::NAN),     // 1, 2, 5
        one[..7].to_vec(),                  // 1, 11, 5
        parabola(257)[..513].to_vec(),      // 1, 5
        long[..513].to_vec(),               // 1, 11, 5
        [&long[..], &[7.0]].concat(),       // 1, 9, 11, 5
        long.clone(),                       // 9, 11, 5
        parabola(257),                      // 9, 5
        with(&long, 513, f64::INFINITY),    // 9, 2, 11, 5
        with(&drawn, 7, 1e6_f64.next_up()), // 2, 5
        with(&one, 0, f64::NAN),            // 2, 11, 5
        one,                                // 11, 5
        closed(&[0.0, 0.0, 4.0, 0.0]),      // 11, 5
        drawn,                              // 5
    ];
    let mut all: Vec<Case> = rings.iter().map(|ring| lent(ring, 0, 0, 0)).collect();
    all.extend(rings.iter().filter(|ring| ring.len() < 20).map(|ring| lent(ring, 9, 9, 9)));
    all
}

/// A closing repeat behind a run, with rooms that are short, exact and longer, odd
/// ones too.
fn about_the_rooms() -> Vec<Case> {
    let ring = [0.0, 0.0, 4.0, 0.0, 4.0, -0.0, 4.0, 4.0, -0.0, 0.0, 0.0, -0.0];
    let mut all = Vec::new();
    for length in [0, 1, 4, 5, 6, 7, 9] {
        all.extend([
            lent(&ring, length, 6, 6),
            lent(&ring, 6, length, 6),
            lent(&ring, 6, 6, length),
        ]);
    }
    all.push(lent(&square(4.0), 8, 0, 0));
    all.push(lent(&square(4.0), 9, 1, 3));
    all
}

/// Rings at the most vertices: each entered twice, and all of one value.
fn at_the_most() -> Vec<Case> {
    let twice: Vec<f64> = parabola(128).chunks(2).flat_map(|p| [p[0], p[1], p[0], p[1]]).collect();
    [twice, vec![-0.0; 512]].map(|ring| exact(&ring)).into()
}

/// All cases that are stored; of the rings over two points a part.
pub fn cases() -> Vec<Case> {
    let mut cases: Vec<Case> = all().step_by(557).map(|ring| exact(&ring)).collect();
    cases.extend(refused_in_pairs());
    cases.extend(about_the_rooms());
    cases.extend(at_the_most());
    cases
}
