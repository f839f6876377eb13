//! Cases for writing a book: rings, counts and rooms.

use super::{counts, length, Case};
use crate::book::{parts_of, readings, MOST_RINGS};
use crate::calls::points_of;
use crate::replay::{with, EDGES, NANS};
use crate::seeded::Seeded;
use crate::shapes::{carrier, closed, mirrored, parabola, placed, square};

/// What the coordinates of the grid's points are; two zeros, so that points that
/// differ in the sign of one alone meet in every place.
const GRID: [f64; 3] = [-0.0, 0.0, 1.0];

/// The ring with this place among all rings of 3, then 4, then 5 vertices over
/// the grid's nine points; nothing past the last.
pub fn grid_ring(place: u64) -> Option<Vec<f64>> {
    let mut code = place;
    for n in 3..=5 {
        let rings = 9_u64.pow(n);
        if code < rings {
            let digit = |i: u32| GRID[(code / 3_u64.pow(i) % 3) as usize];
            return Some((0..2 * n).map(digit).collect());
        }
        code -= rings;
    }
    None
}

/// As many rings of the grid as a book holds, with this place among such books;
/// nothing past the last.
pub fn grid_book(place: u64) -> Option<Vec<Vec<f64>>> {
    let most = MOST_RINGS as u64;
    let rings: Vec<_> = (most * place..most * (place + 1)).map_while(grid_ring).collect();
    (!rings.is_empty()).then_some(rings)
}

/// Some rings of the grid: every eleventh of three vertices, and as many of four
/// and of five.
pub fn grid_sample() -> Vec<Vec<f64>> {
    let places = (0..729).step_by(11).chain((729..7_290).step_by(97));
    let all = places.chain((7_290..66_339).step_by(901));
    all.map(|place| grid_ring(place).expect("the grid has so many")).collect()
}

/// docs/SCOPE.md's rings, and others whose least reading is easy to miss: with
/// repeated corners, all corners equal or all but one, the same either way
/// round, repeating themselves, zeros whose sign must not decide, a carrier and its
/// mirror, the least and largest numbers.
pub fn special_rings() -> Vec<Vec<f64>> {
    let (tiny, large) = (5e-324, 1e6);
    vec![
        vec![4.0, 0.0, 0.0, 3.0, 0.0, 0.0],
        vec![0.0, 0.0, 1.0, 0.0, 0.0, 0.0, 0.0, 1.0],
        vec![7.0, 7.0, 7.0, 7.0, 7.0, 7.0],
        vec![7.0, 7.0, 7.0, 7.0, 7.0, 7.0, 7.0, 8.0, 7.0, 7.0],
        vec![7.0, 7.0, 7.0, 7.0, 7.0, 7.0, 7.0, 6.0, 7.0, 7.0],
        vec![0.0, 0.0, 1.0, 2.0, 2.0, 1.0, 1.0, 2.0],
        vec![0.0, 1.0, 2.0, 3.0, 0.0, 1.0, 2.0, 3.0, 0.0, 1.0, 2.0, 3.0],
        vec![0.0, 1.0, 2.0, 3.0, 0.0, 1.0, 2.0, 3.0, 0.0, 1.0, 2.0, 4.0],
        vec![0.0, 0.0, 0.0, 0.0, 1.0, 0.0, 0.0, 0.0, 0.0, 0.0, 0.0, 1.0],
        vec![0.0, 0.0, -0.0, 0.0, 0.0, -0.0, -0.0, -0.0],
        vec![-0.0, 1.0, 0.0, -1.0, 0.0, 1.0],
        vec![0.0, -0.0, 1.0, 5.0, 2.0, 2.0, 0.0, 0.0, 1.0, 3.0],
        carrier(),
        mirrored(&carrier()),
        vec![tiny, -tiny, -tiny, tiny, -0.0, 0.0],
        vec![large, -large, -large, large, -large, -large],
        vec![-1.5, 2.25, 0.1, 0.2, 0.1, 0.3, -1.5, 2.0],
        closed(&square(4.0)),
    ]
}

/// All readings of the special rings, and some rings of the grid.
fn plain() -> Vec<Case> {
    let mut all = Vec::new();
    for ring in special_rings() {
        for reading in readings(&points_of(&ring)) {
            all.push(Case::writing(&[reading.iter().flat_map(|p| [p.0, p.1]).collect()]));
        }
    }
    all.extend(grid_sample().into_iter().map(|ring| Case::writing(&[ring])));
    all.push(Case::writing(&[carrier(), mirrored(&carrier())]));
    all
}

/// Rings of 256 vertices: on a parabola, all equal, all equal but the last; the
/// longest book, alone, without room and with a fault; a vertex too many.
fn long_rings() -> Vec<Case> {
    let all_but_last = with(&[2.5; 512], 511, 2.0);
    let rings = [placed(&parabola(256), 0.125, 3.0, -7.0), vec![2.5; 512], all_but_last];
    let mut all: Vec<_> = rings.into_iter().map(|ring| Case::writing(&[ring])).collect();
    let longest = longest();
    all.push(Case::writing(&longest));
    all.push(lend(longest.concat(), counts(&longest), 0));
    all.push(lend(with(&longest.concat(), 4095, f64::NAN), counts(&longest), 8));
    all.push(lend(longest.concat(), vec![256, 256, 256, 256, 256, 256, 255, 257], 8));
    all.push(lend(parabola(257), vec![257], 8));
    all
}

/// Eight rings of 256 vertices.
pub fn longest() -> Vec<Vec<f64>> {
    let seeded = &mut Seeded::new(0xb00c);
    let mut ring = |i: usize| -> Vec<f64> {
        let number = |_| if i.is_multiple_of(2) { seeded.whole(1) } else { seeded.spread(1e6) };
        (0..512).map(number).collect()
    };
    (0..MOST_RINGS).map(&mut ring).collect()
}

/// A case that writes these coordinates with these counts to this room.
pub fn lend(coordinates: Vec<f64>, counts: Vec<u32>, room: usize) -> Case {
    let parts = parts_of(counts.len());
    Case::Write { coordinates, counts, parts, room }
}

/// So many triangles, each moved by its place.
pub fn triangles(n: usize) -> Vec<Vec<f64>> {
    let ring = [4.0, 0.0, 0.0, 3.0, 0.0, 0.0];
    (0..n).map(|i| placed(&ring, 1.0, i as f64, -0.5 * i as f64)).collect()
}

/// Counts that are not those of the list, or of no book: none, too many, too
/// large, a sum that comes right only where it wraps, lists with half a point.
fn wrong_lengths() -> Vec<Case> {
    let three = triangles(1).concat();
    let high = 1 << 31;
    let wrong: Vec<(usize, Vec<u32>)> = vec![
        (0, vec![]),
        (0, vec![0]),
        (1, vec![0]),
        (2, vec![1]),
        (4, vec![2]),
        (6, vec![]),
        (6, vec![2]),
        (6, vec![4]),
        (6, vec![3, 0]),
        (6, vec![0, 3]),
        (6, vec![3, 3]),
        (6, vec![2, 1]),
        (5, vec![3]),
        (7, vec![3]),
        (7, vec![4]),
        (8, vec![3]),
        (4, vec![3]),
        (0, vec![high, high]),
        (6, vec![u32::MAX, 4]),
        (6, vec![high, high, 3]),
        (6, vec![3 + high]),
        (6, vec![u32::MAX - 2]),
        (6, vec![u32::MAX; 16]),
        (6, vec![0x0100_0003]),
        (6, vec![0x0001_0003]),
        (6, vec![0x0000_0103]),
        (0, vec![0; 16]),
    ];
    let list = [&three[..], &[9.0, 9.5, 10.0]].concat();
    let mut all = Vec::new();
    for (n, counts) in wrong {
        all.push(lend(list[..n].to_vec(), counts.clone(), 68));
        // The same with a wrong number besides, and without room.
        let faulty = list[..n].iter().map(|_| f64::NAN).collect();
        all.push(lend(faulty, counts, 0));
    }
    for rings in 1..=9 {
        let list = triangles(rings);
        all.push(lend(list.concat(), counts(&list), length(&list)));
        all.push(lend(list.concat(), vec![3; rings - 1], length(&list)));
        all.push(lend(list.concat(), vec![3; rings + 1], 8));
    }
    all.push(lend(triangles(16).concat(), vec![3; 16], 968));
    all
}

/// Parts that are not as many as the rings, alone and with a list that is not the
/// sum, a wrong number or no room besides; and parts of all kinds that are.
fn parts() -> Vec<Case> {
    let mut all = Vec::new();
    for rings in [1, 2, 8, 9] {
        let list = triangles(rings);
        for n in [0, rings - 1, rings + 1, 16] {
            let with_parts = |coordinates: Vec<f64>, room| Case::Write {
                coordinates,
                counts: counts(&list),
                parts: parts_of(n),
                room,
            };
            all.push(with_parts(list.concat(), length(&list)));
            all.push(with_parts(list.concat()[1..].to_vec(), length(&list)));
            all.push(with_parts(with(&list.concat(), 5, f64::NAN), 8));
        }
    }
    for part in [0, 1, 3, 255, 256, 1 << 31, u32::MAX - 1, u32::MAX] {
        for parts in [vec![part, 7], vec![7, part], vec![part, part]] {
            let list = triangles(2);
            let (coordinates, counts, room) = (list.concat(), counts(&list), length(&list));
            all.push(Case::Write { coordinates, counts, parts, room });
        }
    }
    all
}

/// Edge numbers in every place of a triangle and in the second of two rings.
fn numbers() -> Vec<Case> {
    let mut all = Vec::new();
    let ring = [4.0, 0.0, 0.0, 3.0, 0.0, 1.0];
    for number in EDGES {
        all.extend((0..6).map(|place| lend(with(&ring, place, number), vec![3], 68)));
        all.push(lend(with(&triangles(2).concat(), 11, number), vec![3, 3], 128));
        all.push(lend(with(&ring, 2, number), vec![3], 67));
    }
    for nan in NANS {
        all.push(lend(with(&ring, 3, f64::from_bits(nan)), vec![3], 68));
    }
    all
}

/// Rooms that are empty, short, exact and longer.
fn rooms() -> Vec<Case> {
    let mut all = Vec::new();
    let square = vec![square(4.0)];
    for rings in [triangles(1), square, triangles(2), triangles(8)] {
        let exact = length(&rings);
        for room in [0, 1, 8, exact - 8, exact - 1, exact, exact + 1, exact + 7, exact + 8] {
            all.push(lend(rings.concat(), counts(&rings), room));
        }
    }
    all.push(lend(triangles(1).concat(), vec![3], 1000));
    all
}

/// All cases of writing.
pub fn cases() -> Vec<Case> {
    let mut all = plain();
    all.extend(wrong_lengths());
    all.extend(parts());
    all.extend(numbers());
    all.extend(rooms());
    all.extend(long_rings());
    all
}
