//! Cases for reading a file whose head is right, or wrong in its points alone: their
//! number, their coordinates, the closing one, and rooms.

use super::{Case, ORDERS};
use crate::book::patched;
use crate::replay::{with, EDGES, NANS};
use crate::shapes::{closed, disc, parabola, square};
use crate::wkb::{file_of, Order, POINTS};

/// A triangle, closed: first and last have no zero.
const CLOSED: [f64; 8] = [4.0, 0.5, 0.0, 3.0, -0.0, 1.0, 4.0, 0.5];

/// What the number of points is said to be: fine ones, those about the bounds, and
/// large ones, some of which a wrong sum or a wrong byte order takes for fine.
const COUNTS: [u32; 19] = [
    0,
    1,
    2,
    3,
    4,
    5,
    6,
    256,
    257,
    258,
    260,
    0x0001_0004,
    0x0400_0000,
    0x0500_0000,
    0x1000_0004,
    1 << 31,
    0x8000_0004,
    u32::MAX - 3,
    u32::MAX,
];

/// The file of these points, said to be so many.
fn said(order: Order, points: &[f64], count: u32) -> Vec<u8> {
    patched(&file_of(order, points), POINTS, &order.field(count))
}

/// Every number of points with files of none to six, and with a byte more or less.
fn counts(order: Order) -> Vec<Case> {
    let mut all = Vec::new();
    for count in COUNTS {
        for points in 0..=6 {
            let file = said(order, &[2.5; 12][..2 * points], count);
            let matching = points == count as usize;
            all.push(Case::reading(&file, if matching { 10 } else { 1 }));
            if matching {
                all.push(Case::reading(&file[..file.len() - 1], 1));
                all.push(Case::reading(&[&file[..], &[0]].concat(), 1));
            }
        }
    }
    all
}

/// Files of the most points and about it, said to be so many and one more or less.
fn most_points(order: Order) -> Vec<Case> {
    let ring = closed(&parabola(256));
    let longer = closed(&ring);
    vec![
        Case::reading(&file_of(order, &ring), 512),
        Case::reading(&said(order, &ring, 256), 0),
        Case::reading(&said(order, &ring, 258), 0),
        Case::reading(&file_of(order, &longer), 0),
        Case::reading(&said(order, &longer, 257), 0),
    ]
}

/// Edge numbers in every coordinate of a triangle, the closing point's included, and
/// in the first and the closing point alike; NaNs in some.
fn numbers(order: Order) -> Vec<Case> {
    let read = |points: &[f64]| Case::reading(&file_of(order, points), 6);
    let mut all = Vec::new();
    for number in EDGES {
        all.extend((0..8).map(|place| read(&with(&CLOSED, place, number))));
        all.extend([0, 1].map(|at| read(&with(&with(&CLOSED, at, number), at + 6, number))));
    }
    for nan in NANS.map(f64::from_bits) {
        all.extend([0, 3, 6].map(|place| read(&with(&CLOSED, place, nan))));
        all.push(read(&with(&with(&CLOSED, 1, nan), 7, nan)));
    }
    all
}

/// Closing points: zeros of both signs, a bit off, of one number or the other, of
/// another vertex, of the first turned about.
fn closings(order: Order) -> Vec<Case> {
    let ends = |first: [f64; 2], last: [f64; 2]| {
        let points = [&first[..], &CLOSED[2..6], &last[..]].concat();
        Case::reading(&file_of(order, &points), 6)
    };
    let zeros = [[0.0, 0.0], [-0.0, 0.0], [0.0, -0.0], [-0.0, -0.0]];
    let mut all: Vec<_> =
        zeros.iter().flat_map(|&first| zeros.map(|last| ends(first, last))).collect();
    all.extend(zeros.map(|last| ends([5e-324, 0.0], last)));
    let first = [4.0, 0.5];
    let lasts = [
        first,
        [4.0_f64.next_up(), 0.5],
        [4.0_f64.next_down(), 0.5],
        [4.0, 0.5_f64.next_up()],
        [4.0, 0.5_f64.next_down()],
        [4.0, 3.0],
        [0.0, 0.5],
        [0.0, 3.0],
        [-0.0, 1.0],
        [0.5, 4.0],
        [-4.0, 0.5],
        [4.0, -0.5],
    ];
    all.extend(lasts.map(|last| ends(first, last)));
    all
}

/// Rings that end in a repeat of their first vertex, once and twice, or whose
/// vertices are all equal; rings that are not closed.
fn repeats(order: Order) -> Vec<Case> {
    let once = closed(&square(4.0));
    let mut all: Vec<_> = [closed(&once), once, closed(&CLOSED), vec![2.5; 6], vec![2.5; 8]]
        .map(|ring| Case::reading_closed(order, &ring))
        .into();
    all.extend([square(4.0), disc(7, 3.0)].map(|ring| Case::reading(&file_of(order, &ring), 16)));
    all
}

/// Some sizes, the room just long enough.
fn sizes(order: Order) -> Vec<Case> {
    let sizes = (3..=12).chain([33]);
    sizes.map(|n| Case::reading_closed(order, &disc(n, 3.0))).collect()
}

/// Rooms that are empty, short, odd, exact and longer.
fn rooms(order: Order) -> Vec<Case> {
    let mut all = Vec::new();
    for ring in [&CLOSED[..6], &square(4.0), &disc(9, 3.0)] {
        let (file, exact) = (file_of(order, &closed(ring)), ring.len());
        let near = [0, 1, 2, exact - 2, exact - 1, exact, exact + 1, exact + 2, exact + 7];
        all.extend(near.map(|room| Case::reading(&file, room)));
    }
    all.push(Case::reading(&file_of(order, &CLOSED), 600));
    all
}

/// All of them.
pub fn cases() -> Vec<Case> {
    let kinds = [counts, most_points, numbers, closings, repeats, sizes, rooms];
    ORDERS.iter().flat_map(|&order| kinds.into_iter().flat_map(move |of| of(order))).collect()
}
