//! Seeded cases of writing and reading, for a long run.

use super::{length, Case, MOST_FILE, ORDERS};
use crate::replay::polygons::{damaged, near};
use crate::replay::{edge, patch};
use crate::seeded::Seeded;
use crate::shapes::{closed, seeded_ring};
use crate::wkb::{file_of, Order, HEAD, POINT, POINTS, RINGS, TYPE};

/// Numbers that a field is set to.
const FIELDS: [u32; 20] = [
    0,
    1,
    2,
    3,
    4,
    5,
    6,
    7,
    256,
    257,
    258,
    1003,
    2003,
    0x0100_0000,
    0x0300_0000,
    0x0400_0000,
    0x1000_0004,
    0x2000_0003,
    0x8000_0003,
    u32::MAX,
];

/// A ring: of few vertices mostly, up to the most at times; its first vertex has
/// zeros at times, and some end in a repeat of it.
fn ring(seeded: &mut Seeded) -> Vec<f64> {
    let n = match seeded.below(40) {
        0 => 256,
        1 => 3 + seeded.below(254),
        2..8 => 3 + seeded.below(30),
        _ => 3 + seeded.below(6),
    };
    let mut ring = seeded_ring(seeded, n);
    for number in &mut ring[..2] {
        if seeded.below(4) == 0 {
            *number = seeded.pick(&[0.0, -0.0]);
        }
    }
    if seeded.below(8) == 0 && n < 256 {
        ring = closed(&ring);
    }
    ring
}

/// A case of writing; one ring in four is damaged.
fn writing(seeded: &mut Seeded) -> Case {
    let mut ring = ring(seeded);
    let room = near(seeded, length(ring.len())).min(MOST_FILE);
    if seeded.below(4) == 0 {
        ring = damaged(seeded, &ring);
    }
    Case::Write { ring, room }
}

/// The place of a coordinate of the file, of its first and closing point often.
fn coordinate(seeded: &mut Seeded, file: &[u8]) -> usize {
    let points = (file.len().saturating_sub(HEAD) / POINT).max(1);
    let point = match seeded.below(4) {
        0 => 0,
        1 => points - 1,
        _ => seeded.below(points),
    };
    HEAD + POINT * point + 8 * seeded.below(2)
}

/// Changes the number in this place to one near it: of the other sign, or a bit off.
fn nudge(seeded: &mut Seeded, order: Order, file: &mut [u8], place: usize) {
    let sign = if order == Order::Big { 0 } else { 7 };
    let (byte, mask) = if seeded.below(2) == 0 { (sign, 0x80) } else { (7 - sign, 1) };
    if let Some(there) = file.get_mut(place + byte) {
        *there ^= mask;
    }
}

/// Damages the file in one of several ways.
fn damage(seeded: &mut Seeded, order: Order, file: &mut Vec<u8>) {
    let place = seeded.below(file.len().max(1));
    let at = coordinate(seeded, file);
    match seeded.below(11) {
        0 => patch(file, place, &[seeded.bits() as u8]),
        1 if !file.is_empty() => file[place] ^= 1 << seeded.below(8),
        2 => file.truncate(place),
        3 => file.truncate(file.len().saturating_sub(1 + seeded.below(2 * POINT))),
        4 => file.extend((0..1 + seeded.below(2 * POINT)).map(|i| i as u8)),
        5 => patch(file, 0, &[seeded.pick(&[0, 1, 2, 255])]),
        6 => {
            let value = seeded.pick(&FIELDS);
            patch(file, seeded.pick(&[TYPE, RINGS, POINTS]), &order.field(value));
        }
        7 => {
            let count = (file.len() / POINT + seeded.below(3)).saturating_sub(1);
            patch(file, POINTS, &order.field(count as u32));
        }
        8 => patch(file, at, &order.number(edge(seeded))),
        9 => patch(file, at, &order.number(seeded.spread(1e6))),
        _ => nudge(seeded, order, file, at),
    }
    file.truncate(MOST_FILE);
}

/// A case of reading, damaged up to three times in most of them.
fn reading(seeded: &mut Seeded) -> Case {
    let (ring, order) = (ring(seeded), seeded.pick(&ORDERS));
    let mut file = file_of(order, &closed(&ring));
    for _ in 0..[0, 0, 1, 1, 1, 1, 2, 2, 2, 3][seeded.below(10)] {
        damage(seeded, order, &mut file);
    }
    Case::Read { file, room: near(seeded, ring.len()) }
}

/// A seeded case: one in three writes.
pub fn case(seeded: &mut Seeded) -> Case {
    if seeded.below(3) == 0 {
        writing(seeded)
    } else {
        reading(seeded)
    }
}
