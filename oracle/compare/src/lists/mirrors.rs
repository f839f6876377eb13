//! That mirrored rings, and lists or segments that are exchanged, are answered as
//! is proved: two calls of the library beside each other.

use super::{book, rings, Told, Words, BYTE};
use crate::lent::{words, Room};
use crate::tally::Compared;
use oracle::replay::book::{HEADER as BOOK_HEADER, WRITE};
use oracle::replay::rings::{
    HEADER, MIRROR_POLYGON, RING_DISTANCE, SEGMENTS_INTERSECT, SIGNED_AREA2,
};

/// The bit of a float's sign.
const SIGN: u64 = 1 << 63;

/// What the library tells of a call of the rings' list, and what the room holds then.
fn told(call: u64, lists: [&[u64]; 2], room: usize) -> (Told, Option<Vec<u64>>) {
    let ([a, b], mut room) = (lists.map(words), words(&vec![0; room]));
    let told = rings::answer(call, &a, &b, &mut room).1;
    (told, room.contents().map(<[u64]>::to_vec))
}

/// The two lists of a record of this call, with its number.
fn lent(record: &[u64], call: u64) -> Option<([&[u64]; 2], u64)> {
    let mut rest = Words(&record[HEADER..]);
    let lists = [1, 2].map(|place| rest.take(record[place]));
    (record[0] == call).then_some((lists, record[4]))
}

/// The numbers with each x negated, bit for bit.
fn negated(list: &[u64]) -> Vec<u64> {
    list.iter()
        .enumerate()
        .map(|(place, word)| if place % 2 == 0 { word ^ SIGN } else { *word })
        .collect()
}

/// The mirror of a ring through the library.
fn mirror(ring: &[u64]) -> (Told, Option<Vec<u64>>) {
    told(MIRROR_POLYGON, [ring, &[]], ring.len())
}

/// The mirror of a mirrored ring is the ring.
pub fn twice(record: &[u64]) -> Option<Compared> {
    let ([ring, _], 0) = lent(record, MIRROR_POLYGON)? else { return None };
    let again = mirror(&mirror(ring).1?);
    let vertices = ring.len() as u64 / 2;
    Some(Compared::of(
        "a mirror mirrored",
        0,
        ((0, Some(vertices), None), Some(ring.to_vec())),
        again,
    ))
}

/// The number of a ring's fault, 0 where it has none.
fn fault(ring: &[u64]) -> u32 {
    match ring.len() {
        n if n % 2 == 1 => 1,
        n if n > 512 => 9,
        _ => 0,
    }
}

/// The distance of two rings exchanged: the same, or the refusal of the list that
/// comes first then.
pub fn rings_exchanged(record: &[u64]) -> Option<Compared> {
    let ([a, b], number) = lent(record, RING_DISTANCE)?;
    let expected = match [fault(a), fault(b)] {
        [0, 0] => told(RING_DISTANCE, [a, b], 0).0,
        [first, 0] => (first, None, Some(1)),
        [_, second] => (second, None, Some(0)),
    };
    let exchanged = told(RING_DISTANCE, [b, a], 0).0;
    Some(Compared::of("rings exchanged", number, expected, exchanged))
}

/// Two segments exchanged.
pub fn segments_exchanged(record: &[u64]) -> Option<Compared> {
    let ([list, _], number) = lent(record, SEGMENTS_INTERSECT)?;
    let exchanged = [&list[4..8], &list[..4]].concat();
    let [one, other] = [list, &exchanged].map(|list| told(SEGMENTS_INTERSECT, [list, &[]], 0).0);
    Some(Compared::of("segments exchanged", number, one, other))
}

/// Two segments mirrored.
pub fn segments_mirrored(record: &[u64]) -> Option<Compared> {
    let ([list, _], number) = lent(record, SEGMENTS_INTERSECT)?;
    let mirrored = negated(list);
    let [one, other] = [list, &mirrored].map(|list| told(SEGMENTS_INTERSECT, [list, &[]], 0).0);
    Some(Compared::of("segments mirrored", number, one, other))
}

/// The area of a ring with each x negated: the sign alone changes.
pub fn area_negated(record: &[u64]) -> Option<Compared> {
    let ([ring, _], number) = lent(record, SIGNED_AREA2)?;
    let opposite = |bits: u64| if bits == 0 { 0 } else { bits ^ SIGN };
    let (returned, area, place) = told(SIGNED_AREA2, [ring, &[]], 0).0;
    let other = told(SIGNED_AREA2, [&negated(ring), &[]], 0).0;
    Some(Compared::of("an area, x negated", number, (returned, area.map(opposite), place), other))
}

/// The rings of these counts, each mirrored in its place.
fn mirrored(numbers: &[u64], counts: &[u32]) -> Option<Vec<u64>> {
    let mut rest = Words(numbers);
    let rings = counts.iter().map(|&count| mirror(rest.take(2 * u64::from(count))).1);
    Some(rings.collect::<Option<Vec<_>>>()?.concat())
}

/// The book of these rings with these parts, in a room of just that length.
fn book_of(
    numbers: &[u64],
    counts: &[u32],
    parts: &[u32],
    length: usize,
) -> (Told, Option<Vec<u8>>) {
    let mut room = Room::new(&vec![0; length], BYTE);
    let (counts, parts) = (book::fields(counts), book::fields(parts));
    let told = book::write(&words(numbers), &counts, &parts, &mut room);
    (told, room.contents().map(<[u8]>::to_vec))
}

/// The book of mirrored rings, and that of the rings as their book gives them back,
/// mirrored: one file.
pub fn book_mirrored(record: &[u64]) -> Option<Compared> {
    if record[0] != WRITE || record[5] != 0 {
        return None;
    }
    let mut rest = Words(&record[BOOK_HEADER..]);
    let numbers = rest.take(record[1]);
    let counts = book::taken(&mut rest, record[2]);
    let parts = book::taken(&mut rest, record[8]);
    let length = record[6] as usize;
    let file = Room::new(&book_of(numbers, &counts, &parts, length).1?, BYTE);
    let mut stored = words(&vec![0; numbers.len()]);
    let [mut lent, mut labels] = [(); 2].map(|()| book::fields(&vec![0; counts.len()]));
    book::read(&file, &mut stored, &mut lent, &mut labels);
    let (stored, lent, labels) = (stored.contents()?, lent.contents()?, labels.contents()?);
    let one = book_of(&mirrored(numbers, &counts)?, &counts, &parts, length);
    let other = book_of(&mirrored(stored, lent)?, lent, labels, length);
    Some(Compared::of("a mirrored book", 0, one, other))
}
