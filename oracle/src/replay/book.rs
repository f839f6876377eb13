//! The list `book`. A record is twelve words of header: the call (0 write,
//! 1 read), an, bn, rn, cn, the refusal number, the value answered, the place that
//! the refusal tells (0 where it tells none), pn and three zeros.
//!
//! For writing, an coordinates, bn vertex counts and pn parts are lent with a room
//! of rn bytes, cn is 0, and the value is the book's length. After the header come
//! the coordinates' bits, the counts, the parts, the room at entry and the room at
//! exit. For reading, a file of an bytes is lent with rooms for rn coordinates, cn
//! counts and pn parts, bn is 0, and the value is the number of rings. After the
//! header come the file, the rooms at entry and the rooms at exit. Bytes are packed
//! eight to a word, the last word filled up with zeros; a count takes a word, and
//! so does a part. The value is 0 where refused.

mod counts;
mod files;
mod lent;
mod sample;

pub use lent::longest;

use super::{bits, byte_room, float_room, once, packed, refused, List};
use crate::book::{book_of, file_of, parts_of, read_book, write_book};
use crate::seeded::Seeded;
use std::slice;

pub const WRITE: u64 = 0;
pub const READ: u64 = 1;

/// Words of the header.
pub const HEADER: usize = 12;

/// The list with both its forms.
pub const LIST: List = List { stored: records, long, counted };

/// The longest book of rings whose vertices are all equal, written and read by
/// turns: what the least reading costs most.
pub const EQUAL: List = List { stored: records, long: |_, place| costly(1.0, place), counted };

/// The same with one vertex of each ring different.
pub const ONE: List = List { stored: records, long: |_, place| costly(2.0, place), counted };

/// A call with what is lent to it; of a room only the length.
enum Case {
    Write { coordinates: Vec<f64>, counts: Vec<u32>, parts: Vec<u32>, room: usize },
    Read { file: Vec<u8>, coordinates: usize, counts: usize, parts: usize },
}

impl Case {
    /// Writes these rings to a room that is just long enough.
    fn writing(rings: &[Vec<f64>]) -> Self {
        let parts = parts_of(rings.len());
        let room = length(rings);
        Self::Write { coordinates: rings.concat(), counts: counts(rings), parts, room }
    }

    /// Reads this file to rooms of these lengths, with as much room for parts as
    /// for counts.
    fn reading(file: &[u8], coordinates: usize, counts: usize) -> Self {
        Self::Read { file: file.to_vec(), coordinates, counts, parts: counts }
    }
}

/// The longest book of rings of the point (1,1), the last with this x: written at
/// an even place of the run, read at an odd one.
fn costly(last: f64, place: u64) -> Vec<u64> {
    let mut ring = vec![1.0; 512];
    ring[510] = last;
    let rings = vec![ring; 8];
    record(&if place.is_multiple_of(2) {
        Case::writing(&rings)
    } else {
        Case::reading(&book_of(&rings), 4_096, 8)
    })
}

/// The vertices of each ring.
fn counts(rings: &[Vec<f64>]) -> Vec<u32> {
    rings.iter().map(|ring| ring.len() as u32 / 2).collect()
}

/// The length of the book of these rings.
fn length(rings: &[Vec<f64>]) -> usize {
    8 * rings.concat().len() + 12 * rings.len() + 8
}

/// A room of this many counts, none of which a ring can have.
fn count_room(length: usize) -> Vec<u32> {
    (0..length).map(|i| 0xc000_0000 + 1000 * i as u32).collect()
}

/// A room of this many parts, each of which tells where it stands.
fn part_room(length: usize) -> Vec<u32> {
    (0..length).map(|i| 0xa000_0000 + 1000 * i as u32).collect()
}

/// The counts, a word each.
fn widened(counts: &[u32]) -> Vec<u64> {
    counts.iter().map(|&count| u64::from(count)).collect()
}

/// The record of a call to write.
fn written(coordinates: &[f64], counts: &[u32], parts: &[u32], room: usize) -> Vec<u64> {
    let before = byte_room(room);
    let mut after = before.clone();
    let answer = write_book(coordinates, counts, parts, &mut after);
    let ([number, place], value) = (refused(answer.err()), answer.unwrap_or(0) as u64);
    let [an, bn, pn, rn] = [coordinates.len(), counts.len(), parts.len(), room].map(|n| n as u64);
    let header = vec![WRITE, an, bn, rn, 0, number, value, place, pn, 0, 0, 0];
    let lent = [bits(coordinates), widened(counts), widened(parts)].concat();
    [header, lent, packed(&before), packed(&after)].concat()
}

/// The record of a call to read.
fn read(file: &[u8], coordinates: usize, counts: usize, parts: usize) -> Vec<u64> {
    let before = (float_room(coordinates), count_room(counts), part_room(parts));
    let mut after = before.clone();
    let answer = read_book(file, &mut after.0, &mut after.1, &mut after.2);
    let ([number, place], value) = (refused(answer.err()), answer.unwrap_or(0) as u64);
    let [an, rn, cn, pn] = [file.len(), coordinates, counts, parts].map(|n| n as u64);
    let mut words = vec![READ, an, 0, rn, cn, number, value, place, pn, 0, 0, 0];
    words.extend(packed(file));
    for (numbers, counts, parts) in [before, after] {
        words.extend(bits(&numbers));
        words.extend(widened(&counts));
        words.extend(widened(&parts));
    }
    words
}

/// The record of a case.
fn record(case: &Case) -> Vec<u64> {
    match case {
        Case::Write { coordinates, counts, parts, room } => {
            written(coordinates, counts, parts, *room)
        }
        Case::Read { file, coordinates, counts, parts } => {
            read(file, *coordinates, *counts, *parts)
        }
    }
}

/// The list, record by record, none twice.
pub fn records() -> Vec<Vec<u64>> {
    let cases = lent::cases().into_iter().chain(counts::cases()).chain(files::cases());
    once(cases.map(|case| record(&case)).collect())
}

/// A record of a long run: by turns a book of the grid's rings written, such a ring
/// read as it is, wrong counts, and a seeded case, which also follows the last of the
/// others.
fn long(seeded: &mut Seeded, place: u64) -> Vec<u64> {
    let round = place / 4;
    let read = |ring: Vec<f64>| Case::reading(&file_of(slice::from_ref(&ring)), ring.len(), 1);
    let case = match place % 4 {
        0 => lent::grid_book(round).map(|rings| Case::writing(&rings)),
        1 => lent::grid_ring(round).map(read),
        2 => counts::swept(round),
        _ => None,
    };
    record(&case.unwrap_or_else(|| sample::case(seeded)))
}

/// The call, with its refusal number.
fn counted(record: &[u64]) -> Vec<String> {
    let call = if record[0] == WRITE { "write" } else { "read" };
    vec![format!("{call}: all"), format!("{call}: refusal {}", record[5])]
}
