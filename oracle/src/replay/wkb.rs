//! The list `wkb`. A record is six words of header: the call (0 write, 1 read),
//! an, rn, the refusal number, the value answered and the place that the refusal
//! tells (0 where it tells none).
//!
//! For writing, an coordinates are lent with a room of rn bytes, and the value is
//! the file's length; after the header come the coordinates' bits, the room at
//! entry and the room at exit. For reading, a file of an bytes is lent with a room
//! for rn coordinates, and the value is the number of vertices; after the header
//! come the file, the room at entry and the room at exit. Bytes are packed eight to
//! a word, the last word filled up with zeros. The value is 0 where refused.

mod faults;
mod files;
mod lent;
mod sample;

use super::{bits, byte_room, float_room, once, packed, refused, List};
use crate::refusals::MOST_VERTICES;
use crate::seeded::Seeded;
use crate::shapes::{closed, seeded_ring};
use crate::wkb::{file_of, read_wkb, write_wkb, Order, HEAD, POINT};

pub const WRITE: u64 = 0;
pub const READ: u64 = 1;

/// Words of the header.
pub const HEADER: usize = 6;

/// The list with both its forms.
pub const LIST: List = List { stored: records, long, counted };

/// Both byte orders.
const ORDERS: [Order; 2] = [Order::Big, Order::Little];

/// Most bytes of a file, or of a room for one, in the list.
const MOST_FILE: usize = 4_200;

/// A call with what is lent to it; of a room only the length.
enum Case {
    Write { ring: Vec<f64>, room: usize },
    Read { file: Vec<u8>, room: usize },
}

impl Case {
    /// Writes this ring to a room of this length.
    fn writing(ring: &[f64], room: usize) -> Self {
        Self::Write { ring: ring.to_vec(), room }
    }

    /// Reads this file to a room of this length.
    fn reading(file: &[u8], room: usize) -> Self {
        Self::Read { file: file.to_vec(), room }
    }

    /// Reads the file of this ring, closed, to a room that is just long enough.
    fn reading_closed(order: Order, ring: &[f64]) -> Self {
        Self::Read { file: file_of(order, &closed(ring)), room: ring.len() }
    }
}

/// The length of the file of this many coordinates.
fn length(coordinates: usize) -> usize {
    HEAD + POINT * (coordinates / 2 + 1)
}

/// A record: what is lent and both states of the room, as words.
fn record(case: &Case) -> Vec<u64> {
    let (call, n, room, answer, lists) = match case {
        Case::Write { ring, room } => {
            let before = byte_room(*room);
            let mut after = before.clone();
            let answer = write_wkb(ring, &mut after);
            (WRITE, ring.len(), room, answer, [bits(ring), packed(&before), packed(&after)])
        }
        Case::Read { file, room } => {
            let before = float_room(*room);
            let mut after = before.clone();
            let answer = read_wkb(file, &mut after);
            (READ, file.len(), room, answer, [packed(file), bits(&before), bits(&after)])
        }
    };
    let [number, place] = refused(answer.err());
    let header = [call, n as u64, *room as u64, number, answer.unwrap_or(0) as u64, place];
    [header.to_vec(), lists.concat()].concat()
}

/// The list, record by record, none twice.
pub fn records() -> Vec<Vec<u64>> {
    let cases = lent::cases().into_iter().chain(files::cases()).chain(faults::cases());
    once(cases.map(|case| record(&case)).collect())
}

/// A ring of every number of vertices, written, and read in both byte orders:
/// the case with this place among them, nothing past the last.
fn sized(seeded: &mut Seeded, place: u64) -> Option<Case> {
    let vertices = 3 + place as usize / 3;
    (vertices <= MOST_VERTICES).then(|| {
        let ring = seeded_ring(seeded, vertices);
        match place % 3 {
            0 => Case::writing(&ring, length(ring.len())),
            turn => Case::reading_closed(ORDERS[turn as usize - 1], &ring),
        }
    })
}

/// A record of a long run: by turns a ring of every size, four small files with a
/// byte changed, and a seeded case, which also follows the last of the others: 5,000
/// records have them all.
fn long(seeded: &mut Seeded, place: u64) -> Vec<u64> {
    let (round, turn) = (place / 6, place % 6);
    let case = match turn {
        0 => sized(seeded, round),
        1..5 => faults::flipped(4 * round + turn - 1),
        _ => None,
    };
    record(&case.unwrap_or_else(|| sample::case(seeded)))
}

/// The call, with its refusal number.
fn counted(record: &[u64]) -> Vec<String> {
    let call = if record[0] == WRITE { "write" } else { "read" };
    vec![format!("{call}: all"), format!("{call}: refusal {}", record[3])]
}
