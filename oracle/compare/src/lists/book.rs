//! The outline book, through the library.

use super::{told_place, with_cells, Told, Words, BYTE};
use crate::ffi;
use crate::lent::{words, Room};
use crate::tally::Compared;
use oracle::replay::book::{HEADER, WRITE};

/// What margins of counts and parts hold.
const COUNT: u32 = 0xdead_beef;

/// So many counts or parts, a word each.
pub fn taken(rest: &mut Words, length: u64) -> Vec<u32> {
    rest.take(length).iter().map(|&word| word as u32).collect()
}

/// What the library tells of writing these rings, with these counts and parts, to the
/// room.
pub fn write(list: &Room<u64>, counts: &Room<u32>, parts: &Room<u32>, room: &mut Room<u8>) -> Told {
    let (room_n, n, rings, parts_n) = (room.len(), list.len(), counts.len(), parts.len());
    let (list, counts, parts, room) = (list.list(), counts.list(), parts.list(), room.room());
    // SAFETY: all lists are as long as is said, and every pointer has its cell.
    with_cells(|length, place| unsafe {
        ffi::byr_write_book(list, n, counts, rings, parts, parts_n, room, room_n, length, place)
    })
}

/// What the library tells of reading this file to rooms for numbers, counts and parts.
pub fn read(
    file: &Room<u8>,
    numbers: &mut Room<u64>,
    counts: &mut Room<u32>,
    parts: &mut Room<u32>,
) -> Told {
    let (file_n, numbers_n, counts_n) = (file.len(), numbers.len(), counts.len());
    let parts_n = parts.len();
    let (file, numbers, counts) = (file.list(), numbers.room(), counts.room());
    let parts = parts.room();
    // SAFETY: all lists are as long as is said, and every pointer has its cell.
    with_cells(|rings, place| unsafe {
        ffi::byr_read_book(
            file, file_n, numbers, numbers_n, counts, counts_n, parts, parts_n, rings, place,
        )
    })
}

/// Counts or parts, between margins.
pub fn fields(list: &[u32]) -> Room<u32> {
    Room::new(list, COUNT)
}

/// A call to write, through the library.
fn writing(record: &[u64]) -> Compared {
    let (number, value, at) = (record[5], record[6], record[7]);
    let mut rest = Words(&record[HEADER..]);
    let (coordinates, counts) = (rest.take(record[1]), taken(&mut rest, record[2]));
    let parts = taken(&mut rest, record[8]);
    let [before, after] = [0, 1].map(|_| rest.bytes(record[3]));
    let (list, lent, labels) = (words(coordinates), fields(&counts), fields(&parts));
    let mut room = Room::new(&before, BYTE);
    let (returned, length, place) = write(&list, &lent, &labels, &mut room);
    let told = [(number == 0).then_some(value), told_place(number, at)];
    let lists = (Some(coordinates), Some(&counts[..]), Some(&parts[..]));
    let oracle = (number, told, Some(&after[..]), lists);
    let read = (list.contents(), lent.contents(), labels.contents());
    let library = (u64::from(returned), [length, place], room.contents(), read);
    Compared::of("write_book", number, oracle, library)
}

/// A call to read, through the library.
fn reading(record: &[u64]) -> Compared {
    let (number, value, at) = (record[5], record[6], record[7]);
    let mut rest = Words(&record[HEADER..]);
    let file = rest.bytes(record[1]);
    let [before, after] = [0, 1].map(|_| {
        let numbers = rest.take(record[3]);
        (numbers, taken(&mut rest, record[4]), taken(&mut rest, record[8]))
    });
    let book = Room::new(&file, BYTE);
    let (mut numbers, mut counts) = (words(before.0), fields(&before.1));
    let mut parts = fields(&before.2);
    let (returned, rings, place) = read(&book, &mut numbers, &mut counts, &mut parts);
    let told = [(number == 0).then_some(value), told_place(number, at)];
    let held = (Some(&after.1[..]), Some(&after.2[..]));
    let oracle = (number, told, Some(after.0), held, Some(&file[..]));
    let held = (counts.contents(), parts.contents());
    let library = (u64::from(returned), [rings, place], numbers.contents(), held, book.contents());
    Compared::of("read_book", number, oracle, library)
}

/// The record's call through the library.
pub fn check(record: &[u64]) -> Compared {
    if record[0] == WRITE {
        writing(record)
    } else {
        reading(record)
    }
}
