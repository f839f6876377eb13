//! Polygons in well-known binary, through the library.

use super::{told_place, Words, BYTE};
use crate::ffi;
use crate::lent::{words, Cell, Room};
use crate::tally::Compared;
use oracle::replay::wkb::{HEADER, WRITE};

/// What a record says that the two cells are told: the value, and the place.
fn told(record: &[u64]) -> [Option<u64>; 2] {
    let (number, value, at) = (record[3], record[4], record[5]);
    [(number == 0).then_some(value), told_place(number, at)]
}

/// A call to write, through the library.
fn writing(record: &[u64]) -> Compared {
    let mut rest = Words(&record[HEADER..]);
    let ring = rest.take(record[1]);
    let [before, after] = [0, 1].map(|_| rest.bytes(record[2]));
    let (list, mut room) = (words(ring), Room::new(&before, BYTE));
    let (room_n, mut length, mut place) = (room.len(), u64::HELD, u64::HELD);
    // SAFETY: both lists are as long as is said, and every pointer has its cell.
    let returned = unsafe {
        ffi::byr_write_wkb(list.list(), list.len(), room.room(), room_n, &mut length, &mut place)
    };
    let cells = [length.told(), place.told()];
    let oracle = (record[3], told(record), Some(&after[..]), Some(ring));
    let library = (u64::from(returned), cells, room.contents(), list.contents());
    Compared::of("write_wkb", record[3], oracle, library)
}

/// A call to read, through the library.
fn reading(record: &[u64]) -> Compared {
    let mut rest = Words(&record[HEADER..]);
    let file = rest.bytes(record[1]);
    let [before, after] = [0, 1].map(|_| rest.take(record[2]));
    let (wkb, mut room) = (Room::new(&file, BYTE), words(before));
    let (room_n, mut vertices, mut place) = (room.len(), u64::HELD, u64::HELD);
    // SAFETY: both lists are as long as is said, and every pointer has its cell.
    let returned = unsafe {
        ffi::byr_read_wkb(wkb.list(), wkb.len(), room.room(), room_n, &mut vertices, &mut place)
    };
    let cells = [vertices.told(), place.told()];
    let oracle = (record[3], told(record), Some(after), Some(&file[..]));
    let library = (u64::from(returned), cells, room.contents(), wkb.contents());
    Compared::of("read_wkb", record[3], oracle, library)
}

/// The record's call through the library.
pub fn check(record: &[u64]) -> Compared {
    if record[0] == WRITE {
        writing(record)
    } else {
        reading(record)
    }
}
