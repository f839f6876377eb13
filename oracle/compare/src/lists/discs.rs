//! Discs, through the library.

use super::{on_success, with_cell, Words};
use crate::ffi;
use crate::lent::words;
use crate::tally::Compared;
use oracle::replay::discs::HEADER;

/// The record's call through the library.
pub fn check(record: &[u64]) -> Compared {
    let (m, number, vertices) = (record[0], record[2], record[3]);
    let [x, y, radius] = [4, 5, 6].map(|place| f64::from_bits(record[place]));
    let mut rest = Words(&record[HEADER..]);
    let [before, after] = [0, 1].map(|_| rest.take(record[1]));
    let mut room = words(before);
    let room_n = room.len();
    // SAFETY: the room is as long as is said, and the cell is there.
    let (returned, told, _) = with_cell(|cell: &mut u64| unsafe {
        ffi::byr_make_disc(x, y, radius, m, room.room(), room_n, cell)
    });
    let oracle = (number, on_success(number, [vertices]), Some(after));
    let library = (u64::from(returned), [told], room.contents());
    Compared::of("make_disc", number, oracle, library)
}
