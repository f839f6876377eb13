//! Floats on a grid, through the library.

use super::{told_place, Words};
use crate::ffi;
use crate::lent::{words, Cell, Room};
use crate::tally::Compared;
use oracle::replay::grid::HEADER;

/// What margins of integers hold.
const MARGIN: i32 = 0x5eed_5eed;

/// The integers of these words.
fn integers(words: &[u64]) -> Vec<i32> {
    words.iter().map(|&word| word as i32).collect()
}

/// The record's call through the library.
pub fn check(record: &[u64]) -> Compared {
    let [n, units, rn, number, place, count] =
        record[..HEADER].try_into().expect("a header of six words");
    let mut rest = Words(&record[HEADER..]);
    let list = words(rest.take(n));
    let [before, after] = [0, 1].map(|_| integers(rest.take(rn)));
    let (mut room, mut written, mut at) = (Room::new(&before, MARGIN), u64::HELD, u64::HELD);
    let (length, room_n) = (list.len(), room.len());
    // SAFETY: the list and the room are as long as is said, and both cells are there.
    let returned = unsafe {
        ffi::byr_to_grid(
            list.list(),
            length,
            units as u32,
            room.room(),
            room_n,
            &mut written,
            &mut at,
        )
    };
    let told = (number == 0).then_some(count);
    let oracle = (number, told, told_place(number, place), Some(&after[..]));
    let library = (u64::from(returned), written.told(), at.told(), room.contents());
    Compared::of("to_grid", number, oracle, library)
}
