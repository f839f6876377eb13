//! The replay lists, each with the check of one of its records.

mod book;
mod clear;
mod discs;
mod drawn;
mod grid;
mod mirrors;
mod paths;
pub mod places;
mod rings;
pub mod scalars;
mod sliding;
mod traces;
mod whole;
mod wkb;

use crate::lent::Cell;
use crate::tally::Compared;
use oracle::refusals::Refusal;

/// A law that calls of a record are held to, beside its answer: nothing where it
/// says nothing of the record.
pub type Law = fn(&[u64]) -> Option<Compared>;

/// A list: its name, how large a share of a run it gets, the check of a record, and
/// the laws that its calls are held to.
pub struct Checked {
    pub name: &'static str,
    pub share: u64,
    pub check: fn(&[u64]) -> Compared,
    pub laws: &'static [Law],
}

/// The laws of rings and segments.
const RINGS: [Law; 5] = [
    mirrors::twice,
    mirrors::rings_exchanged,
    mirrors::segments_exchanged,
    mirrors::segments_mirrored,
    mirrors::area_negated,
];

/// The laws of whole moves.
const MOVES: [Law; 3] = [clear::handed_out, clear::leg_by_leg, clear::exactly];

/// The laws of moves of drawings.
const DRAWN: [Law; 4] = [drawn::handed_out, drawn::leg_by_leg, drawn::as_it_is, drawn::exactly];

/// All lists; the shares add up to a hundred, and that of moves of drawings is added to it.
pub const LISTS: [Checked; 13] = [
    Checked { name: "scalars", share: 10, check: scalars::check, laws: &[] },
    Checked { name: "rings", share: 14, check: rings::check, laws: &RINGS },
    Checked { name: "whole", share: 8, check: whole::check, laws: &[] },
    Checked { name: "clear", share: 8, check: clear::check, laws: &MOVES },
    Checked { name: "discs", share: 4, check: discs::check, laws: &[] },
    Checked { name: "grid", share: 2, check: grid::check, laws: &[] },
    Checked { name: "drawn", share: 6, check: drawn::check, laws: &DRAWN },
    Checked { name: "sliding", share: 22, check: sliding::check, laws: &[] },
    Checked { name: "book", share: 10, check: book::check, laws: &[mirrors::book_mirrored] },
    Checked { name: "wkb", share: 10, check: wkb::check, laws: &[] },
    Checked { name: "places", share: 1, check: places::check, laws: &[] },
    Checked { name: "traces", share: 6, check: traces::check, laws: &[traces::larger] },
    Checked { name: "paths", share: 5, check: paths::check, laws: &[paths::pieced] },
];

/// The check of a record of every small ring to mend.
pub use rings::check as check_rings;
/// The check of a record of every small case in whole numbers.
pub use whole::check as check_whole;

/// What margins of bytes hold.
const BYTE: u8 = 0xa5;

/// The words of a record after its header, taken list by list.
struct Words<'a>(&'a [u64]);

impl<'a> Words<'a> {
    /// The next list, of so many words.
    fn take(&mut self, length: u64) -> &'a [u64] {
        let (list, rest) = self.0.split_at(length as usize);
        self.0 = rest;
        list
    }

    /// The next list, of so many bytes, which are packed eight to a word.
    fn bytes(&mut self, length: u64) -> Vec<u8> {
        let words = self.take(length.div_ceil(8));
        let mut bytes: Vec<u8> = words.iter().flat_map(|word| word.to_le_bytes()).collect();
        bytes.truncate(length as usize);
        bytes
    }
}

/// The place that a record's refusal tells, nothing where it tells none.
fn told_place(number: u64, place: u64) -> Option<u64> {
    let number = u32::try_from(number).expect("a refusal's number is small");
    Refusal::at(number, place).tells_place().then_some(place)
}

/// The answer where the number is 0, in the first so many of these values; else
/// nothing told in any of them.
fn on_success<const N: usize>(number: u64, values: [u64; N]) -> [Option<u64>; N] {
    values.map(|value| (number == 0).then_some(value))
}

/// What a function returned, what it answered and the place that it told, through
/// its pointers.
type Told = (u32, Option<u64>, Option<u64>);

/// What this tells with cells for its answer and for the place.
fn with_cells<T: Cell>(call: impl FnOnce(&mut T, &mut u64) -> u32) -> Told {
    let (mut cell, mut place) = (T::HELD, u64::HELD);
    let number = call(&mut cell, &mut place);
    (number, cell.told(), place.told())
}

/// What this tells with a cell for its answer; it tells no place.
fn with_cell<T: Cell>(call: impl FnOnce(&mut T) -> u32) -> Told {
    with_cells(|cell, _| call(cell))
}
