//! Why a call gave no answer, in words that tell what to mend.

use crate::lists::Entries;
use crate::nfp_sliding::StopReason;
use crate::wkb::Fault;
use std::fmt;

/// An answer, or why there is none.
pub type Result<T> = std::result::Result<T, Refusal>;

/// Why a call gave no answer. The library's refusals 1, 4 and 5 are not among
/// these: 1 speaks of lists that hold part of an entry or of rings that do not add
/// up, and the lists lent here are made of whole entries, all counted; 4 and 5 speak
/// of lent rooms, and the rooms lent here are long enough. Later versions may have
/// more.
#[derive(Debug, Clone, Copy, PartialEq, Eq)]
#[non_exhaustive]
pub enum Refusal {
    /// Refusal 2: a number is out of its bounds.
    Number,
    /// Refusal 3: a setting is out of its bounds.
    Setting,
    /// Refusal 6: the path has fewer than three points at the end.
    ShortPath {
        /// The passes begun.
        passes: u64,
        /// Why the trace stopped.
        stop: StopReason,
    },
    /// Refusal 7: the book is wrong.
    Book {
        /// The byte of the first fault.
        place: usize,
    },
    /// Refusal 8: a list has too few entries.
    Few(Entries),
    /// Refusal 9: a list has too many entries.
    Many(Entries),
    /// Refusal 10: a drawing in well-known binary is wrong, or of another kind.
    Wkb {
        /// The byte of the first fault.
        place: usize,
        /// What is wrong there.
        fault: Fault,
    },
    /// Refusal 11: of the mended ring fewer than three vertices remain.
    Remaining,
    /// Refusal 12: a quarter of a disc cannot have so many vertices.
    Quarter(u64),
    /// Refusal 13: the places of a path or of a shift, or the start, are out of their
    /// bounds.
    Inspection,
    /// Refusal 14: a coordinate or a position times the units of a grid, exactly, is above
    /// 1,000,000 in size, or a corner on the grid is, where it is moved to.
    Grid,
}

impl Refusal {
    /// The number that the library gives it.
    pub fn number(self) -> u32 {
        match self {
            Self::Number => 2,
            Self::Setting => 3,
            Self::ShortPath { .. } => 6,
            Self::Book { .. } => 7,
            Self::Few(_) => 8,
            Self::Many(_) => 9,
            Self::Wkb { .. } => 10,
            Self::Remaining => 11,
            Self::Quarter(_) => 12,
            Self::Inspection => 13,
            Self::Grid => 14,
        }
    }
}

impl fmt::Display for Refusal {
    fn fmt(&self, f: &mut fmt::Formatter<'_>) -> fmt::Result {
        match self {
            Self::Number => f.write_str(
                "a number is out of bounds: coordinates must be finite and from -1000000 to \
                 1000000, of a whole move at its end too, moves and positions finite, the radius \
                 of a disc finite and above 0",
            ),
            Self::Setting => f.write_str(
                "a setting is out of bounds: the tolerance must be above 0 and at most 1, the \
                 smallest move finite and not negative, the pass limit at most 10000, the units \
                 of a grid 1 to 1000000",
            ),
            Self::ShortPath { passes, stop } => write!(
                f,
                "the trace stored fewer than three points in {passes} passes and stopped, {stop}: \
                 allow more passes, a larger tolerance or a smaller least move"
            ),
            Self::Book { place } => write!(
                f,
                "the book is wrong at byte {place}: write it anew from the drawing's rings"
            ),
            Self::Few(entries) | Self::Many(entries) => write!(f, "{entries}"),
            Self::Wkb { place, fault } => {
                write!(f, "the drawing is wrong at byte {place}: {fault}")
            }
            Self::Remaining => f.write_str(
                "fewer than three vertices remain once repeated points are dropped: the drawing is \
                 a point or a line",
            ),
            Self::Quarter(has) => write!(
                f,
                "a quarter of a disc cannot have {has} vertices: it may have 1, 2, 4, 8, 16, 32 or \
                 64"
            ),
            Self::Inspection => f.write_str(
                "the inspection is out of bounds: a path must have 1 to 10001 places, a shift 1 \
                 to 64, and the start must be below the path's number",
            ),
            Self::Grid => f.write_str(
                "a coordinate is off the grid: times the units it is above 1000000 in size; take \
                 fewer units, or bring the drawing nearer to (0, 0)",
            ),
        }
    }
}

impl std::error::Error for Refusal {}

/// The refusal with this number and place, of a call that is lent these lists, in
/// the order in which the library counts them; nothing for 0.
pub(crate) fn among(lists: &[Entries], number: u32, place: u64) -> Result<()> {
    match number {
        8 => Err(Refusal::Few(lists[place as usize])),
        9 => Err(Refusal::Many(lists[place as usize])),
        _ => plain(number),
    }
}

/// The refusal with this number, of a call that tells nothing beside it; nothing
/// for 0.
pub(crate) fn plain(number: u32) -> Result<()> {
    match number {
        0 => Ok(()),
        2 => Err(Refusal::Number),
        3 => Err(Refusal::Setting),
        11 => Err(Refusal::Remaining),
        13 => Err(Refusal::Inspection),
        14 => Err(Refusal::Grid),
        _ => unreachable!("refusal {number}: lists are whole and rooms are long enough"),
    }
}
