//! Places of a path to inspect, shift by shift: the next ones in path order, the last
//! on to the first. Shifts on one path with one number of places, each started where
//! the one before left off, forget none: as many as the path's places divided by a
//! shift's, rounded up, inspect every place; and from start 0 no place is inspected more
//! than once oftener than another. A new path begins at start 0.

use crate::refusal::plain;
use crate::{ffi, Result};

/// Most places of a shift.
const MOST_PLACES: usize = 64;

/// What a shift inspects.
#[derive(Debug, Clone, PartialEq, Eq)]
pub struct Shift {
    /// The places, from the start on; they differ.
    pub places: Vec<u64>,
    /// Where the following shift starts.
    pub following: u64,
}

/// The next so many places of a path of so many points, 0 to points - 1, from the start
/// on; all of them, and the same start again, where the path has no more.
///
/// ```
/// use byrlygent::inspection::next_places;
///
/// let mut start = 0;
/// for expected in [0, 5, 10, 15] {
///     let shift = next_places(24, 5, start)?;
///     assert_eq!(shift.places, (expected..expected + 5).collect::<Vec<_>>());
///     start = shift.following;
/// }
/// let fifth = next_places(24, 5, start)?;
/// assert_eq!((fifth.places, fifth.following), (vec![20, 21, 22, 23, 0], 1));
/// # Ok::<(), byrlygent::Refusal>(())
/// ```
pub fn next_places(points: u64, per_shift: u64, start: u64) -> Result<Shift> {
    let (mut following, mut room, mut count) = (start, [0; MOST_PLACES], 0);
    // SAFETY: the room is as long as is said, and both cells are there.
    let number = unsafe {
        ffi::byr_next_places(
            points,
            per_shift,
            &mut following,
            room.as_mut_ptr(),
            room.len(),
            &mut count,
        )
    };
    plain(number)?;
    Ok(Shift { places: room[..count as usize].to_vec(), following })
}
