//! Drawings on a grid of whole numbers, of so many units in 1. On a drawing in
//! millimetres, 1,000 units are micrometres. What is off by a rounding in floats is off
//! by at most half a unit here, exactly, and the same coordinate is the same whole number
//! wherever it stands.

use crate::lent::flat;
use crate::refusal::among;
use crate::{ffi, whole, Entries, List, Point, Result};

/// At most 10,001 points on a grid of 1 to 1,000,000 units in 1: each coordinate becomes
/// the whole number nearest to units times its exact value; a tie goes away from zero.
/// The calls of [`whole`] take all of them. Where units times a coordinate, exactly, is
/// above 1,000,000 in size, there is no such number, and the refusal is
/// [`Refusal::Grid`](crate::Refusal::Grid).
///
/// ```
/// use byrlygent::{grid::to_grid, Refusal};
///
/// let corners = [(0.1234, -2.0005), (0.25, 0.0)];
/// assert_eq!(to_grid(&corners, 1000)?, [(123, -2001), (250, 0)]);
/// assert_eq!(to_grid(&[(1000.001, 0.0)], 1000), Err(Refusal::Grid));
/// # Ok::<(), byrlygent::Refusal>(())
/// ```
pub fn to_grid(drawn: &[impl Into<Point> + Copy], units: u32) -> Result<Vec<whole::Point>> {
    let list = flat(drawn);
    let (mut room, mut count, mut place) = (vec![0; list.len()], 0, 0);
    // SAFETY: both lists are as long as is said, and both cells are there.
    let number = unsafe {
        ffi::byr_to_grid(
            list.as_ptr(),
            list.len(),
            units,
            room.as_mut_ptr(),
            room.len(),
            &mut count,
            &mut place,
        )
    };
    among(&[Entries::points(List::Points, drawn.len())], number, place)?;
    let points = room.chunks_exact(2).take(count as usize);
    Ok(points.map(|point| (point[0], point[1])).collect())
}
