//! Discs from a table of whole numbers, the same bits on every machine.

use crate::lent::points;
use crate::refusal::plain;
use crate::{ffi, Point, Refusal, Result};

/// Most coordinates of a disc.
const MOST_COORDINATES: usize = 512;

/// A disc with so many vertices in a quarter, 1, 2, 4, 8, 16, 32 or 64, and four times
/// as many in all, counter-clockwise from the one right of the centre. Each vertex is
/// the centre plus the radius times an entry of the table, each step rounded once.
/// Vertices of a radius too small for its centre may be equal.
///
/// ```
/// use byrlygent::discs::make_disc;
///
/// let four = [(5.0, 2.0), (3.0, 4.0), (1.0, 2.0), (3.0, 0.0)];
/// assert_eq!(make_disc((3.0, 2.0), 2.0, 1)?, four);
/// assert_eq!(make_disc((3.0, 2.0), 2.0, 64)?.len(), 256);
///
/// let refusal = make_disc((3.0, 2.0), 2.0, 3).expect_err("no such quarter");
/// let words = "a quarter of a disc cannot have 3 vertices: it may have 1, 2, 4, 8, 16, 32 or 64";
/// assert_eq!(refusal.to_string(), words);
/// # Ok::<(), byrlygent::Refusal>(())
/// ```
pub fn make_disc(centre: impl Into<Point>, radius: f64, quarter: u64) -> Result<Vec<Point>> {
    let ((x, y), mut room, mut vertices) = (centre.into(), [0.0; MOST_COORDINATES], 0);
    // SAFETY: the room is as long as is said, and the cell is there.
    let number = unsafe {
        ffi::byr_make_disc(x, y, radius, quarter, room.as_mut_ptr(), room.len(), &mut vertices)
    };
    if number == 12 {
        return Err(Refusal::Quarter(quarter));
    }
    plain(number)?;
    Ok(points(&room, vertices))
}
