//! The outline book: rings in a form that does not depend on where an open ring
//! was begun, which way round it went or what sign its zeros have, each with the
//! number of the part that it belongs to.

use crate::lent::{flat, points};
use crate::refusal::{among, plain};
use crate::{ffi, Entries, List, Point, Refusal, Result};

/// Most coordinates and most rings of a book.
const MOST_COORDINATES: usize = 4096;
const MOST_RINGS: usize = 8;

/// The book of 1 to 8 rings of 3 to 256 vertices, each with its part, any number at
/// all. Two such lists give the same bytes exactly if place by place the parts are the
/// same and the rings the same vertices, as numbers, begun at any of them and taken
/// either way round: of either zero 0.0 is kept. A closing repeat is a vertex like any
/// other, so the book of a closed drawing depends on where it was begun: open it
/// first.
///
/// ```
/// use byrlygent::outline_book::{read_book, write_book};
///
/// let monday = write_book(&[(7, [(4.0, 0.0), (0.0, 3.0), (0.0, 0.0)])])?;
/// let thursday = write_book(&[(7, [(0.0, 0.0), (0.0, 3.0), (4.0, 0.0)])])?;
/// assert_eq!(monday, thursday);
/// assert_eq!(read_book(&monday)?, [(7, vec![(0.0, 0.0), (0.0, 3.0), (4.0, 0.0)])]);
/// assert_ne!(write_book(&[(8, [(4.0, 0.0), (0.0, 3.0), (0.0, 0.0)])])?, monday);
///
/// let closed = [(0.0, 0.0), (4.0, 0.0), (0.0, 3.0), (0.0, 0.0)];
/// let elsewhere = [(4.0, 0.0), (0.0, 3.0), (0.0, 0.0), (4.0, 0.0)];
/// assert_ne!(write_book(&[(7, closed)])?, write_book(&[(7, elsewhere)])?);
/// assert_eq!(write_book(&[(7, byrlygent::polygon_ops::open_ring(&elsewhere)?)])?, monday);
///
/// // A carrier that is symmetric about x = 0; its mirror has -0.0 for each x of 0.0.
/// let carrier = [
///     (0.0, 9.125), (-12.5, 18.75), (-42.25, 18.75), (-42.25, 0.0),
///     (0.0, -6.5), (42.25, 0.0), (42.25, 18.75), (12.5, 18.75),
/// ];
/// let mirror = byrlygent::polygon_ops::mirror_polygon(&carrier)?;
/// assert_eq!(write_book(&[(1, mirror)])?, write_book(&[(1, carrier.to_vec())])?);
/// # Ok::<(), byrlygent::Refusal>(())
/// ```
pub fn write_book<R: AsRef<[P]>, P: Into<Point> + Copy>(outlines: &[(u32, R)]) -> Result<Vec<u8>> {
    let (parts, rings): (Vec<u32>, Vec<&[P]>) =
        outlines.iter().map(|(part, ring)| (*part, ring.as_ref())).unzip();
    let coordinates: Vec<f64> = rings.iter().flat_map(|ring| flat(ring)).collect();
    // A ring that u32 cannot count is too long in any case.
    let count = |ring: &&[P]| u32::try_from(ring.len()).unwrap_or(u32::MAX);
    let counts: Vec<u32> = rings.iter().map(count).collect();
    let mut room = vec![0; 8 * coordinates.len() + 12 * counts.len() + 8];
    let (mut length, mut place) = (0, 0);
    // SAFETY: all lists are as long as is said, and both cells are there.
    let number = unsafe {
        ffi::byr_write_book(
            coordinates.as_ptr(),
            coordinates.len(),
            counts.as_ptr(),
            counts.len(),
            parts.as_ptr(),
            parts.len(),
            room.as_mut_ptr(),
            room.len(),
            &mut length,
            &mut place,
        )
    };
    among(&lists_of(&rings), number, place)?;
    room.truncate(length as usize);
    Ok(room)
}

/// The rings of a book to write, and last the book itself: the place of a wrong
/// number of rings is that number, so at place 0 it is the book if it has no rings,
/// and else ring 0.
fn lists_of<P>(rings: &[&[P]]) -> Vec<Entries> {
    let ring = |(i, ring): (usize, &&[P])| Entries::polygon(List::RingOfBook(i), ring.len());
    rings.iter().enumerate().map(ring).chain([Entries::book(rings.len())]).collect()
}

/// The rings of a book as stored, in order and bit for bit, each with its part; writing
/// them gives that book again. A file that [`write_book`] does not write is refused, one with a stored
/// -0.0 at that coordinate's first byte.
///
/// ```
/// use byrlygent::outline_book::{read_book, write_book};
/// use byrlygent::Refusal;
///
/// let mut book = write_book(&[(7, [(4.0, 0.0), (0.0, 3.0), (0.0, 0.0)])])?;
/// book[40..48].copy_from_slice(&(-0.0_f64).to_le_bytes());
/// assert_eq!(read_book(&book), Err(Refusal::Book { place: 40 }));
/// # Ok::<(), Refusal>(())
/// ```
pub fn read_book(book: &[u8]) -> Result<Vec<(u32, Vec<Point>)>> {
    let mut coordinates = vec![0.0; MOST_COORDINATES];
    let (mut counts, mut parts) = ([0; MOST_RINGS], [0; MOST_RINGS]);
    let (mut rings, mut place) = (0, 0);
    // SAFETY: all lists are as long as is said, and both cells are there.
    let number = unsafe {
        ffi::byr_read_book(
            book.as_ptr(),
            book.len(),
            coordinates.as_mut_ptr(),
            coordinates.len(),
            counts.as_mut_ptr(),
            counts.len(),
            parts.as_mut_ptr(),
            parts.len(),
            &mut rings,
            &mut place,
        )
    };
    if number == 7 {
        return Err(Refusal::Book { place: place as usize });
    }
    plain(number)?;
    let rings = cut(&coordinates, &counts[..rings as usize]);
    Ok(parts.into_iter().zip(rings).collect())
}

/// The coordinates as rings of so many vertices each.
fn cut(coordinates: &[f64], counts: &[u32]) -> Vec<Vec<Point>> {
    let mut rest = coordinates;
    let mut rings = Vec::new();
    for &count in counts {
        rings.push(points(rest, u64::from(count)));
        rest = &rest[2 * count as usize..];
    }
    rings
}
