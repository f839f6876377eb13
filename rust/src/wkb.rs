//! Drawings in the well-known binary of OGC Simple Features: polygons of one ring,
//! read in either byte order and written little-endian. In a file the ring is
//! closed; here it is open.

use crate::lent::{flat, points};
use crate::refusal::{among, plain};
use crate::{ffi, Entries, List, Point, Refusal, Result};
use std::fmt;

/// Most coordinates of a ring.
const MOST_COORDINATES: usize = 512;

/// Bytes before the points, and bytes of a point.
const HEAD: usize = 13;
const POINT: usize = 16;

/// The ring of a drawing, open: all of its points but the last, bit for bit. The
/// last must equal the first as numbers, and it alone is left off.
///
/// ```
/// use byrlygent::wkb::{read_wkb, write_wkb};
///
/// let triangle = [(0.0, 0.0), (4.0, 0.0), (0.0, 3.0)];
/// let mut file = write_wkb(&triangle)?;
/// assert_eq!(read_wkb(&file)?, triangle);
///
/// file[5] = 2;
/// let refusal = read_wkb(&file).expect_err("a hole");
/// let words = "the drawing is wrong at byte 5: it has 2 rings, and may have one and no holes";
/// assert_eq!(refusal.to_string(), words);
/// # Ok::<(), byrlygent::Refusal>(())
/// ```
pub fn read_wkb(wkb: &[u8]) -> Result<Vec<Point>> {
    let (mut room, mut vertices, mut place) = ([0.0; MOST_COORDINATES], 0, 0);
    // SAFETY: both lists are as long as is said, and both cells are there.
    let number = unsafe {
        ffi::byr_read_wkb(
            wkb.as_ptr(),
            wkb.len(),
            room.as_mut_ptr(),
            room.len(),
            &mut vertices,
            &mut place,
        )
    };
    if number == 10 {
        let place = place as usize;
        return Err(Refusal::Wkb { place, fault: Fault::of(wkb, place) });
    }
    plain(number)?;
    Ok(points(&room, vertices))
}

/// The drawing of a ring of 3 to 256 vertices, little-endian, its first vertex
/// repeated at the end bit for bit. Reading it gives the same ring.
///
/// ```
/// let file = byrlygent::wkb::write_wkb(&[[0.0, 0.0], [4.0, 0.0], [0.0, 3.0]])?;
/// assert_eq!(file[..13], [1, 3, 0, 0, 0, 1, 0, 0, 0, 4, 0, 0, 0]);
/// assert_eq!(file.len(), 13 + 16 * 4);
/// # Ok::<(), byrlygent::Refusal>(())
/// ```
pub fn write_wkb(vertices: &[impl Into<Point> + Copy]) -> Result<Vec<u8>> {
    let ring = flat(vertices);
    let mut room = vec![0; HEAD + POINT * (vertices.len() + 1)];
    let (mut length, mut place) = (0, 0);
    // SAFETY: both lists are as long as is said, and both cells are there.
    let number = unsafe {
        ffi::byr_write_wkb(
            ring.as_ptr(),
            ring.len(),
            room.as_mut_ptr(),
            room.len(),
            &mut length,
            &mut place,
        )
    };
    among(&[Entries::polygon(List::Ring, vertices.len())], number, place)?;
    room.truncate(length as usize);
    Ok(room)
}

/// What is wrong with a drawing. Later versions may have more.
#[derive(Debug, Clone, Copy, PartialEq, Eq)]
#[non_exhaustive]
pub enum Fault {
    /// It has so many bytes, fewer than 13.
    Short(usize),
    /// Its byte order is this, neither 0 nor 1.
    ByteOrder(u8),
    /// Its type is this, not 3: no polygon, or one with Z, M or SRID.
    Type(u32),
    /// It has so many rings, not one.
    Rings(u32),
    /// Its ring has so many points, not 4 to 257.
    Points(u32),
    /// It has another length than its points ask for.
    Length {
        /// The bytes that it has.
        has: usize,
        /// The points that it says it has.
        points: u32,
    },
    /// A coordinate is out of bounds.
    Coordinate,
    /// Its last point does not equal the first.
    Open,
}

impl Fault {
    /// What the library found wrong at this place of a drawing.
    fn of(wkb: &[u8], place: usize) -> Self {
        match place {
            0 if wkb.len() < HEAD => Self::Short(wkb.len()),
            0 if wkb[0] > 1 => Self::ByteOrder(wkb[0]),
            0 => Self::Length { has: wkb.len(), points: word(wkb, 9) },
            1 => Self::Type(word(wkb, 1)),
            5 => Self::Rings(word(wkb, 5)),
            9 => Self::Points(word(wkb, 9)),
            // The last point's x is there too: in bounds, it is the point that is wrong.
            _ if float(wkb, place).abs() <= 1e6 => Self::Open,
            _ => Self::Coordinate,
        }
    }
}

/// So many bytes of a drawing from one on, the lowest first.
fn lowest_first<const N: usize>(wkb: &[u8], at: usize) -> [u8; N] {
    let mut bytes: [u8; N] = wkb[at..at + N].try_into().expect("so many bytes");
    if wkb[0] == 0 {
        bytes.reverse();
    }
    bytes
}

/// The whole number at this byte of a drawing.
fn word(wkb: &[u8], at: usize) -> u32 {
    u32::from_le_bytes(lowest_first(wkb, at))
}

/// The coordinate at this byte of a drawing.
fn float(wkb: &[u8], at: usize) -> f64 {
    f64::from_le_bytes(lowest_first(wkb, at))
}

impl fmt::Display for Fault {
    fn fmt(&self, f: &mut fmt::Formatter<'_>) -> fmt::Result {
        match self {
            Self::Short(has) => {
                write!(f, "it has {has} bytes, and {HEAD} stand before the points alone")
            }
            Self::ByteOrder(order) => {
                write!(f, "its byte order is {order}, and may be 0 (big-endian) or 1")
            }
            Self::Type(kind) => write!(
                f,
                "its type is {kind} ({kind:#x}), and may only be 3, a polygon without Z, M or SRID"
            ),
            Self::Rings(rings) => {
                write!(f, "it has {rings} rings, and may have one and no holes")
            }
            Self::Points(points) => {
                write!(f, "its ring has {points} points, and may have 4 to 257, the last counted")
            }
            Self::Length { has, points } => {
                let needs = HEAD + POINT * *points as usize;
                write!(f, "it has {has} bytes, and with {points} points would have {needs}")
            }
            Self::Coordinate => {
                f.write_str("the coordinate is not finite, or not from -1000000 to 1000000")
            }
            Self::Open => f.write_str("the last point does not equal the first: close the ring"),
        }
    }
}
