//! Polygons in the well-known binary of OGC Simple Features: a plain reader and
//! writer, byte by byte, for the proved ones to be compared with.

use crate::refusals::{self, unless, Answer, Refusal, LARGEST, POLYGON};
use crate::shapes::closed;

/// Bytes before the first point: the byte order, the type, the rings, the points.
pub const HEAD: usize = 13;
/// Bytes of a point.
pub const POINT: usize = 16;
/// Fewest points of a file's ring, the closing one among them.
pub const LEAST_POINTS: u32 = 4;
/// Most points of a file's ring, the closing one among them.
pub const MOST_POINTS: u32 = 257;

/// Where the fields of the head stand.
pub const TYPE: usize = 1;
pub const RINGS: usize = 5;
pub const POINTS: usize = 9;

/// The type of a polygon.
const IS_POLYGON: u32 = 3;
/// Bytes of a coordinate.
const COORDINATE: usize = 8;

/// The order of a number's bytes in a file.
#[derive(Debug, Clone, Copy, PartialEq, Eq)]
pub enum Order {
    Big,
    Little,
}

impl Order {
    /// The order that a file's first byte says, if it says one.
    fn said(byte: u8) -> Option<Self> {
        match byte {
            0 => Some(Self::Big),
            1 => Some(Self::Little),
            _ => None,
        }
    }

    /// The byte that says it.
    pub fn byte(self) -> u8 {
        match self {
            Self::Big => 0,
            Self::Little => 1,
        }
    }

    /// The bytes of a field.
    pub fn field(self, value: u32) -> [u8; 4] {
        match self {
            Self::Big => value.to_be_bytes(),
            Self::Little => value.to_le_bytes(),
        }
    }

    /// The bytes of a coordinate.
    pub fn number(self, number: f64) -> [u8; 8] {
        match self {
            Self::Big => number.to_be_bytes(),
            Self::Little => number.to_le_bytes(),
        }
    }

    /// The field in this place.
    fn field_at(self, file: &[u8], place: usize) -> u32 {
        let bytes = [0, 1, 2, 3].map(|i| file[place + i]);
        match self {
            Self::Big => u32::from_be_bytes(bytes),
            Self::Little => u32::from_le_bytes(bytes),
        }
    }

    /// The coordinate in this place.
    fn number_at(self, file: &[u8], place: usize) -> f64 {
        let bytes = [0, 1, 2, 3, 4, 5, 6, 7].map(|i| file[place + i]);
        match self {
            Self::Big => f64::from_be_bytes(bytes),
            Self::Little => f64::from_le_bytes(bytes),
        }
    }
}

/// The file of one ring that has these points as they are, closed or not.
pub fn file_of(order: Order, points: &[f64]) -> Vec<u8> {
    let mut file = vec![order.byte()];
    for field in [IS_POLYGON, 1, points.len() as u32 / 2] {
        file.extend(order.field(field));
    }
    file.extend(points.iter().flat_map(|&number| order.number(number)));
    file
}

/// Writes the file of this ring, little-endian and closed by its first vertex, to
/// the front of the room; answers its length.
pub fn write_wkb(ring: &[f64], room: &mut [u8]) -> Answer<usize> {
    refusals::lists(&[(ring, POLYGON)])?;
    refusals::coordinates(ring)?;
    let file = file_of(Order::Little, &closed(ring));
    unless(file.len() <= room.len(), Refusal::of(4))?;
    room[..file.len()].copy_from_slice(&file);
    Ok(file.len())
}

/// 10 with the fault in this place unless the check holds.
fn check(holds: bool, place: usize) -> Answer<()> {
    unless(holds, Refusal::at(10, place as u64))
}

/// Checks the head and the length; answers the byte order and how many points
/// there are.
fn head(file: &[u8]) -> Answer<(Order, usize)> {
    check(file.len() >= HEAD, 0)?;
    let order = Order::said(file[0]).ok_or(Refusal::at(10, 0))?;
    check(order.field_at(file, TYPE) == IS_POLYGON, TYPE)?;
    check(order.field_at(file, RINGS) == 1, RINGS)?;
    let points = order.field_at(file, POINTS);
    check((LEAST_POINTS..=MOST_POINTS).contains(&points), POINTS)?;
    let points = points as usize;
    check(file.len() == HEAD + POINT * points, 0)?;
    Ok((order, points))
}

/// Checks the file; answers its ring, opened.
fn checked(file: &[u8]) -> Answer<Vec<f64>> {
    let (order, points) = head(file)?;
    let mut ring = Vec::new();
    for place in (HEAD..file.len()).step_by(COORDINATE) {
        let number = order.number_at(file, place);
        check(number.abs() <= LARGEST, place)?;
        ring.push(number);
    }
    let closing = ring.split_off(2 * (points - 1));
    check(closing[0] == ring[0] && closing[1] == ring[1], HEAD + POINT * (points - 1))?;
    Ok(ring)
}

/// Hands out the ring of a file, opened, to the front of the room; answers how
/// many vertices it has.
pub fn read_wkb(file: &[u8], room: &mut [f64]) -> Answer<usize> {
    let ring = checked(file)?;
    unless(ring.len() <= room.len(), Refusal::of(4))?;
    room[..ring.len()].copy_from_slice(&ring);
    Ok(ring.len() / 2)
}
