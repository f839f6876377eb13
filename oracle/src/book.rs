//! The outline book, written from docs/SCOPE.md alone: a plain writer, reader and
//! printer for the proved ones to be compared with. Nothing is clever here; the
//! least reading is found by laying all readings side by side.

use crate::answers::Point;
use crate::calls::points_of;
use crate::refusals::{self, unless, Answer, Refusal};
use crate::refusals::{LARGEST, LEAST_VERTICES, MOST_VERTICES};
use std::cmp::Ordering;

/// Fewest rings of a book.
pub const LEAST_RINGS: usize = 1;
/// Most rings of a book.
pub const MOST_RINGS: usize = 8;
/// Bytes of the shortest book: one ring of three vertices.
pub const LEAST_BYTES: usize = 68;
/// Bytes of the longest book: eight rings of 256 vertices.
pub const MOST_BYTES: usize = 32_872;

/// Bytes of a coordinate, of an entry, and of the two fields at the end.
const COORDINATE: usize = 8;
const ENTRY: usize = 12;
const END: usize = 8;
/// Bytes of a field.
const FIELD: usize = 4;

// ---------------------------------------------------------------------------
// Readings
// ---------------------------------------------------------------------------

/// What a book keeps of a coordinate: +0.0 of either zero, and another number as it
/// is.
pub fn kept(x: f64) -> f64 {
    if x == 0.0 {
        0.0
    } else {
        x
    }
}

/// The ring with its coordinates as a book keeps them.
fn kept_ring(ring: &[Point]) -> Vec<Point> {
    ring.iter().map(|p| (kept(p.0), kept(p.1))).collect()
}

/// All readings of a ring: from each vertex on, and from each vertex back.
pub fn readings(ring: &[Point]) -> Vec<Vec<Point>> {
    let n = ring.len();
    let on = |start: usize| (0..n).map(|i| ring[(start + i) % n]).collect();
    let back = |start: usize| (0..n).map(|i| ring[(start + n - i) % n]).collect();
    (0..n).flat_map(|start| [on(start), back(start)]).collect()
}

/// Numbers by size; there is no NaN among them.
fn number_order(a: f64, b: f64) -> Ordering {
    a.partial_cmp(&b).expect("neither is a NaN")
}

/// Points by x, then by y.
fn point_order(a: Point, b: Point) -> Ordering {
    number_order(a.0, b.0).then(number_order(a.1, b.1))
}

/// Readings by their first difference.
fn reading_order(a: &[Point], b: &[Point]) -> Ordering {
    let orders = a.iter().zip(b).map(|(p, q)| point_order(*p, *q));
    orders.into_iter().find(|order| order.is_ne()).unwrap_or(Ordering::Equal)
}

/// The least of a ring's readings.
pub fn least_reading(ring: &[Point]) -> Vec<Point> {
    let all = readings(ring).into_iter();
    all.min_by(|a, b| reading_order(a, b)).expect("a ring has a vertex")
}

// ---------------------------------------------------------------------------
// Writing
// ---------------------------------------------------------------------------

/// The bytes of a book that keeps these rings just as they are, each with its part.
pub fn layout(rings: &[Vec<Point>], parts: &[u32]) -> Vec<u8> {
    let (mut book, mut entries) = (Vec::new(), Vec::new());
    for (ring, &part) in rings.iter().zip(parts) {
        entries.extend([book.len() as u32, ring.len() as u32, part]);
        let bits = ring.iter().flat_map(|p| [p.0.to_bits(), p.1.to_bits()]);
        book.extend(bits.flat_map(u64::to_le_bytes));
    }
    entries.extend([rings.len() as u32, book.len() as u32]);
    book.extend(entries.into_iter().flat_map(u32::to_le_bytes));
    book
}

/// Parts for so many rings, where a case names none: numbers of all kinds, one
/// of them twice.
pub fn parts_of(rings: usize) -> Vec<u32> {
    let parts = [7, 0, u32::MAX, 7, 1 << 31, 256, 3, 0x0100_0003];
    parts.into_iter().cycle().take(rings).collect()
}

/// A file that keeps these rings as they are, least readings or not.
pub fn file_of(rings: &[Vec<f64>]) -> Vec<u8> {
    let points: Vec<_> = rings.iter().map(|ring| points_of(ring)).collect();
    layout(&points, &parts_of(rings.len()))
}

/// A file as books were before rings had parts: this one without them, so that
/// the entries have eight bytes each.
pub fn old_file(book: &[u8]) -> Vec<u8> {
    let (rings, entries) = end_of(book).expect("it is a book");
    let kept = (0..rings).map(|ring| entries + ENTRY * ring);
    let fields = kept.flat_map(|place| book[place..place + 2 * FIELD].to_vec());
    [book[..entries].to_vec(), fields.collect(), book[book.len() - END..].to_vec()].concat()
}

/// 8 and 9 of the number of rings, told at that number; then ring by ring 8 and 9
/// of its vertices, told at the ring; then 1, at the number of rings, unless the
/// list is as long as all vertices ask and there are as many parts as rings.
fn lengths(coordinates: &[f64], counts: &[u32], parts: &[u32]) -> Answer<()> {
    let rings = counts.len() as u64;
    refusals::entries(counts.len(), LEAST_RINGS, MOST_RINGS, rings)?;
    for (ring, &count) in (0..).zip(counts) {
        refusals::entries(count as usize, LEAST_VERTICES, MOST_VERTICES, ring)?;
    }
    let sum: u64 = counts.iter().map(|&count| u64::from(count)).sum();
    unless(coordinates.len() as u64 == 2 * sum, Refusal::at(1, rings))?;
    unless(parts.len() == counts.len(), Refusal::at(1, rings))
}

/// The list cut into rings of these lengths.
fn cut(points: &[Point], counts: &[u32]) -> Vec<Vec<Point>> {
    let mut rest = points;
    let mut rings = Vec::new();
    for &count in counts {
        let (ring, others) = rest.split_at(count as usize);
        rings.push(ring.to_vec());
        rest = others;
    }
    rings
}

/// Writes the book of these rings and parts to the front of the room; answers its
/// length.
pub fn write_book(
    coordinates: &[f64],
    counts: &[u32],
    parts: &[u32],
    room: &mut [u8],
) -> Answer<usize> {
    lengths(coordinates, counts, parts)?;
    refusals::coordinates(coordinates)?;
    let rings = cut(&points_of(coordinates), counts);
    let least = rings.iter().map(|ring| least_reading(&kept_ring(ring)));
    let book = layout(&least.collect::<Vec<_>>(), parts);
    unless(book.len() <= room.len(), Refusal::of(4))?;
    room[..book.len()].copy_from_slice(&book);
    Ok(book.len())
}

/// The book of these rings.
pub fn book_of(rings: &[Vec<f64>]) -> Vec<u8> {
    let counts: Vec<u32> = rings.iter().map(|ring| ring.len() as u32 / 2).collect();
    let (parts, mut room) = (parts_of(rings.len()), vec![0; MOST_BYTES]);
    let length = write_book(&rings.concat(), &counts, &parts, &mut room);
    room[..length.expect("these rings make a book")].to_vec()
}

/// The file with these bytes put in this place.
pub fn patched(file: &[u8], place: usize, bytes: &[u8]) -> Vec<u8> {
    let mut changed = file.to_vec();
    changed[place..place + bytes.len()].copy_from_slice(bytes);
    changed
}

// ---------------------------------------------------------------------------
// Reading
// ---------------------------------------------------------------------------

/// 7 with the fault in this place unless the check holds.
fn check(holds: bool, place: usize) -> Answer<()> {
    unless(holds, Refusal::at(7, place as u64))
}

/// The field in this place.
fn field(book: &[u8], place: usize) -> u64 {
    let bytes = [0, 1, 2, 3].map(|i| book[place + i]);
    u64::from(u32::from_le_bytes(bytes))
}

/// The coordinate in this place.
fn coordinate(book: &[u8], place: usize) -> f64 {
    let bytes = [0, 1, 2, 3, 4, 5, 6, 7].map(|i| book[place + i]);
    f64::from_bits(u64::from_le_bytes(bytes))
}

/// Checks the end; answers how many rings there are and where the entries begin.
pub fn end_of(book: &[u8]) -> Answer<(usize, usize)> {
    let length = book.len();
    check((LEAST_BYTES..=MOST_BYTES).contains(&length), 0)?;
    let rings = field(book, length - END);
    check((LEAST_RINGS as u64..=MOST_RINGS as u64).contains(&rings), length - END)?;
    let entries = field(book, length - FIELD);
    check(entries + ENTRY as u64 * rings + END as u64 == length as u64, length - FIELD)?;
    Ok((rings as usize, entries as usize))
}

/// Checks the entries, and that the rings end where these begin; answers the
/// vertices of each ring and its part, which is any number.
fn entries_of(book: &[u8], rings: usize, entries: usize) -> Answer<(Vec<u32>, Vec<u32>)> {
    let (mut counts, mut parts) = (Vec::new(), Vec::new());
    let mut before = 0;
    for place in (0..rings).map(|ring| entries + ENTRY * ring) {
        check(field(book, place) == before, place)?;
        let vertices = field(book, place + FIELD);
        let allowed = LEAST_VERTICES as u64..=MOST_VERTICES as u64;
        check(allowed.contains(&vertices), place + FIELD)?;
        counts.push(vertices as u32);
        parts.push(field(book, place + 2 * FIELD) as u32);
        before += 2 * COORDINATE as u64 * vertices;
    }
    check(before == entries as u64, book.len() - FIELD)?;
    Ok((counts, parts))
}

/// Whether a book can hold this number: within the bounds, and as it is kept.
fn storable(number: f64) -> bool {
    number.abs() <= LARGEST && number.to_bits() == kept(number).to_bits()
}

/// Checks the book; answers its coordinates, the vertices of each ring and its
/// part.
fn checked(book: &[u8]) -> Answer<(Vec<f64>, Vec<u32>, Vec<u32>)> {
    let (rings, entries) = end_of(book)?;
    let (counts, parts) = entries_of(book, rings, entries)?;
    let mut coordinates = Vec::new();
    for place in (0..entries).step_by(COORDINATE) {
        let number = coordinate(book, place);
        check(storable(number), place)?;
        coordinates.push(number);
    }
    let mut place = 0;
    for ring in cut(&points_of(&coordinates), &counts) {
        check(reading_order(&ring, &least_reading(&ring)).is_eq(), place)?;
        place += 2 * COORDINATE * ring.len();
    }
    Ok((coordinates, counts, parts))
}

/// Hands out the rings of a book as stored, to the front of each room; answers
/// how many rings there are.
pub fn read_book(
    book: &[u8],
    coordinates: &mut [f64],
    counts: &mut [u32],
    parts: &mut [u32],
) -> Answer<usize> {
    let (stored, vertices, numbers) = checked(book)?;
    unless(stored.len() <= coordinates.len(), Refusal::of(4))?;
    unless(vertices.len() <= counts.len(), Refusal::of(4))?;
    unless(numbers.len() <= parts.len(), Refusal::of(4))?;
    coordinates[..stored.len()].copy_from_slice(&stored);
    counts[..vertices.len()].copy_from_slice(&vertices);
    parts[..numbers.len()].copy_from_slice(&numbers);
    Ok(vertices.len())
}

// ---------------------------------------------------------------------------
// Printing
// ---------------------------------------------------------------------------

/// What the ring printer prints for this book.
pub fn printed(book: &[u8]) -> String {
    let (coordinates, counts, parts) = match checked(book) {
        Ok(read) => read,
        Err(refusal) => return format!("{refusal}\n"),
    };
    let mut text = format!("rings {}\n", counts.len());
    for (i, ring) in cut(&points_of(&coordinates), &counts).iter().enumerate() {
        text += &format!("ring {i} vertices {} part {}\n", ring.len(), parts[i]);
        for (x, y) in ring {
            text += &format!("{:016x} {:016x}\n", x.to_bits(), y.to_bits());
        }
    }
    text
}
