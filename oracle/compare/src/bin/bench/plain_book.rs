//! The outline book as one would write it in Rust for use: the least reading by
//! comparing readings in place, nothing allocated. `oracle::book` is written to be
//! read, not to be fast.

use oracle::refusals::LARGEST;
use std::cmp::Ordering;

/// A reading of a ring: where it starts, and whether it goes back.
type Reading = (usize, bool);

/// What a book keeps of a coordinate: the sum of either zero and +0.0 is +0.0.
fn kept(x: f64) -> f64 {
    x + 0.0
}

/// The i-th vertex of a reading, as a book keeps it.
fn vertex(ring: &[f64], (start, back): Reading, i: usize) -> (f64, f64) {
    let n = ring.len() / 2;
    let place = if back { start + n - i } else { start + i };
    let place = if place >= n { place - n } else { place };
    (kept(ring[2 * place]), kept(ring[2 * place + 1]))
}

/// The order of two readings: the first difference, by x, then y.
fn order(ring: &[f64], a: Reading, b: Reading) -> Ordering {
    let vertices = 0..ring.len() / 2;
    let differ = |i| {
        let ((ax, ay), (bx, by)) = (vertex(ring, a, i), vertex(ring, b, i));
        ax.total_cmp(&bx).then(ay.total_cmp(&by))
    };
    vertices.map(differ).find(|order| order.is_ne()).unwrap_or(Ordering::Equal)
}

/// All readings of a ring of n vertices.
fn readings(n: usize) -> impl Iterator<Item = Reading> {
    (0..n).flat_map(|start| [(start, false), (start, true)])
}

/// The least reading of a ring.
fn least(ring: &[f64]) -> Reading {
    let all = readings(ring.len() / 2);
    all.min_by(|&a, &b| order(ring, a, b)).expect("a ring has a vertex")
}

/// Writes these bytes in this place; answers the next.
fn put(room: &mut [u8], place: usize, bytes: &[u8]) -> usize {
    room[place..place + bytes.len()].copy_from_slice(bytes);
    place + bytes.len()
}

/// Writes the book of these rings and parts; answers its length.
pub fn write(coordinates: &[f64], counts: &[u32], parts: &[u32], room: &mut [u8]) -> usize {
    let entries = 8 * coordinates.len();
    let (mut place, mut entry, mut rest) = (0, entries, coordinates);
    for (&count, &part) in counts.iter().zip(parts) {
        let (ring, others) = rest.split_at(2 * count as usize);
        assert!(ring.iter().all(|x| x.abs() <= LARGEST));
        entry = put(room, entry, &(place as u32).to_le_bytes());
        entry = put(room, entry, &count.to_le_bytes());
        entry = put(room, entry, &part.to_le_bytes());
        let reading = least(ring);
        for i in 0..count as usize {
            let (x, y) = vertex(ring, reading, i);
            place = put(room, place, &x.to_le_bytes());
            place = put(room, place, &y.to_le_bytes());
        }
        rest = others;
    }
    entry = put(room, entry, &(counts.len() as u32).to_le_bytes());
    put(room, entry, &(entries as u32).to_le_bytes())
}

/// The field in this place.
fn field(book: &[u8], place: usize) -> usize {
    let bytes = book[place..place + 4].try_into().expect("four bytes");
    u32::from_le_bytes(bytes) as usize
}

/// Hands out the rings of a book; answers how many there are, nothing for a book
/// that is wrong.
pub fn read(
    book: &[u8],
    coordinates: &mut [f64],
    counts: &mut [u32],
    parts: &mut [u32],
) -> Option<usize> {
    let length = (68..=32_872).contains(&book.len()).then_some(book.len())?;
    let rings = Some(field(book, length - 8)).filter(|rings| (1..=8).contains(rings))?;
    let entries = Some(field(book, length - 4)).filter(|at| at + 12 * rings + 8 == length)?;
    let mut before = 0;
    for (i, count) in counts[..rings].iter_mut().enumerate() {
        let entry = entries + 12 * i;
        let (offset, vertices) = (field(book, entry), field(book, entry + 4));
        parts[i] = field(book, entry + 8) as u32;
        *count = (offset == before && (3..=256).contains(&vertices)).then_some(vertices as u32)?;
        before += 16 * vertices;
    }
    (before == entries).then_some(())?;
    for (number, bytes) in coordinates.iter_mut().zip(book[..entries].chunks_exact(8)) {
        let stored = f64::from_le_bytes(bytes.try_into().expect("eight bytes"));
        let storable = stored.abs() <= LARGEST && stored.to_bits() == kept(stored).to_bits();
        *number = storable.then_some(stored)?;
    }
    let mut rest = &coordinates[..entries / 8];
    for &count in &counts[..rings] {
        let (ring, others) = rest.split_at(2 * count as usize);
        let mut others_of = readings(count as usize);
        others_of.all(|other| order(ring, other, (0, false)).is_ge()).then_some(())?;
        rest = others;
    }
    Some(rings)
}
