//! Cases for reading a book: files that are right, and damaged ones.

use super::lent::{grid_sample, longest, special_rings, triangles};
use super::Case;
use crate::book::{book_of, file_of, kept, old_file, patched, readings, LEAST_BYTES};
use crate::calls::points_of;
use crate::replay::{EDGES, NANS};

/// The smallest book, of docs/SCOPE.md's ring.
fn small() -> Vec<u8> {
    book_of(&[vec![4.0, 0.0, 0.0, 3.0, 0.0, 0.0]])
}

/// A book of two rings, the second with a repeated corner; 144 bytes, of which
/// the entries begin at 112.
fn double() -> Vec<u8> {
    book_of(&[vec![4.0, 0.0, 0.0, 3.0, 0.0, 0.0], vec![0.0, 0.0, 1.0, 0.5, 0.0, 0.0, 0.0, 1.0]])
}

/// Every byte of the small books changed to several values.
fn flips() -> Vec<Case> {
    let mut all = Vec::new();
    let file = small();
    for (place, &byte) in file.iter().enumerate() {
        for value in [byte ^ 1, byte ^ 0x80, byte.wrapping_add(16), 0, 0xff] {
            all.push(Case::reading(&patched(&file, place, &[value]), 6, 1));
        }
    }
    let file = double();
    for (place, &byte) in file.iter().enumerate() {
        let rooms = if place % 9 == 0 { (14, 2) } else { (2, 1) };
        for value in [byte ^ 1, byte ^ 0x40, 0xff] {
            all.push(Case::reading(&patched(&file, place, &[value]), rooms.0, rooms.1));
        }
    }
    all
}

/// The small books cut off after every byte, cut off before every byte, and
/// made longer at either end.
fn cuts() -> Vec<Case> {
    let mut all = Vec::new();
    for file in [small(), double()] {
        let length = file.len();
        all.extend((0..=length).map(|cut| Case::reading(&file[..cut], 3, 1)));
        let late = length - LEAST_BYTES..length;
        all.extend(late.step_by(5).map(|cut| Case::reading(&file[cut..], 3, 1)));
        for more in [1, 2, 3, 4, 7, 8, 9, 15, 16, 17, 24, 48] {
            all.push(Case::reading(&[&file[..], &vec![0; more]].concat(), 3, 1));
            all.push(Case::reading(&[&vec![0; more], &file[..]].concat(), 3, 1));
        }
        all.push(Case::reading(&[&file[..], &file[..]].concat(), 12, 2));
    }
    all
}

/// Fields and coordinates of the double book to put out of order.
fn patches() -> Vec<(usize, Vec<u8>)> {
    let fields: [(usize, &[u32]); 7] = [
        (136, &[0, 1, 3, 9, 0x0100_0002]),
        (140, &[0, 104, 120, 112 | 1 << 31]),
        (112, &[16, u32::MAX]),
        (116, &[2, 4, 257, 0x0001_0003]),
        (120, &[u32::MAX]),
        (124, &[0, 32, 64]),
        (128, &[2, 3, 5, 257, 0x0100_0004]),
    ];
    let numbers: [(usize, &[f64]); 4] = [
        (0, &[f64::NAN, 1.0, -0.0]),
        (40, &[f64::INFINITY, -1.0, -0.0]),
        (48, &[0.5, f64::NEG_INFINITY, -0.0]),
        (104, &[1_000_000.0_f64.next_up(), 0.0, -0.0]),
    ];
    let mut all = Vec::new();
    for (place, values) in fields {
        all.extend(values.iter().map(|value| (place, value.to_le_bytes().to_vec())));
    }
    for (place, values) in numbers {
        all.extend(values.iter().map(|value| (place, value.to_le_bytes().to_vec())));
    }
    all
}

/// The double book with each of these alone and each two of them.
fn faults() -> Vec<Case> {
    let file = double();
    let patches = patches();
    let mut all = Vec::new();
    for (i, (place, bytes)) in patches.iter().enumerate() {
        let once = patched(&file, *place, bytes);
        all.push(Case::reading(&once, 14, 2));
        for (other, more) in &patches[i + 1..] {
            if other != place {
                all.push(Case::reading(&patched(&once, *other, more), 1, 1));
            }
        }
    }
    all
}

/// Books of every number of rings as they were before rings had parts: of
/// triangles, of longer rings, and the longest.
fn old_books() -> Vec<Case> {
    let mut all = Vec::new();
    for rings in 1..=8 {
        let squares = vec![vec![0.0, 0.0, 0.0, 1.0, 1.0, 1.0, 1.0, 0.0]; rings];
        for book in [book_of(&triangles(rings)), book_of(&squares)] {
            all.push(Case::reading(&old_file(&book), 2, 1));
        }
    }
    all.push(Case::reading(&old_file(&book_of(&longest())), 0, 0));
    all
}

/// Entries that would begin before the first byte, or just at it.
fn too_many_entries() -> Vec<Case> {
    let mut all = Vec::new();
    for length in 68..81_usize {
        for rings in [1, 5, 6, 7, 8_u32] {
            let offset = (length as u32).wrapping_sub(8 + 12 * rings);
            let end = [rings.to_le_bytes(), offset.to_le_bytes()].concat();
            all.push(Case::reading(&patched(&vec![0; length], length - 8, &end), 1, 1));
        }
    }
    all
}

/// Edge numbers and NaNs in every coordinate of the smallest book.
fn numbers() -> Vec<Case> {
    let mut all = Vec::new();
    let file = small();
    let patterns = EDGES.map(f64::to_bits).into_iter().chain(NANS);
    for bits in patterns {
        for place in (0..48).step_by(8) {
            all.push(Case::reading(&patched(&file, place, &bits.to_le_bytes()), 6, 1));
        }
    }
    all
}

/// Every reading of the special rings, and some rings of the grid: as they are, and
/// with their coordinates as a book keeps them.
fn as_they_are() -> Vec<Case> {
    let mut all = Vec::new();
    for ring in special_rings() {
        for reading in readings(&points_of(&ring)) {
            let reading: Vec<f64> = reading.iter().flat_map(|p| [p.0, p.1]).collect();
            let kept = reading.iter().map(|&x| kept(x)).collect();
            all.extend([reading, kept].map(|it| Case::reading(&file_of(&[it]), ring.len(), 1)));
        }
    }
    for ring in grid_sample() {
        let book = book_of(std::slice::from_ref(&ring));
        all.push(Case::reading(&book, ring.len(), 1));
        let kept = ring.iter().map(|&x| kept(x)).collect();
        all.extend([ring, kept].map(|it| Case::reading(&file_of(&[it]), 2, 1)));
    }
    all
}

/// One to eight rings with rooms that are empty, short, exact and longer.
fn rooms() -> Vec<Case> {
    let mut all = Vec::new();
    for rings in 1..=8 {
        let book = book_of(&triangles(rings));
        let numbers = 6 * rings;
        let lengths = [
            (numbers, rings),
            (numbers - 1, rings),
            (numbers, rings - 1),
            (numbers + 1, rings + 1),
            (0, rings),
            (numbers, 0),
            (numbers + 8, 16),
            (0, 0),
        ];
        let some = if rings < 3 || rings == 8 { 8 } else { 3 };
        all.extend(lengths[..some].iter().map(|room| Case::reading(&book, room.0, room.1)));
        // Room for the counts, and less or more for the parts.
        for parts in [0, rings - 1, rings + 1] {
            let file = book.clone();
            all.push(Case::Read { file, coordinates: numbers, counts: rings, parts });
        }
        all.push(Case::Read { file: book, coordinates: numbers, counts: 0, parts: rings });
    }
    // Nine rings laid out like a book's.
    all.push(Case::reading(&file_of(&triangles(9)), 54, 9));
    all
}

/// The longest book, read and without room; one byte too long; rings of 2, 256
/// and 257 vertices.
fn lengths() -> Vec<Case> {
    let book = book_of(&longest());
    let mut all = vec![Case::reading(&book, 4096, 8), Case::reading(&book, 0, 8)];
    all.push(Case::reading(&[&book[..], &[0]].concat(), 0, 0));
    all.push(Case::reading(&file_of(&[vec![2.5; 512]]), 512, 1));
    all.push(Case::reading(&file_of(&[vec![2.5; 514]]), 2, 1));
    for n in [0, 1, 2] {
        all.push(Case::reading(&file_of(&[vec![2.5; 2 * n], vec![2.5; 8]]), 12, 2));
        all.push(Case::reading(&file_of(&[vec![2.5; 8], vec![2.5; 2 * n]]), 12, 2));
    }
    all
}

/// All cases of reading.
pub fn cases() -> Vec<Case> {
    let mut all = flips();
    all.extend(cuts());
    all.extend(faults());
    all.extend(too_many_entries());
    all.extend(old_books());
    all.extend(numbers());
    all.extend(as_they_are());
    all.extend(rooms());
    all.extend(lengths());
    all
}
