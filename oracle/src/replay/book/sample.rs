//! Seeded cases of writing and reading, for a long run.

use super::{counts, length, Case};
use crate::answers::Point;
use crate::book::{book_of, end_of, file_of, kept, old_file, readings, MOST_BYTES, MOST_RINGS};
use crate::calls::points_of;
use crate::replay::polygons::near;
use crate::replay::{edge, patch, with};
use crate::seeded::Seeded;
use crate::shapes::seeded_ring;

/// Most bytes of a file or a room in the list, and most counts.
const MOST_FILE: usize = 33_000;
const MOST_COUNTS: usize = 16;

/// Numbers that a count or a field is set to.
const FIELDS: [u32; 14] =
    [0, 1, 2, 3, 4, 8, 9, 16, 256, 257, 0x0001_0003, 0x0100_0001, 1 << 31, u32::MAX];

/// How many vertices a ring gets: few mostly, up to the most at times.
fn vertices(seeded: &mut Seeded) -> usize {
    match seeded.below(60) {
        0 => 256,
        1 => 3 + seeded.below(254),
        2..8 => 3 + seeded.below(30),
        _ => 3 + seeded.below(6),
    }
}

/// One of few points, both zeros among their coordinates.
fn few_points(seeded: &mut Seeded) -> Point {
    let numbers = [-0.0, 0.0, 1.0, -1.0];
    (seeded.pick(&numbers), seeded.pick(&numbers))
}

/// A ring whose least reading takes some looking for.
fn hard_ring(seeded: &mut Seeded, n: usize) -> Vec<Point> {
    let mut some: Vec<Point> = (0..n).map(|_| few_points(seeded)).collect();
    let period = 1 + seeded.below(n);
    let change = seeded.below(n);
    match seeded.below(4) {
        0 => some,
        1 => (0..n).map(|i| some[i % period]).collect(),
        2 => {
            let kept = some[change];
            some = (0..n).map(|i| some[i % period]).collect();
            some[change] = kept;
            some
        }
        // The same either way round.
        _ => (0..n).map(|i| some[i.min(n - 1 - i)]).collect(),
    }
}

/// A ring of seeded points, or one that is hard to read.
fn ring(seeded: &mut Seeded) -> Vec<f64> {
    let n = vertices(seeded);
    if seeded.below(3) == 0 {
        return seeded_ring(seeded, n);
    }
    hard_ring(seeded, n).into_iter().flat_map(|p| [p.0, p.1]).collect()
}

/// One to eight rings, one or two mostly.
fn rings(seeded: &mut Seeded) -> Vec<Vec<f64>> {
    let n = match seeded.below(8) {
        0..4 => 1,
        4..6 => 2,
        _ => 1 + seeded.below(MOST_RINGS),
    };
    (0..n).map(|_| ring(seeded)).collect()
}

/// The ring in one of its readings.
fn turned(seeded: &mut Seeded, ring: &[f64]) -> Vec<f64> {
    let all = readings(&points_of(ring));
    all[seeded.below(all.len())].iter().flat_map(|p| [p.0, p.1]).collect()
}

/// A part: one of few numbers, or any.
fn part(seeded: &mut Seeded) -> u32 {
    if seeded.below(2) == 0 {
        return seeded.pick(&FIELDS);
    }
    seeded.bits() as u32
}

/// Something wrong, or only odd, about what is lent for writing.
fn disturb(
    seeded: &mut Seeded,
    coordinates: &mut Vec<f64>,
    counts: &mut Vec<u32>,
    parts: &mut Vec<u32>,
) {
    let place = seeded.below(counts.len().max(1));
    match seeded.below(13) {
        0 => {
            let cut = seeded.below(coordinates.len() + 1);
            coordinates.truncate(cut);
        }
        1 => coordinates.extend((0..1 + seeded.below(4)).map(|i| i as f64)),
        2 if !counts.is_empty() => counts[place] = seeded.pick(&FIELDS),
        3 if !counts.is_empty() => {
            counts[place] = counts[place].wrapping_add(1 << seeded.below(32))
        }
        4 if !counts.is_empty() => counts[place] = counts[place].wrapping_sub(1),
        5 => counts.push(seeded.pick(&FIELDS)),
        6 => counts.truncate(place),
        7 => parts.push(part(seeded)),
        8 => parts.truncate(place),
        _ if !coordinates.is_empty() => {
            let at = seeded.below(coordinates.len());
            *coordinates = with(coordinates, at, edge(seeded));
        }
        _ => counts.clear(),
    }
}

/// A case of writing, disturbed up to twice in half of them.
fn writing(seeded: &mut Seeded) -> Case {
    let rings = rings(seeded);
    let (mut coordinates, mut counts) = (rings.concat(), counts(&rings));
    let mut parts: Vec<u32> = rings.iter().map(|_| part(seeded)).collect();
    let room = near(seeded, length(&rings));
    for _ in 0..[0, 0, 1, 2][seeded.below(4)] {
        disturb(seeded, &mut coordinates, &mut counts, &mut parts);
    }
    Case::Write { coordinates, counts, parts, room: room.min(MOST_FILE) }
}

/// The points of all rings cut otherwise: one ring a vertex shorter, the next
/// one longer.
fn resplit(seeded: &mut Seeded, rings: &[Vec<f64>]) -> Vec<Vec<f64>> {
    let mut cut = rings.to_vec();
    let place = seeded.below(cut.len());
    let next = (place + 1) % cut.len();
    let last = cut[place].split_off(rings[place].len() - 2);
    cut[next] = [last, cut[next].clone()].concat();
    cut
}

/// Exchanges the vertices of the file that begin with these two places.
fn exchange(file: &mut [u8], a: usize, b: usize) {
    let fitting = file.len().saturating_sub(a.max(b)).min(16);
    (0..fitting).for_each(|i| file.swap(a + i, b + i));
}

/// Whether the file's end is that of a book, so that it has an old form.
fn old_too(file: &[u8]) -> bool {
    end_of(file).is_ok()
}

/// Damages the file in one of several ways.
fn damage(seeded: &mut Seeded, file: &mut Vec<u8>) {
    let length = file.len().max(1);
    let place = seeded.below(length);
    // A field among the last twenty-six.
    let tail = length.saturating_sub(4 * (1 + seeded.below(26)));
    match seeded.below(10) {
        0 if !file.is_empty() => file[place] ^= 1 << seeded.below(8),
        1 => patch(file, place, &[seeded.bits() as u8]),
        2 => file.truncate(place),
        3 => file.extend((0..1 + seeded.below(20)).map(|i| i as u8)),
        4 => patch(file, tail, &seeded.pick(&FIELDS).to_le_bytes()),
        5 => patch(file, tail, &[seeded.below(260) as u8]),
        6 => patch(file, place / 8 * 8, &edge(seeded).to_le_bytes()),
        7 => {
            let other = seeded.below(length);
            exchange(file, place / 16 * 16, other / 16 * 16);
        }
        8 if old_too(file) => *file = old_file(file),
        _ if seeded.below(50) == 0 => file.resize(MOST_BYTES - 4 + seeded.below(8), 0),
        _ => patch(file, length.saturating_sub(8), &[seeded.below(11) as u8]),
    }
    file.truncate(MOST_FILE);
}

/// The rings, half of the time with their coordinates as a book keeps them: a file of
/// the others seldom gets past its zeros.
fn some_kept(seeded: &mut Seeded, rings: Vec<Vec<f64>>) -> Vec<Vec<f64>> {
    if seeded.below(2) == 0 {
        return rings;
    }
    rings.into_iter().map(|ring| ring.into_iter().map(kept).collect()).collect()
}

/// A case of reading: a book, or one that was damaged, cut otherwise or keeps a
/// ring in another reading.
fn reading(seeded: &mut Seeded) -> Case {
    let rings = rings(seeded);
    let rings = some_kept(seeded, rings);
    let mut file = book_of(&rings);
    match seeded.below(6) {
        0 => file = file_of(&rings),
        1 => file = file_of(&resplit(seeded, &rings)),
        2 => file = file_of(&rings.iter().map(|ring| turned(seeded, ring)).collect::<Vec<_>>()),
        3 => {}
        _ => (0..1 + seeded.below(2)).for_each(|_| damage(seeded, &mut file)),
    }
    let coordinates = near(seeded, rings.concat().len());
    let counts = near(seeded, rings.len()).min(MOST_COUNTS);
    let parts = near(seeded, rings.len()).min(MOST_COUNTS);
    Case::Read { file, coordinates, counts, parts }
}

/// A seeded case.
pub fn case(seeded: &mut Seeded) -> Case {
    if seeded.below(2) == 0 {
        writing(seeded)
    } else {
        reading(seeded)
    }
}
