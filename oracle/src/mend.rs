//! A ring with repeated points, mended, as docs/SCOPE.md has it: first the runs are
//! taken together, then the vertices at the end that equal the first are taken off.

use crate::answers::Point;
use crate::calls::{points_of, put};
use crate::refusals::{self, fits, lists, unless, Answer, Refusal, LEAST_VERTICES, MENDABLE};

/// Why a vertex was dropped: as a later one of a run.
pub const RUN: u64 = 0;
/// Why a vertex was dropped: at the end, equal to the first.
pub const TRAILING: u64 = 1;

/// A vertex with its index.
type Numbered = (usize, Point);

/// The vertices that remain, and those that do not with why, each with its index.
fn parted(ring: &[Point]) -> (Vec<Numbered>, Vec<(Numbered, u64)>) {
    let all: Vec<Numbered> = ring.iter().copied().enumerate().collect();
    let mut remaining = all.clone();
    remaining.dedup_by(|later, first| later.1 == first.1);
    let mut trailing = Vec::new();
    while remaining.len() > 1 && remaining[0].1 == remaining[remaining.len() - 1].1 {
        trailing.extend(remaining.pop().map(|vertex| vertex.0));
    }
    let remains = |vertex: &Numbered| remaining.iter().any(|other| other.0 == vertex.0);
    let why = |vertex: &Numbered| if trailing.contains(&vertex.0) { TRAILING } else { RUN };
    let gone = all.iter().filter(|vertex| !remains(vertex)).map(|vertex| (*vertex, why(vertex)));
    let gone = gone.collect();
    (remaining, gone)
}

/// Writes the mended ring, and of each dropped vertex its index and why, and its
/// coordinates; answers how many remain and how many were dropped.
pub fn mend_ring(
    ring: &[f64],
    room: &mut [f64],
    dropped: &mut [u64],
    points: &mut [f64],
) -> Answer<(usize, usize)> {
    lists(&[(ring, MENDABLE)])?;
    refusals::coordinates(ring)?;
    let (remaining, gone) = parted(&points_of(ring));
    unless(remaining.len() >= LEAST_VERTICES, Refusal::of(11))?;
    fits(remaining.len(), 2, room.len())?;
    fits(gone.len(), 2, dropped.len())?;
    fits(gone.len(), 2, points.len())?;
    put(room, &remaining.iter().map(|vertex| vertex.1).collect::<Vec<_>>());
    put(points, &gone.iter().map(|(vertex, _)| vertex.1).collect::<Vec<_>>());
    for (entry, (vertex, why)) in dropped.chunks_exact_mut(2).zip(&gone) {
        entry.copy_from_slice(&[vertex.0 as u64, *why]);
    }
    Ok((remaining.len(), gone.len()))
}
