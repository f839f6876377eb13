//! Which places of a path a shift inspects, from docs/SCOPE.md: the path is laid
//! out as a list, and turned until the start stands first.

use crate::refusals::{unless, Answer, Refusal, MOST_POINTS};

/// Most places of a path.
pub const MOST_PLACES: u64 = MOST_POINTS as u64;
/// Most places that a shift inspects.
pub const MOST_INSPECTED: u64 = 64;

/// What a shift answers: how many places it wrote, and the following start.
#[derive(Debug, Clone, Copy, PartialEq, Eq)]
pub struct Shift {
    pub places: usize,
    pub following: u64,
}

/// The next k places of a path of n from the start on, or all where n is smaller, at
/// the front of the room; 13 for n, k or the start, then 5.
pub fn next_places(n: u64, k: u64, start: u64, room: &mut [u64]) -> Answer<Shift> {
    unless((1..=MOST_PLACES).contains(&n), Refusal::of(13))?;
    unless((1..=MOST_INSPECTED).contains(&k), Refusal::of(13))?;
    unless(start < n, Refusal::of(13))?;
    let mut path: Vec<u64> = (0..n).collect();
    path.rotate_left(start as usize);
    let places = path.len().min(k as usize);
    let written = room.get_mut(..places).ok_or(Refusal::of(5))?;
    written.copy_from_slice(&path[..places]);
    path.rotate_left(places);
    Ok(Shift { places, following: path[0] })
}
