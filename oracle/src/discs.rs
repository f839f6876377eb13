//! Discs, from docs/SCOPE.md: the entries of the table reckoned anew from its rule in
//! 128-bit whole numbers, quarter by quarter, and each vertex from its entry.

use crate::refusals::{coordinates, finite, unless, Answer, Refusal};
use std::iter::successors;

/// The entries lie on a circle of this radius.
const UNIT: i128 = 1 << 30;

/// Most vertices of a quarter.
pub const MOST_QUARTER: u64 = 64;

/// Point k of the first quarter.
fn entry(k: i128) -> (i128, i128) {
    let over = 65_536 + k * k;
    (UNIT * (65_536 - k * k) / over, UNIT * 512 * k / over)
}

/// The entries of a disc with m vertices in a quarter, each quarter the one before
/// turned to the left.
pub fn entries(m: u64) -> Vec<(i128, i128)> {
    let m = i128::from(m);
    let first: Vec<_> = (0..m).map(|j| entry(j * 256 / m)).collect();
    let turned = |quarter: &Vec<(i128, i128)>| quarter.iter().map(|&(x, y)| (-y, x)).collect();
    successors(Some(first), |quarter| Some(turned(quarter))).take(4).flatten().collect()
}

/// A coordinate of a vertex, from that of the centre.
fn reach(centre: f64, radius: f64, entry: i128) -> f64 {
    let part = entry as f64 / UNIT as f64;
    let out = radius * part;
    centre + out
}

/// The disc's vertices, whatever is lent.
fn disc(centre: (f64, f64), radius: f64, m: u64) -> Vec<f64> {
    let vertex = |(x, y)| [reach(centre.0, radius, x), reach(centre.1, radius, y)];
    entries(m).into_iter().flat_map(vertex).collect()
}

/// Writes a disc of 4m vertices to the front of the room; answers how many they are.
pub fn make_disc(centre: (f64, f64), radius: f64, m: u64, room: &mut [f64]) -> Answer<usize> {
    unless(m.is_power_of_two() && m <= MOST_QUARTER, Refusal::of(12))?;
    finite(&[radius, centre.0, centre.1])?;
    unless(radius > 0.0, Refusal::of(2))?;
    let disc = disc(centre, radius, m);
    coordinates(&disc)?;
    unless(disc.len() <= room.len(), Refusal::of(4))?;
    room[..disc.len()].copy_from_slice(&disc);
    Ok(disc.len() / 2)
}
