//! Floats on a grid, from docs/SCOPE.md: a float is a fraction of two whole numbers,
//! its significand and a power of two, and so is units times it.

use crate::refusals::{coordinates, fits, lists, unless, Answer, Refusal, PATH};

/// Most units in 1.
pub const MOST_UNITS: u32 = 1_000_000;
/// The largest size of a number of the grid.
pub const LARGEST: u128 = 1_000_000;

/// The size of units times x, a coordinate, as a fraction. What is below 2^-20 in size
/// and not 0 is taken for 2^-100: neither is half a unit.
fn fraction(units: u32, x: f64) -> (u128, u128) {
    let bits = x.to_bits();
    let (exponent, low) = (bits >> 52 & 0x7ff, u128::from(bits & ((1 << 52) - 1)));
    let (significand, power) =
        if exponent == 0 { (low, -1074) } else { (low | 1 << 52, exponent as i32 - 1075) };
    let above = u128::from(units) * significand;
    if power < -100 {
        (above.min(1), 1 << 100)
    } else {
        (above, 1 << -power)
    }
}

/// Whether units times x, a finite number, exactly, is at most 1,000,000 in size. There is
/// a unit at least, so that a number which is no coordinate is off the grid.
pub fn is_on_grid(units: u32, x: f64) -> bool {
    x.abs() <= LARGEST as f64 && {
        let (above, below) = fraction(units, x);
        above <= LARGEST * below
    }
}

/// 3 unless there are 1 to 1,000,000 units.
pub(crate) fn is_grid(units: u32) -> Answer<()> {
    unless((1..=MOST_UNITS).contains(&units), Refusal::of(3))
}

/// 14 unless all numbers are on the grid.
pub(crate) fn on_grid(units: u32, numbers: &[f64]) -> Answer<()> {
    unless(numbers.iter().all(|&x| is_on_grid(units, x)), Refusal::of(14))
}

/// The whole number nearest to units times x, which is on the grid; of two that are as
/// near the one farther from zero.
pub fn nearest(units: u32, x: f64) -> i32 {
    let (above, below) = fraction(units, x);
    let down = above / below;
    let up = if 2 * (above - down * below) >= below { down + 1 } else { down };
    let size = up as i32;
    if x.is_sign_negative() {
        -size
    } else {
        size
    }
}

/// Whether units times x, which is on the grid, lies just between two whole numbers.
pub fn is_tie(units: u32, x: f64) -> bool {
    let (above, below) = fraction(units, x);
    2 * (above % below) == below
}

/// The points on a grid of so many units in 1, at the front of the room: how many
/// points they are. 1 and 9, then 2, 3, 14, 5.
pub fn to_grid(points: &[f64], units: u32, room: &mut [i32]) -> Answer<usize> {
    lists(&[(points, PATH)])?;
    coordinates(points)?;
    is_grid(units)?;
    on_grid(units, points)?;
    fits(points.len(), 1, room.len())?;
    for (&x, to) in points.iter().zip(room) {
        *to = nearest(units, x);
    }
    Ok(points.len() / 2)
}
