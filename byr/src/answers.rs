//! What the jobs answer, as values: what was asked, what came of it, and whether all is well.

pub mod check;
pub mod legs;
pub mod one_move;
pub mod outline;
pub mod same;
pub mod shift;
pub mod slide;

use byrlygent::Point;

/// The ring moved to a position, as the rule has it: each sum is rounded.
pub fn moved(ring: &[Point], (x, y): Point) -> Vec<Point> {
    ring.iter().map(|&(rx, ry)| (rx + x, ry + y)).collect()
}
