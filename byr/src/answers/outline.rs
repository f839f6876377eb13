//! What is so of an outline: how large it is, which way round it goes, whether it is mended.
//! A drawing's numbers are known to a digit of their floats only, so its area is known but for
//! what that digit makes of it.

use crate::Result;
use byrlygent::polygon_ops::{is_simple_polygon, mend_ring};
use byrlygent::{Point, Refusal};

/// An outline as it is measured.
pub struct Outline {
    /// Its area, below 0 where it goes round clockwise.
    pub area: f64,
    /// By how much that may be off at most: by nothing where all is whole.
    pub off: f64,
    /// How many of its points only repeat their neighbour.
    pub repeats: usize,
    /// Whether fewer than three would be left without these.
    pub collapsed: bool,
    /// Whether edges other than neighbours meet.
    pub crosses: bool,
}

impl Outline {
    /// This ring, measured.
    pub fn of(ring: &[Point]) -> Result<Self> {
        let (repeats, collapsed) = match mend_ring(ring) {
            Ok(mended) => (mended.dropped.len(), false),
            Err(Refusal::Remaining) => (0, true),
            Err(refusal) => return Err(refusal.into()),
        };
        let crosses = repeats == 0 && !collapsed && !is_simple_polygon(ring)?;
        let (area, off) = area(ring);
        Ok(Self { area, off, repeats, collapsed, crosses })
    }

    /// Whether something is to be mended.
    pub fn warns(&self) -> bool {
        self.repeats > 0 || self.collapsed || self.crosses
    }
}

/// The area of a ring, summed up from its first corner, and by how much it may be off.
fn area(ring: &[Point]) -> (f64, f64) {
    let (x, y) = ring[0];
    let from_first: Vec<Point> = ring.iter().map(|p| (p.0 - x, p.1 - y)).collect();
    let n = from_first.len();
    let pairs = || (0..n).map(|at| (from_first[at], from_first[(at + 1) % n]));
    let twice: f64 = pairs().map(|(a, b)| a.0 * b.1 - b.0 * a.1).sum();
    // Of whole numbers up to a million each step is exact.
    if ring.iter().all(|&(x, y)| x == x.trunc() && y == y.trunc()) {
        return (twice / 2.0, 0.0);
    }
    let most = ring.iter().flat_map(|p| [p.0.abs(), p.1.abs()]).fold(0.0, f64::max);
    let round: f64 = pairs().map(|(a, b)| (a.0 - b.0).abs() + (a.1 - b.1).abs()).sum();
    let wide = from_first.iter().map(|p| p.0.abs().max(p.1.abs())).fold(0.0, f64::max);
    // A corner is off by the last digit of the largest coordinate, and each step of the sum by
    // one of its own.
    let digit = most.next_up() - most;
    let off = 4.0 * (round * digit + n as f64 * f64::EPSILON * wide * wide) + f64::MIN_POSITIVE;
    (twice / 2.0, off)
}

#[cfg(test)]
mod tests {
    use super::area;

    #[test]
    fn an_area_far_from_the_origin_is_known() {
        let square = [(999_000.0, 999_000.0), (999_000.25, 999_000.0), (999_000.25, 999_000.25)];
        let (told, off) = area(&square);
        assert!((told - 0.03125).abs() <= off && off < 1e-6, "{told} {off}");
        let line = [(0.1, 0.0), (0.2, 0.1), (0.3, 0.2)];
        let (told, off) = area(&line);
        assert!(told.abs() < off);
        assert_eq!(area(&[(0.0, 0.0), (4.0, 0.0), (0.0, 3.0)]), (6.0, 0.0));
    }
}
