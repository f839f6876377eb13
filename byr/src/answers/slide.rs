//! A disc slid round its carrier by the given rule, and what is so of its legs.

use super::legs::Legs;
use crate::drawing::{Numbers, Ring};
use crate::grid::Grid;
use crate::Result;
use byrlygent::nfp_sliding::{compute_nfp_sliding, Nfp, SlidingNfpConfig, StopReason};
use byrlygent::Point;

/// A slide, and what is known of its legs.
pub struct Slide {
    /// The ring that stays.
    pub carrier: Vec<Point>,
    /// The ring that moves, as drawn.
    pub disc: Vec<Point>,
    /// The settings of the trace.
    pub settings: SlidingNfpConfig,
    /// The trace.
    pub nfp: Nfp,
    /// Its legs, or why nothing is known of them.
    pub legs: Result<Legs>,
    /// Whether it used up its passes at a standstill: the most that there may be lead just as
    /// far, or if these were allowed, half of them.
    pub stands: bool,
    /// Whether the path goes round the carrier: round each of its corners, as a point inside of
    /// the disc sees it.
    pub goes_round: bool,
}

/// The most passes that can be allowed.
pub const MOST_PASSES: usize = 10_000;

impl Slide {
    /// The slide of a disc round its carrier that was traced. A grid that is asked for must fit;
    /// where none is, it may be that nothing is known of the legs.
    pub fn of(
        carrier: &Ring,
        disc: &Ring,
        settings: SlidingNfpConfig,
        nfp: Nfp,
        grid: Option<Grid>,
    ) -> Result<Self> {
        let closed = nfp.stop == StopReason::Closed;
        let points = nfp.polygons[0].clone();
        let path = Ring { points, part: None, opened: false, numbers: Numbers::Floats };
        let legs = Legs::of(grid, [carrier, disc, &path], closed);
        let legs = match grid {
            Some(_) => Ok(legs?),
            None => legs,
        };
        let stands = nfp.stop == StopReason::Passes && {
            let other = match settings.max_iterations < MOST_PASSES {
                true => MOST_PASSES,
                false => MOST_PASSES / 2,
            };
            let other = SlidingNfpConfig { max_iterations: other, ..settings };
            compute_nfp_sliding(&carrier.points, &disc.points, &other)
                .is_ok_and(|other| other.polygons == nfp.polygons)
        };
        let (carrier, disc) = (carrier.points.clone(), disc.points.clone());
        let goes_round = closed && goes_round(&carrier, &disc, &path.points);
        Ok(Self { carrier, disc, settings, nfp, legs, stands, goes_round })
    }

    /// Its path.
    pub fn path(&self) -> &[Point] {
        &self.nfp.polygons[0]
    }

    /// Whether it ended back at its start.
    pub fn is_closed(&self) -> bool {
        self.nfp.stop == StopReason::Closed
    }

    /// Whether it came round, and it is known of the drawing that nothing lies in between.
    pub fn is_well(&self) -> bool {
        self.goes_round && self.legs.as_ref().is_ok_and(|legs| legs.verdict.is_clear())
    }
}

/// Whether a closed path of the disc goes round each corner of the carrier, as a point inside of
/// the disc sees it.
fn goes_round(carrier: &[Point], disc: &[Point], path: &[Point]) -> bool {
    let inside = inside(disc);
    carrier.iter().all(|c| turns(path, (c.0 - inside.0, c.1 - inside.1)) != 0)
}

/// A point inside of a ring that does not cross itself: in the middle of the longest part of it
/// at a height between two of its corners.
fn inside(ring: &[Point]) -> Point {
    let mut heights: Vec<f64> = ring.iter().map(|p| p.1).collect();
    heights.sort_by(f64::total_cmp);
    heights.dedup();
    let middle = heights.len() / 2;
    let (low, high) = (heights[middle.saturating_sub(1)], heights[middle]);
    let y = low + (high - low) / 2.0;
    let edges = (0..ring.len()).map(|at| (ring[at], ring[(at + 1) % ring.len()]));
    let crossing = |(a, b): (Point, Point)| {
        ((a.1 <= y) != (b.1 <= y)).then(|| a.0 + (b.0 - a.0) * ((y - a.1) / (b.1 - a.1)))
    };
    let mut xs: Vec<f64> = edges.filter_map(crossing).collect();
    xs.sort_by(f64::total_cmp);
    let parts = xs.chunks_exact(2).map(|part| (part[1] - part[0], part[0]));
    let longest = parts.max_by(|a, b| a.0.total_cmp(&b.0));
    longest.map_or(ring[0], |(wide, x)| (x + wide / 2.0, y))
}

/// How often a closed path turns round a point.
fn turns(path: &[Point], (x, y): Point) -> i32 {
    let legs = (0..path.len()).map(|at| (path[at], path[(at + 1) % path.len()]));
    let crossed = legs.filter(|(a, b)| (a.1 <= y) != (b.1 <= y));
    crossed
        .map(|(a, b)| {
            let left = (b.0 - a.0) * (y - a.1) - (b.1 - a.1) * (x - a.0);
            i32::from(b.1 > y && left > 0.0) - i32::from(b.1 <= y && left < 0.0)
        })
        .sum()
}

#[cfg(test)]
mod tests {
    use super::{goes_round, inside, turns};

    #[test]
    fn a_path_to_and_fro_goes_round_nothing() {
        let plate = [(0.0, 0.0), (2.0, 0.0), (2.0, 1.0), (0.0, 1.0)];
        let disc = [(-2.0, -2.0), (0.0, -2.0), (1.0, -1.0)];
        let fro = [(-1.0, 1.0), (1.0, 1.0), (-1.0, 1.0), (1.0, 1.0)];
        assert!(!goes_round(&plate, &disc, &fro));
        let square = [(0.0, 0.0), (1.0, 0.0), (1.0, 1.0), (0.0, 1.0)];
        let round = [(-1.0, -1.0), (2.0, -1.0), (2.0, 1.0), (-1.0, 1.0)];
        assert!(goes_round(&plate, &square, &round));
        let back: Vec<(f64, f64)> = round.iter().rev().copied().collect();
        assert_eq!([turns(&round, (0.5, 0.5)), turns(&back, (0.5, 0.5))], [1, -1]);
        assert_eq!(turns(&round, (5.0, 0.5)), 0);
    }

    #[test]
    fn a_point_inside_of_an_ell_is_inside() {
        let ell = [(0.0, 0.0), (20.0, 0.0), (20.0, 5.0), (5.0, 5.0), (5.0, 20.0), (0.0, 20.0)];
        assert_eq!(turns(&ell, inside(&ell)), 1);
    }
}
