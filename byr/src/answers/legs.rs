//! The legs of a path, each asked whether nothing lies in between.

use crate::drawing::Ring;
use crate::grid::Grid;
use crate::walk::{Verdict, Walk};
use crate::Result;
use byrlygent::whole::Ground;
use byrlygent::Point;

/// The legs of a path, up to the first that is not clear on the grid.
pub struct Legs {
    /// The carrier, the disc and the path on their grid.
    pub walk: Walk,
    /// How many legs were asked about.
    pub asked: usize,
    /// What is known of the last of them, and of all before it where it is clear.
    pub verdict: Verdict,
}

impl Legs {
    /// The legs on the grid that is asked for, or the finest that fits, the one from the last
    /// point to the first too where the path is closed.
    pub fn of(grid: Option<Grid>, [carrier, disc, path]: [&Ring; 3], closed: bool) -> Result<Self> {
        let all = || places(&carrier.points, &disc.points, &path.points);
        let grid = grid.unwrap_or_else(|| Grid::fitting(&all()));
        let [on, moved, positions] = [carrier, disc, path].map(|ring| grid.put_ring(ring));
        let walk = Walk::on(grid, on?, moved?, positions?)?;
        let legs = if closed { path.points.len() } else { path.points.len() - 1 };
        let mut found = Ground::Clear;
        let mut asked = 0;
        while asked < legs && found == Ground::Clear {
            found = walk.leg(asked)?.ground();
            asked += 1;
        }
        let verdict = walk.verdict(found);
        Ok(Self { walk, asked, verdict })
    }

    /// The leg that is told, by the points that it leads from and to, where one is not clear on
    /// the grid.
    pub fn told(&self) -> Option<(usize, usize)> {
        match self.verdict {
            Verdict::Clear | Verdict::ClearOnGrid(_) => None,
            _ => Some((self.asked - 1, self.asked % self.walk.path.spots.len())),
        }
    }
}

/// The carrier's corners, the disc's, the path's points, and the disc's corners at each.
fn places(carrier: &[Point], disc: &[Point], path: &[Point]) -> Vec<Point> {
    let at = |&(x, y): &Point| disc.iter().map(move |&(dx, dy)| (dx + x, dy + y));
    carrier.iter().chain(disc).chain(path).copied().chain(path.iter().flat_map(at)).collect()
}
