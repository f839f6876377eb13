//! A carrier, a disc and its positions on one grid, and whether nothing lies in between on each
//! leg. What is found is a fact about the grid, and about the drawing where nothing moved to
//! get there.

use crate::grid::{at_most, Grid, OnGrid};
use crate::Result;
use byrlygent::whole::{clear_move, Ground, Move, Point};

/// The carrier, the disc as drawn and its positions, on one grid.
pub struct Walk {
    /// The grid.
    pub grid: Grid,
    /// The ring that stays.
    pub carrier: OnGrid,
    /// The ring that moves, as drawn.
    pub disc: OnGrid,
    /// Its positions.
    pub path: OnGrid,
    /// Whether the disc is convex there, so that it is not only its hull that is asked about.
    pub convex: bool,
    /// The corners that are asked about: the disc's, or those of its hull.
    asked: Vec<Point>,
}

/// What is known of a leg.
#[derive(Debug, Clone, Copy, PartialEq)]
pub enum Verdict {
    /// Nothing lies in between, in the drawing itself.
    Clear,
    /// Nothing does on the grid, to which corners moved by up to so much.
    ClearOnGrid(f64),
    /// On the grid this edge is parted from the way by no line that the search tries.
    InTheWay(usize),
    /// On the grid the way lies within the ring that stays.
    Enclosed,
    /// On the grid this edge is so of the way of the hull of a disc that is not convex.
    NotKnown(usize),
}

impl Verdict {
    /// Whether it is proved of the drawing that nothing lies in between.
    pub fn is_clear(self) -> bool {
        self == Self::Clear
    }

    /// Whether something is in the way, as far as the search and the grid can tell.
    pub fn is_blocked(self) -> bool {
        matches!(self, Self::InTheWay(_) | Self::Enclosed)
    }

    /// The edge that is told.
    pub fn edge(self) -> Option<usize> {
        match self {
            Self::InTheWay(edge) | Self::NotKnown(edge) => Some(edge),
            _ => None,
        }
    }
}

impl Walk {
    /// All of it on a grid, on which no ring may collapse.
    pub fn on(grid: Grid, carrier: OnGrid, disc: OnGrid, path: OnGrid) -> Result<Self> {
        if carrier.is_moved() && carrier.is_flat()? {
            return Err(grid.too_flat("carrier"));
        }
        if disc.is_flat()? {
            return Err(grid.too_flat("disc"));
        }
        let convex = disc.is_convex()?;
        let asked = if convex { disc.spots.clone() } else { hull(&disc.spots) };
        Ok(Self { grid, carrier, disc, path, convex, asked })
    }

    /// Whether all was on the grid already.
    pub fn is_exact(&self) -> bool {
        ![&self.carrier, &self.disc, &self.path].iter().any(|on| on.is_moved())
    }

    /// The farthest that a corner moved to get to the grid, of the disc's at every position.
    fn farthest(&self) -> f64 {
        let rounded = self.disc.rounded + self.path.rounded;
        let at = |&(x, y): &(f64, f64)| {
            self.disc.off.iter().map(move |off| at_most((off.0 + x, off.1 + y), rounded))
        };
        self.path.off.iter().flat_map(at).fold(self.carrier.farthest(), f64::max)
    }

    /// The disc's corners at a position.
    pub fn placed(&self, at: usize) -> Vec<Point> {
        moved(&self.disc.spots, self.path.spots[at])
    }

    /// What the library finds of the leg from a position to the next. A reason for the hull's way
    /// is one for the disc's: its corners lie in the hull.
    pub fn leg(&self, at: usize) -> Result<Move> {
        let next = (at + 1) % self.path.spots.len();
        let (from, to) = (self.path.spots[at], self.path.spots[next]);
        let start = moved(&self.asked, from);
        self.grid.holds(start.iter().chain(&moved(&self.asked, to)))?;
        Ok(clear_move(&self.carrier.spots, &start, (to.0 - from.0, to.1 - from.1))?)
    }

    /// What is known of a leg of which this was found.
    pub fn verdict(&self, found: Ground) -> Verdict {
        match found {
            Ground::Clear if self.is_exact() => Verdict::Clear,
            Ground::Clear => Verdict::ClearOnGrid(self.farthest()),
            Ground::Edge(edge) if self.convex => Verdict::InTheWay(edge),
            Ground::Edge(edge) => Verdict::NotKnown(edge),
            Ground::Enclosed => Verdict::Enclosed,
        }
    }
}

/// The corners with this much added.
fn moved(spots: &[Point], (x, y): Point) -> Vec<Point> {
    spots.iter().map(|spot| (spot.0 + x, spot.1 + y)).collect()
}

/// The hull of some corners that do not all lie on a line, counter-clockwise.
fn hull(spots: &[Point]) -> Vec<Point> {
    let mut sorted = spots.to_vec();
    sorted.sort_unstable();
    sorted.dedup();
    let half = |spots: &mut dyn Iterator<Item = Point>| {
        let mut chain: Vec<Point> = Vec::new();
        for spot in spots {
            while let [.., a, b] = chain[..] {
                if turns_left(a, b, spot) {
                    break;
                }
                chain.pop();
            }
            chain.push(spot);
        }
        chain.pop();
        chain
    };
    let mut ring = half(&mut sorted.iter().copied());
    ring.extend(half(&mut sorted.iter().rev().copied()));
    ring
}

/// Whether three corners turn to the left.
fn turns_left(a: Point, b: Point, c: Point) -> bool {
    let [ax, ay, bx, by, cx, cy] = [a.0, a.1, b.0, b.1, c.0, c.1].map(i64::from);
    (bx - ax) * (cy - ay) > (by - ay) * (cx - ax)
}

#[cfg(test)]
mod tests {
    use super::hull;

    #[test]
    fn a_hull_has_no_corner_inside_or_on_an_edge() {
        let ell = [(0, 0), (20, 0), (20, 5), (5, 5), (5, 20), (0, 20), (0, 10)];
        assert_eq!(hull(&ell), [(0, 0), (20, 0), (20, 5), (5, 20), (0, 20)]);
        assert_eq!(hull(&[(2, 2), (0, 4), (2, 0), (4, 1)]), [(0, 4), (2, 0), (4, 1)]);
    }
}
