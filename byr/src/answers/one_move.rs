//! Is a move clear? What the rule says, and what is so.

use super::moved;
use crate::drawing::{Numbers, Ring};
use crate::grid::Grid;
use crate::walk::{Verdict, Walk};
use crate::Result;
use byrlygent::nfp_sliding::{explain_collision, CollisionEvent, ContactType, Explanation, Ground};
use byrlygent::whole::{self, Line, Move, Shared};
use byrlygent::Point;

/// A move, and both answers.
pub struct OneMove {
    /// The ring that stays.
    pub carrier: Vec<Point>,
    /// The ring that moves, where the move starts, as the rule has it.
    pub start: Vec<Point>,
    /// How far the disc as drawn is moved before.
    pub at: Point,
    /// The move.
    pub by: Point,
    /// What the rule says.
    pub rule: Explanation,
    /// All of it on the grid, the move as a leg between two positions.
    pub walk: Walk,
    /// What the library finds there.
    found: Move,
}

/// A way that is asked about.
pub struct Way {
    /// How far the disc as drawn is moved before.
    pub at: Point,
    /// How far it goes on.
    pub by: Point,
    /// What the numbers of both are.
    pub numbers: Numbers,
}

impl OneMove {
    /// What comes of a move of the disc, moved to a position before, past the carrier.
    pub fn of(
        carrier: &Ring,
        disc: &Ring,
        Way { at, by, numbers }: Way,
        tolerance: f64,
        grid: Option<Grid>,
    ) -> Result<Self> {
        let (stays, start) = (carrier.points.clone(), moved(&disc.points, at));
        let rule = explain_collision(&stays, &start, by, tolerance)?;
        let end = moved(&start, by);
        let all = || [&stays[..], &disc.points, &start, &end, &[at, by]].concat();
        let grid = grid.unwrap_or_else(|| Grid::fitting(&all()));
        let path = grid.put_move(at, by, numbers)?;
        let walk = Walk::on(grid, grid.put_ring(carrier)?, grid.put_ring(disc)?, path)?;
        let found = walk.leg(0)?;
        Ok(Self { carrier: stays, start, at, by, rule, walk, found })
    }

    /// Whether the rule says clear.
    pub fn is_clear_by_rule(&self) -> bool {
        !matches!(self.rule.ground, Ground::Hit { .. })
    }

    /// What is known of the move.
    pub fn verdict(&self) -> Verdict {
        self.walk.verdict(self.found.ground())
    }

    /// Whether it is known of the drawing that nothing lies in between, and the rule says so too.
    pub fn is_well(&self) -> bool {
        self.is_clear_by_rule() && self.verdict().is_clear()
    }

    /// The disc at the end of the move, as the rule has it.
    pub fn end(&self) -> Vec<Point> {
        moved(&self.start, self.by)
    }

    /// The line of each edge of the carrier, where there is a reason.
    pub fn lines(&self) -> Option<&[Line]> {
        match &self.found {
            Move::Clear(reason) => Some(&reason.lines),
            _ => None,
        }
    }

    /// The lines of the reason, each once with the edges that it parts from the way.
    pub fn partings(&self) -> Vec<Shared> {
        match &self.found {
            Move::Clear(reason) => reason.shared(),
            _ => Vec::new(),
        }
    }

    /// The disc's corners on the grid, at the start and at the end.
    pub fn way(&self) -> [Vec<whole::Point>; 2] {
        [0, 1].map(|at| self.walk.placed(at))
    }

    /// Where a hit of the rule's is.
    pub fn met(&self, hit: &CollisionEvent) -> Point {
        let part = hit.distance / self.by.0.hypot(self.by.1);
        let (x, y) = self.start[hit.orbiting_idx];
        match hit.contact_type {
            ContactType::VertexEdge => (x + self.by.0 * part, y + self.by.1 * part),
            _ => self.carrier[hit.stationary_idx],
        }
    }
}
