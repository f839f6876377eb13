//! A path that another program traced: its first fault by the rule, and what is so of its legs.

use super::legs::Legs;
use crate::drawing::Ring;
use crate::grid::Grid;
use crate::Result;
use byrlygent::nfp_sliding::Fault as First;
use byrlygent::Point;

/// A path, and what comes of it.
pub struct Check {
    /// The ring that stays.
    pub carrier: Vec<Point>,
    /// The path.
    pub path: Vec<Point>,
    /// Whether a closing repeat was left off.
    pub opened: bool,
    /// The first fault by the rule.
    pub fault: First,
    /// Its legs, or why nothing is known of them.
    pub legs: Result<Legs>,
}

impl Check {
    /// What comes of a path whose first fault by the rule is told; a grid that is asked for must
    /// fit.
    pub fn of(
        carrier: &Ring,
        disc: &Ring,
        path: Ring,
        fault: First,
        grid: Option<Grid>,
    ) -> Result<Self> {
        let legs = Legs::of(grid, [carrier, disc, &path], true);
        let legs = match grid {
            Some(_) => Ok(legs?),
            None => legs,
        };
        let carrier = carrier.points.clone();
        Ok(Self { carrier, path: path.points, opened: path.opened, fault, legs })
    }

    /// Whether the rule accepts it, and it is known of the drawing that nothing lies in between.
    pub fn is_well(&self) -> bool {
        self.fault == First::None && self.legs.as_ref().is_ok_and(|legs| legs.verdict.is_clear())
    }
}
