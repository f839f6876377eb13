//! What is said of the legs of a path, and of one by itself.

use crate::answers::legs::Legs;
use crate::plain;
use crate::told::Line;
use crate::walk::{Verdict, Walk};
use crate::Result;
use byrlygent::Point;

/// What is known of a leg.
pub fn verdict(walk: &Walk, verdict: Verdict, carrier: &[Point]) -> String {
    let grid = walk.grid.told();
    match verdict {
        Verdict::Clear => "clear: nothing lies in between".into(),
        Verdict::ClearOnGrid(most) => format!(
            "clear on the grid of {grid}, to which corners moved by up to {}: nothing is proved of \
             the drawing",
            plain::at_most(most)
        ),
        Verdict::InTheWay(at) => {
            format!("not clear on the grid of {grid}: {} is in the way", edge(carrier, at))
        }
        Verdict::Enclosed => {
            format!("not clear on the grid of {grid}: the disc lies within the carrier")
        }
        Verdict::NotKnown(at) => format!(
            "not known: on the grid of {grid} the disc is not convex, and {} is in the way of its \
             hull",
            edge(carrier, at)
        ),
    }
}

/// What a verdict rests on, where that is not proved.
pub fn basis(walk: &Walk, verdict: Verdict) -> Option<Line> {
    let of = match walk.is_exact() {
        true => "",
        false => "; it is said of the grid and not of the drawing",
    };
    let basis = match verdict {
        Verdict::Clear | Verdict::ClearOnGrid(_) => return None,
        Verdict::InTheWay(_) => {
            "not clear rests on a search for a line that parts the edge from the way, whose \
             completeness is tested and not proved"
        }
        Verdict::Enclosed => {
            "within rests on a count of the edges that the way looks down on, which is tested and \
             not proved"
        }
        Verdict::NotKnown(_) => {
            "in the way rests on a search whose completeness is tested and not proved, and a hull's \
             way that is not clear says nothing of the disc's"
        }
    };
    Some(Line::plain(format!("{basis}{of}")))
}

/// An edge, by its ends.
fn edge(carrier: &[Point], edge: usize) -> String {
    let [a, b] = [carrier[edge], carrier[(edge + 1) % carrier.len()]].map(plain::point);
    format!("edge {edge} of the carrier, from {a} to {b},")
}

/// What is known of the legs of a path, in one sentence.
pub fn sentence(legs: &Result<Legs>, carrier: &[Point]) -> String {
    let legs = match legs {
        Ok(legs) => legs,
        Err(fault) => return format!("whether the way is clear is not known: {fault}"),
    };
    let known = verdict(&legs.walk, legs.verdict, carrier);
    match legs.told() {
        Some((at, next)) => format!("the leg from point {at} to point {next}: {known}"),
        None => format!("{}, each {known}", plain::count(legs.asked, "leg", "legs")),
    }
}
