//! What is said of a grid, and of how far points moved to get there.

use crate::asked::Asked;
use crate::grid::OnGrid;
use crate::plain;
use crate::told::Line;
use crate::walk::Walk;

/// How wide a line of moved corners is at most.
const WIDE: usize = 90;

/// How much is told of what moved: each corner of rings that have no more than so many, and
/// whether each point of a path; of all others the farthest alone.
#[derive(Debug, Clone, Copy, PartialEq, Eq)]
pub struct Telling {
    corners: usize,
    path: bool,
}

impl Telling {
    /// What these words ask for: all with --moved, and each corner of a ring of up to 64 where
    /// a grid is named.
    pub fn asked(asked: &Asked) -> Self {
        let corners = match (asked.has("moved"), asked.has("grid")) {
            (true, _) => 256,
            (false, true) => 64,
            (false, false) => 0,
        };
        Self { corners, path: asked.has("moved") }
    }

    /// Each corner of every ring, and each point of a path where these words ask for it.
    pub fn each_corner(asked: &Asked) -> Self {
        Self { corners: 256, path: asked.has("moved") }
    }
}

/// What is said of the grid of a path.
pub fn path(walk: &Walk, telling: Telling) -> Vec<Line> {
    let path = format!("path, {}", summary(&walk.path, "point", "points"));
    let mut lines = vec![grid(walk, "corners and points", &path)];
    lines.extend(each(
        &[("carrier's corners", &walk.carrier), ("disc's corners", &walk.disc)],
        Some(("path's points", &walk.path)),
        telling,
    ));
    lines
}

/// What is said of the grid of one move.
pub fn one_move(walk: &Walk, telling: Telling) -> Vec<Line> {
    let mut off = walk.path.moved().map(|by| match by > 0.0 {
        true => format!("is off by {}", plain::size(by)),
        false => "is kept".to_string(),
    });
    let [start, end] = [off.next(), off.next()].map(Option::unwrap_or_default);
    let mut lines = vec![grid(walk, "corners", &format!("the start {start}, the end {end}"))];
    let rings = [("carrier's corners", &walk.carrier), ("disc's corners", &walk.disc)];
    lines.extend(each(&rings, None, telling));
    lines
}

/// What is said of the grid, with the farthest that each list moved.
fn grid(walk: &Walk, all: &str, positions: &str) -> Line {
    let unit = walk.grid.told();
    Line::plain(match walk.is_exact() {
        true => format!("all {all} are on the grid of {unit} already: none moved"),
        false => format!(
            "on the grid of {unit}: carrier, {}; disc, {}; {positions} (to three digits)",
            summary(&walk.carrier, "corner", "corners"),
            summary(&walk.disc, "corner", "corners"),
        ),
    })
}

/// How far these moved.
fn summary(on: &OnGrid, one: &str, several: &str) -> String {
    let moved = on.moved().filter(|&by| by > 0.0).count();
    if moved == 0 {
        return format!("no {one} moved");
    }
    let most = on.farthest();
    let at = on.moved().position(|by| by == most).unwrap_or(0);
    let all = plain::count(on.spots.len(), one, several);
    format!("{moved} of {all} moved, {one} {at} farthest, by {}", plain::size(most))
}

/// How far each of these moved, as much as is to be told, and how to ask for what is not.
fn each(rings: &[(&str, &OnGrid)], path: Option<(&str, &OnGrid)>, telling: Telling) -> Vec<Line> {
    let rings = rings.iter().map(|ring| (ring, ring.1.spots.len() <= telling.corners));
    let all = rings.chain(path.iter().map(|path| (path, telling.path)));
    let (mut lines, mut left) = (Vec::new(), false);
    for ((several, on), told) in all {
        match told {
            true => lines.extend(listed(several, on)),
            false => left |= on.is_moved(),
        }
    }
    lines.extend(left.then(|| Line::hint("(--moved tells how far each of them moved)")));
    lines
}

/// How far each that moved did, some on a line.
fn listed(several: &str, on: &OnGrid) -> Vec<Line> {
    let moved = on.moved().enumerate().filter(|(_, by)| *by > 0.0);
    let mut lines: Vec<String> = Vec::new();
    for (at, by) in moved {
        let one = format!("{at} by {}", plain::size(by));
        match lines.last_mut() {
            Some(line) if line.len() + one.len() < WIDE => *line += &format!(", {one}"),
            _ => lines.push(format!("{several} {one}")),
        }
    }
    lines.into_iter().map(Line::detail).collect()
}
