//! How to check by hand that nothing lay in between: the rules, an edge worked out, and
//! the numbers that they need, in units of the grid.

use crate::answers::one_move::OneMove;
use crate::plain;
use byrlygent::whole::{Line, Point, Shared};

/// A reason, with what it is the reason for.
pub struct ByHand<'a> {
    /// The move.
    of: &'a OneMove,
    /// The line of each edge of the carrier.
    lines: &'a [Line],
    /// The carrier's corners.
    carrier: &'a [Point],
    /// The disc's corners at the start of the move, and at its end.
    start: Vec<Point>,
    end: Vec<Point>,
}

impl<'a> ByHand<'a> {
    /// The reason of a move, where there is one.
    pub fn of(of: &'a OneMove) -> Option<Self> {
        let [start, end] = of.way();
        Some(Self { of, lines: of.lines()?, carrier: &of.walk.carrier.spots, start, end })
    }

    /// The disc's corners, at the start and at the end.
    fn way(&self) -> impl Iterator<Item = Point> + '_ {
        self.start.iter().chain(&self.end).copied()
    }

    /// The ends of an edge of the carrier.
    fn edge(&self, at: usize) -> [Point; 2] {
        [self.carrier[at], self.carrier[(at + 1) % self.carrier.len()]]
    }

    /// The lowest height of the disc's corners, and how many edges whose line rises come
    /// up through it and go down through it.
    fn balance(&self) -> (i32, usize, usize) {
        let low = self.way().map(|spot| spot.1).min().unwrap_or(0);
        let through = |a: Point, b: Point| a.1 <= low && low < b.1;
        let rising = || (0..self.lines.len()).filter(|&at| self.lines[at].p.1 < self.lines[at].q.1);
        let edges = || rising().map(|at| self.edge(at));
        let ups = edges().filter(|&[a, b]| through(a, b)).count();
        let downs = edges().filter(|&[a, b]| through(b, a)).count();
        (low, ups, downs)
    }

    /// The rules, with edge 0 and the balance worked out.
    pub fn rules(&self) -> [String; 5] {
        let (unit, line) = (self.of.walk.grid.told(), &self.lines[0]);
        let least = self.way().map(|v| side(line, v)).min().unwrap_or(0);
        let [first, second] = self.edge(0).map(|v| side(line, v));
        let (low, ups, downs) = self.balance();
        [
            format!(
                "All numbers are whole, in units of {unit}. For a line from p to q and a corner v \
                 work out (q.x - p.x) * (v.y - p.y) - (q.y - p.y) * (v.x - p.x): above 0 the \
                 corner lies left of the line, below 0 right of it, and 0 on it."
            ),
            "For each edge take its line. Every corner of the disc, at the start and at the end \
             of the move, must give 0 or more; both ends of the edge 0 or less; and p and q must \
             be two points."
                .to_string(),
            format!(
                "Worked out for edge 0, with the line {line}: the least of the disc's corners \
                 gives {least}, the ends of the edge give {first} and {second}."
            ),
            format!(
                "Then take the edges whose line rises, p.y below q.y. Of these as many must come \
                 up through the lowest height of the disc's corners, {low}, from it or below to \
                 above it, as go down through it. Here {ups} come up and {downs} go down."
            ),
            format!(
                "If all this is so, at no time of the move does a point of an edge lie inside the \
                 disc, and at every time each point inside the disc is outside the carrier: that \
                 is proved, whoever made the lines, of these numbers. {}",
                match self.of.walk.is_exact() {
                    true => "They are the drawing's own.",
                    false => "They are not the drawing's: of the drawing nothing is proved.",
                }
            ),
        ]
    }

    /// The numbers, with their headings.
    pub fn tables(&self) -> [(String, Vec<String>); 4] {
        let partings = self.of.partings();
        let lines = plain::count(partings.len(), "line", "lines");
        let edges = plain::count(self.lines.len(), "edge", "edges");
        [
            (
                format!("The reason, {lines} for {edges}: p.x p.y q.x q.y"),
                partings.iter().map(Shared::to_string).collect(),
            ),
            ("The carrier's corners: edge 0 leads from 0 to 1".into(), corners(self.carrier)),
            ("The disc's corners at the start".into(), corners(&self.start)),
            ("The disc's corners at the end".into(), corners(&self.end)),
        ]
    }
}

/// On which side of the line from p to q a point lies: above 0 left, below 0 right.
fn side(line: &Line, v: Point) -> i64 {
    let [px, py, qx, qy] = [line.p.0, line.p.1, line.q.0, line.q.1].map(i64::from);
    let [vx, vy] = [v.0, v.1].map(i64::from);
    (qx - px) * (vy - py) - (qy - py) * (vx - px)
}

/// The corners, a line for each, with its number.
fn corners(spots: &[Point]) -> Vec<String> {
    let line = |(at, spot): (usize, &Point)| format!("{at:>4}  {} {}", spot.0, spot.1);
    spots.iter().enumerate().map(line).collect()
}
