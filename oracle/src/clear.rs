//! Whole moves and the reason that nothing lay in between, written down from
//! docs/SCOPE.md: for each stationary edge a line that parts it from the way, and the
//! balance. The search tries its lines in their order; the check judges any reason,
//! whoever made it. `exact` decides the same without a line, by times and places of
//! crossing.

pub mod exact;

use crate::refusals::{fits, lists, unless, Answer, Kind, Refusal, CHECKED, POLYGON};
use crate::whole::{within, Spot, MOST};

/// A point whose coordinates are sums of lent ones.
pub type Place = (i64, i64);

/// A line, by two points on it: the way lies to its left, the edge to its right.
pub type Line = [Place; 2];

/// What comes of a move, or of a lent reason.
#[derive(Debug, Clone, Copy, PartialEq, Eq)]
pub enum Ground {
    /// Every edge is parted from the way, and the way is not enclosed.
    Clear,
    /// No line of the search, or not the lent one, parts this edge: the first such.
    Edge(usize),
    /// Every edge is parted, and the lines do not balance.
    Enclosed,
}

/// docs/SCOPE.md's number of a ground, and the edge, 0 where there is none.
pub fn numbered(ground: Ground) -> (u32, u64) {
    match ground {
        Ground::Clear => (0, 0),
        Ground::Edge(edge) => (1, edge as u64),
        Ground::Enclosed => (2, 0),
    }
}

/// The points of a list of numbers.
pub(crate) fn places(list: &[i32]) -> Vec<Place> {
    list.chunks_exact(2).map(|p| (i64::from(p[0]), i64::from(p[1]))).collect()
}

/// The points, each moved by this much.
pub(crate) fn moved(points: &[Place], by: Place) -> Vec<Place> {
    points.iter().map(|&(x, y)| (x + by.0, y + by.1)).collect()
}

/// The edges of a ring; the last leads to the first corner.
pub(crate) fn edges(ring: &[Place]) -> impl Iterator<Item = [Place; 2]> + '_ {
    let next = ring.iter().cycle().skip(1);
    ring.iter().zip(next).map(|(&a, &b)| [a, b])
}

// ---------------------------------------------------------------------------
// The rules
// ---------------------------------------------------------------------------

/// The orbiting polygon's corners at the start and at the end of a move.
pub(crate) struct Way {
    pub(crate) start: Vec<Place>,
    pub(crate) end: Vec<Place>,
}

impl Way {
    /// The way of a polygon that stands here, by this move.
    fn of(start: &[Place], by: Place) -> Self {
        Self { start: start.to_vec(), end: moved(start, by) }
    }

    /// All corners, at the start and at the end.
    fn corners(&self) -> impl Iterator<Item = Place> + '_ {
        self.start.iter().chain(&self.end).copied()
    }

    /// The lowest height.
    fn lowest(&self) -> i64 {
        self.corners().map(|(_, y)| y).min().expect("a polygon has corners")
    }

    /// The sides of its box, each with the way on its left: right, top, left, bottom.
    fn sides(&self) -> [Line; 4] {
        let (mut low, mut high) = (self.start[0], self.start[0]);
        for (x, y) in self.corners() {
            low = (low.0.min(x), low.1.min(y));
            high = (high.0.max(x), high.1.max(y));
        }
        [
            [(high.0, 0), (high.0, 1)],
            [(1, high.1), (0, high.1)],
            [(low.0, 1), (low.0, 0)],
            [(0, low.1), (1, low.1)],
        ]
    }
}

/// Which side of the line p to q the point lies on: above 0 left, below 0 right, 0 on it.
fn side([p, q]: Line, v: Place) -> i64 {
    (q.0 - p.0) * (v.1 - p.1) - (q.1 - p.1) * (v.0 - p.0)
}

/// Whether the line is one, with the whole way left of it or on it and both ends of the
/// edge right of it or on it.
fn parts(line: Line, way: &Way, edge: [Place; 2]) -> bool {
    line[0] != line[1]
        && way.corners().all(|v| side(line, v) >= 0)
        && edge.iter().all(|&end| side(line, end) <= 0)
}

/// Whether, of the edges whose line rises, as many come up through the way's lowest
/// height as go down.
fn balanced(stationary: &[Place], way: &Way, lines: &[Line]) -> bool {
    let low = way.lowest();
    let rising = edges(stationary).zip(lines).filter(|(_, [p, q])| p.1 < q.1);
    let passes: Vec<[bool; 2]> = rising.map(|(edge, _)| edge.map(|(_, y)| y > low)).collect();
    let count = |way: [bool; 2]| passes.iter().filter(|&&passed| passed == way).count();
    count([false, true]) == count([true, false])
}

/// The ground of a reason: the first edge that its line does not part, and the balance
/// where there is none.
pub(crate) fn judged(stationary: &[Place], way: &Way, lines: &[Line]) -> Ground {
    let mut each = edges(stationary).zip(lines);
    match each.position(|(edge, &line)| !parts(line, way, edge)) {
        Some(edge) => Ground::Edge(edge),
        None if balanced(stationary, way, lines) => Ground::Clear,
        None => Ground::Enclosed,
    }
}

/// The lines that the search tries anew for an edge, in their order: the sides of the
/// way's box; each orbiting corner's own way; each orbiting edge at the start and at the
/// end; the edge's own. All but the sides there and back.
fn tried(edge: [Place; 2], way: &Way) -> impl Iterator<Item = Line> + '_ {
    let ways = way.start.iter().zip(&way.end).map(|(&start, &end)| [start, end]);
    let theirs = edges(&way.start).zip(edges(&way.end)).flat_map(|(start, end)| [start, end]);
    let through = ways.chain(theirs).chain(std::iter::once(edge));
    way.sides().into_iter().chain(through.flat_map(|[p, q]| [[p, q], [q, p]]))
}

/// A line for each edge up to the first that none parts, that of the edge before where it
/// will do, and the ground.
pub(crate) fn searched(stationary: &[Place], way: &Way) -> (Vec<Line>, Ground) {
    let mut lines: Vec<Line> = Vec::new();
    for (place, edge) in edges(stationary).enumerate() {
        let before = lines.last().copied().into_iter();
        match before.chain(tried(edge, way)).find(|&line| parts(line, way, edge)) {
            Some(line) => lines.push(line),
            None => return (lines, Ground::Edge(place)),
        }
    }
    let ground = judged(stationary, way, &lines);
    (lines, ground)
}

// ---------------------------------------------------------------------------
// The calls
// ---------------------------------------------------------------------------

/// 2 unless every corner is within the bounds.
fn placed(corners: &[Place]) -> Answer<()> {
    let most = i64::from(MOST);
    let fits = |x: i64| (-most..=most).contains(&x);
    unless(corners.iter().all(|&(x, y)| fits(x) && fits(y)), Refusal::of(2))
}

/// A move as a difference of places.
fn difference(by: Spot) -> Place {
    (i64::from(by.0), i64::from(by.1))
}

/// The way of the orbiting polygon by this move, or refusal 2.
fn bounded(lent: &[&[i32]], orbiting: &[i32], by: Spot) -> Answer<Way> {
    lent.iter().try_for_each(|list| within(list))?;
    let way = Way::of(&places(orbiting), difference(by));
    placed(&way.end)?;
    Ok(way)
}

/// Writes the reason with these lines to the room's front: p.x, p.y, q.x and q.y of each;
/// 5 where the room is short.
pub(crate) fn written(lines: &[Line], room: &mut [i32]) -> Answer<()> {
    fits(lines.len(), 4, room.len())?;
    let numbers = lines.concat().into_iter().flat_map(|(x, y)| [x, y]);
    let number = |x| i32::try_from(x).expect("a corner is within the bounds");
    room.iter_mut().zip(numbers).for_each(|(cell, x)| *cell = number(x));
    Ok(())
}

/// The lines of a lent reason, two points each.
pub(crate) fn lines_of(reason: &[i32]) -> Vec<Line> {
    places(reason).chunks_exact(2).map(|line| [line[0], line[1]]).collect()
}

/// Whether the orbiting polygon, lent as it lies at the start, takes this move with
/// nothing in between; and if it does, the reason in the room's front: p.x, p.y, q.x and
/// q.y for each stationary edge. 5 where it does and the room is short.
pub fn clear_move(
    stationary: &[i32],
    orbiting: &[i32],
    by: Spot,
    room: &mut [i32],
) -> Answer<Ground> {
    lists(&[(stationary, POLYGON), (orbiting, POLYGON)])?;
    let way = bounded(&[stationary, orbiting], orbiting, by)?;
    let (lines, ground) = searched(&places(stationary), &way);
    if ground == Ground::Clear {
        written(&lines, room)?;
    }
    Ok(ground)
}

/// Whether this reason holds for the move.
pub fn check_reason(
    stationary: &[i32],
    orbiting: &[i32],
    by: Spot,
    reason: &[i32],
) -> Answer<Ground> {
    let kind = Kind::reason(stationary.len() / 2);
    lists(&[(stationary, POLYGON), (orbiting, POLYGON), (reason, kind)])?;
    let way = bounded(&[stationary, orbiting, reason], orbiting, by)?;
    Ok(judged(&places(stationary), &way, &lines_of(reason)))
}

/// The first leg of a path that is not clear for the orbiting polygon, lent as drawn, and
/// its ground; nothing where every leg is clear, that from the last point to the first
/// included.
pub fn clear_path(
    stationary: &[i32],
    orbiting: &[i32],
    path: &[i32],
) -> Answer<Option<(usize, Ground)>> {
    lists(&[(stationary, POLYGON), (orbiting, POLYGON), (path, CHECKED)])?;
    within(stationary)?;
    within(orbiting)?;
    let [stationary, drawn, points] = [stationary, orbiting, path].map(places);
    points.iter().try_for_each(|&point| placed(&moved(&drawn, point)))?;
    let ground = |[from, to]: [Place; 2]| {
        let way = Way::of(&moved(&drawn, from), (to.0 - from.0, to.1 - from.1));
        searched(&stationary, &way).1
    };
    let legs: Vec<[Place; 2]> = edges(&points).collect();
    let mut grounds = legs.into_iter().map(ground).enumerate();
    Ok(grounds.find(|(_, ground)| *ground != Ground::Clear))
}
