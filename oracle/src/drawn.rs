//! Moves of a drawing, written down from docs/SCOPE.md: the corners of both polygons and
//! the positions are put on the grid, the orbiting polygon is put aside in one of so many
//! ways, and then a reason is looked for, or judged, as `clear` does it in whole numbers.
//! `exact` tells how deep a drawn edge truly reaches into the drawn polygon, without a
//! grid and without a line.

pub mod exact;
pub mod slides;

use crate::answers::Point;
use crate::clear::{self, edges, judged, lines_of, moved, searched, written, Line, Place, Way};
use crate::grid::{is_grid, nearest, on_grid};
use crate::refusals::{
    coordinates, finite, list, lists, polygons, unless, Answer, Kind, Refusal, LEGS, POLYGON,
};
use crate::whole::{within, MOST};

/// Most that `how` may be.
pub const MOST_HOW: u32 = 20;

/// What comes of a move of a drawing.
#[derive(Debug, Clone, Copy, PartialEq, Eq)]
pub enum Ground {
    /// Put aside like this, every edge is parted from the way, and it is not enclosed.
    Clear { how: u32 },
    /// However it is put aside, an edge is not parted: the first such as it is.
    Edge(usize),
    /// Put aside like this, every edge is parted, and the way is enclosed.
    Enclosed { how: u32 },
}

/// What comes of the legs of a path.
#[derive(Debug, Clone, Copy, PartialEq, Eq)]
pub enum Legs {
    /// Each is clear, and this is the largest depth.
    Clear { depth: u32 },
    /// An edge is not parted on this leg, the first that is not clear.
    Edge { leg: usize, edge: usize },
    /// The way is enclosed on this leg, the first that is not clear.
    Enclosed { leg: usize },
}

/// By how many units this how puts aside.
pub fn width(how: u32) -> u32 {
    how.div_ceil(10)
}

/// How deep an edge may reach, in units, where every edge is parted with this how.
pub fn depth(how: u32) -> u32 {
    3 + 2 * width(how)
}

// ---------------------------------------------------------------------------
// Put aside
// ---------------------------------------------------------------------------

/// The middle of the least and the most, rounded down.
fn middle(levels: impl Iterator<Item = i64> + Clone) -> i64 {
    let ends = [levels.clone().min(), levels.max()].map(|end| end.expect("there are corners"));
    (ends[0] + ends[1]).div_euclid(2)
}

/// A coordinate drawn in by w towards this middle.
fn inward(w: i64, middle: i64, x: i64) -> i64 {
    match x - middle {
        off if off > w => x - w,
        off if off < -w => x + w,
        _ => middle,
    }
}

/// The corners drawn in by w towards the middle of their box.
fn drawn_in(w: i64, corners: &[Place]) -> Vec<Place> {
    let x = middle(corners.iter().map(|v| v.0));
    let y = middle(corners.iter().map(|v| v.1));
    corners.iter().map(|v| (inward(w, x, v.0), inward(w, y, v.1))).collect()
}

/// The corners drawn in by w across this move.
fn drawn_across(w: i64, corners: &[Place], (dx, dy): Place) -> Vec<Place> {
    let level = |v: &Place| dx * v.1 - dy * v.0;
    let middle = middle(corners.iter().map(level));
    let across = |v: &Place| {
        let by = -w * (level(v) - middle).signum();
        (v.0 + by * -dy.signum(), v.1 + by * dx.signum())
    };
    corners.iter().map(across).collect()
}

/// Where the eight ways of setting off lead, in their order.
const OFF: [Place; 8] = [(1, 0), (0, 1), (-1, 0), (0, -1), (1, 1), (-1, 1), (-1, -1), (1, -1)];

/// The corners put aside by this how, for this move; nothing where one leaves the grid.
pub fn aside(corners: &[Place], by: Place, how: u32) -> Option<Vec<Place>> {
    let (w, way) = (i64::from(width(how)), how as usize - if how > 10 { 10 } else { 0 });
    let corners = match way {
        0 => corners.to_vec(),
        1 => drawn_in(w, corners),
        2 => drawn_across(w, corners, by),
        _ => moved(corners, (w * OFF[way - 3].0, w * OFF[way - 3].1)),
    };
    corners.iter().all(on_the_grid).then_some(corners)
}

/// Whether a place is on the grid.
fn on_the_grid(&(x, y): &Place) -> bool {
    x.abs().max(y.abs()) <= i64::from(MOST)
}

// ---------------------------------------------------------------------------
// The drawing on its grid
// ---------------------------------------------------------------------------

/// Both polygons on their grid, the orbiting one as drawn.
struct Drawing {
    ring: Vec<Place>,
    disc: Vec<Place>,
}

impl Drawing {
    /// Both polygons and these positions on the grid; 14 where a number, or a corner at a
    /// position, is off it.
    fn of(pair: [&[f64]; 2], positions: &[f64], units: u32) -> Answer<(Self, Vec<Place>)> {
        [pair[0], pair[1], positions].iter().try_for_each(|numbers| on_grid(units, numbers))?;
        let points = |list| points(units, list);
        let (drawing, positions) =
            (Self { ring: points(pair[0]), disc: points(pair[1]) }, points(positions));
        let stays = |&at: &Place| moved(&drawing.disc, at).iter().all(on_the_grid);
        unless(positions.iter().all(stays), Refusal::of(14))?;
        Ok((drawing, positions))
    }

    /// The way from one position to the other, put aside by this how.
    fn way(&self, [from, to]: [Place; 2], how: u32) -> Option<Way> {
        let by = (to.0 - from.0, to.1 - from.1);
        let put = |at| aside(&moved(&self.disc, at), by, how);
        Some(Way { start: put(from)?, end: put(to)? })
    }

    /// The first how that parts every edge decides; the lines that it parts them with.
    fn found(&self, leg: [Place; 2]) -> (Vec<Line>, Ground) {
        let mut first = None;
        for how in 0..=MOST_HOW {
            let Some(way) = self.way(leg, how) else { continue };
            match searched(&self.ring, &way) {
                (lines, clear::Ground::Clear) => return (lines, Ground::Clear { how }),
                (lines, clear::Ground::Enclosed) => return (lines, Ground::Enclosed { how }),
                (_, clear::Ground::Edge(edge)) => first = first.or(Some(edge)),
            }
        }
        (vec![], Ground::Edge(first.expect("as it is, it is on the grid")))
    }
}

/// The points of a list on a grid, all of which are on it.
fn points(units: u32, list: &[f64]) -> Vec<Place> {
    let whole = |x| i64::from(nearest(units, x));
    list.chunks_exact(2).map(|v| (whole(v[0]), whole(v[1]))).collect()
}

// ---------------------------------------------------------------------------
// The calls
// ---------------------------------------------------------------------------

/// What comes of a move, and the lines that part every edge from the way, where they do,
/// whether they balance or not.
pub(crate) fn parted(
    pair: [&[f64]; 2],
    from: Point,
    to: Point,
    units: u32,
) -> Answer<(Vec<Line>, Ground)> {
    let positions = [from.0, from.1, to.0, to.1];
    polygons(pair[0], pair[1])?;
    finite(&positions)?;
    is_grid(units)?;
    let (drawing, ends) = Drawing::of(pair, &positions, units)?;
    Ok(drawing.found([ends[0], ends[1]]))
}

/// Whether the orbiting polygon, lent as drawn and moved to `from`, goes straight on to
/// `to` with no edge deeper in it than the depth; and if it does, the reason in the room's
/// front. 5 where it does and the room is short.
pub fn clear_move(
    pair: [&[f64]; 2],
    from: Point,
    to: Point,
    units: u32,
    room: &mut [i32],
) -> Answer<Ground> {
    let (lines, ground) = parted(pair, from, to, units)?;
    if matches!(ground, Ground::Clear { .. }) {
        written(&lines, room)?;
    }
    Ok(ground)
}

/// Whether this reason holds for the move, with the orbiting polygon put aside by this
/// how.
pub fn check_reason(
    pair: [&[f64]; 2],
    from: Point,
    to: Point,
    units: u32,
    how: u32,
    reason: &[i32],
) -> Answer<clear::Ground> {
    let positions = [from.0, from.1, to.0, to.1];
    lists(&[(pair[0], POLYGON), (pair[1], POLYGON)])?;
    list(reason, Kind::reason(pair[0].len() / 2), 2)?;
    coordinates(&pair.concat())?;
    finite(&positions)?;
    within(reason)?;
    is_grid(units)?;
    unless(how <= MOST_HOW, Refusal::of(3))?;
    let (drawing, ends) = Drawing::of(pair, &positions, units)?;
    let way = drawing.way([ends[0], ends[1]], how);
    let judged = |way| judged(&drawing.ring, &way, &lines_of(reason));
    Ok(way.map_or(clear::Ground::Edge(0), judged))
}

/// What comes of the legs of a path, that from the last point to the first being one of
/// them if it is closed: the largest depth, or the first that is not clear.
pub fn clear_path(pair: [&[f64]; 2], path: &[f64], closed: bool, units: u32) -> Answer<Legs> {
    lists(&[(pair[0], POLYGON), (pair[1], POLYGON), (path, LEGS)])?;
    coordinates(&pair.concat())?;
    finite(path)?;
    is_grid(units)?;
    let (drawing, ends) = Drawing::of(pair, path, units)?;
    let count = ends.len() - usize::from(!closed);
    let mut deepest = 0;
    for (leg, ends) in edges(&ends).take(count).enumerate() {
        match drawing.found(ends).1 {
            Ground::Clear { how } => deepest = deepest.max(depth(how)),
            Ground::Edge(edge) => return Ok(Legs::Edge { leg, edge }),
            Ground::Enclosed { .. } => return Ok(Legs::Enclosed { leg }),
        }
    }
    Ok(Legs::Clear { depth: deepest })
}
