//! Moves of a drawing, clear to a depth that is proved. The corners are put on a
//! [grid](crate::grid), and the orbiting polygon aside by up to two units where rounding
//! pushed into each other what only touches; then a reason is looked for as in
//! [`whole`](crate::whole::clear_move). What it tells is of the floats as they are lent,
//! their exact values and exact sums: at no time of the move does a point of a stationary
//! edge lie deeper in the moved polygon than so many units, 3, 5 or 7, and each point that
//! lies deeper in it is outside the stationary ring.
//!
//! A point lies deeper than that if its four neighbours to the right, to the left, above
//! and below at some greater distance lie in the polygon. So to Euclid it is never deeper
//! than told.
//!
//! ```
//! use byrlygent::drawn::{clear_move, Checked, Move};
//!
//! let block = [(0.0, 0.0), (40.0, 0.0), (40.0, 30.0), (0.0, 30.0)];
//! let tool = [(0.0, 0.0), (6.1, 0.0), (6.1, 8.3), (0.0, 8.3)];
//! let (from, to) = ((40.0, -20.0), (40.0, 31.7));
//! let Move::Clear(clear) = clear_move(&block, &tool, from, to, 1000)? else {
//!     panic!("it only touches")
//! };
//! let words = "clear but for 3 units of 1/1000: nothing reaches deeper than 0.003";
//! assert_eq!(clear.to_string(), words);
//! assert_eq!(clear.length(), 0.003);
//! assert_eq!(clear.reason.to_string(), "edges 0-3: 40000 1 40000 0\n");
//! assert_eq!(clear.check(&block, &tool, from, to)?, Checked::Holds(clear.within()));
//! # Ok::<(), byrlygent::Refusal>(())
//! ```
//!
//! The stationary ring may be any closed one. Of the orbiting polygon the hull is meant:
//! for one that is not convex none found proves nothing, and of one that is nowhere deeper
//! than told a reason proves nothing.

use crate::lent::flat;
use crate::refusal::among;
use crate::whole::Reason;
use crate::{ffi, Entries, Point, Result};
use std::fmt;

/// How deep an edge may reach at most into the moved polygon.
#[derive(Debug, Clone, Copy, PartialEq, Eq)]
pub struct Within {
    /// The depth in units of the grid: 3, 5 or 7.
    pub depth: u32,
    /// How the orbiting polygon was put aside, 0 to 20: 0 as it is, 1 to 10 by one unit and
    /// 11 to 20 by two, in the ten ways that the header `byrlygent.h` lists.
    pub how: u32,
    /// How many units make 1.
    pub units: u32,
}

impl Within {
    /// The depth as a length of the drawing: the float nearest to it.
    pub fn length(&self) -> f64 {
        f64::from(self.depth) / f64::from(self.units)
    }
}

impl fmt::Display for Within {
    fn fmt(&self, f: &mut fmt::Formatter<'_>) -> fmt::Result {
        write!(f, "{}", Depth(self.depth, self.units))
    }
}

/// A depth in units and how many make 1, in words: `3 units of 1/1000`, and with `{:#}` as
/// a length in decimal, of nine digits at most behind the point, rounded up.
struct Depth(u32, u32);

impl fmt::Display for Depth {
    fn fmt(&self, f: &mut fmt::Formatter<'_>) -> fmt::Result {
        let Self(depth, units) = *self;
        if !f.alternate() {
            return write!(f, "{depth} units of 1/{units}");
        }
        let units = u64::from(units);
        let billionths = (u64::from(depth) * 1_000_000_000 + units - 1) / units;
        let digits = format!("{}.{:09}", billionths / 1_000_000_000, billionths % 1_000_000_000);
        f.write_str(digits.trim_end_matches('0').trim_end_matches('.'))
    }
}

/// A move that is clear, to which depth, and why: on the grid, with the orbiting polygon
/// put aside like this, the reason holds.
#[derive(Debug, Clone, PartialEq, Eq)]
pub struct Clear {
    /// The depth in units of the grid: 3, 5 or 7.
    pub depth: u32,
    /// How the orbiting polygon was put aside: [`Within::how`].
    pub how: u32,
    /// How many units make 1.
    pub units: u32,
    /// The reason, in units of the grid.
    pub reason: Reason,
}

impl Clear {
    /// The same without the reason.
    pub fn within(&self) -> Within {
        Within { depth: self.depth, how: self.how, units: self.units }
    }

    /// The depth as a length of the drawing: the float nearest to it.
    pub fn length(&self) -> f64 {
        self.within().length()
    }

    /// Whether the reason holds for this move: [`check_reason`].
    pub fn check(
        &self,
        stationary: &[impl Into<Point> + Copy],
        orbiting: &[impl Into<Point> + Copy],
        from: Point,
        to: Point,
    ) -> Result<Checked> {
        check_reason(stationary, orbiting, from, to, self.units, self.how, &self.reason)
    }
}

impl fmt::Display for Clear {
    fn fmt(&self, f: &mut fmt::Formatter<'_>) -> fmt::Result {
        let depth = Depth(self.depth, self.units);
        write!(f, "clear but for {depth}: nothing reaches deeper than {depth:#}")
    }
}

/// What comes of a move of a drawing.
#[derive(Debug, Clone, PartialEq, Eq)]
pub enum Move {
    /// Nothing reaches deeper into the orbiting polygon than told, and this is why.
    Clear(Clear),
    /// However it is put aside, an edge is not parted from the way: as it is, this is the
    /// first. That proves nothing.
    Edge(usize),
    /// No edge reaches deeper into it than told, and what lies deeper in it is not outside
    /// the stationary ring.
    Enclosed(Within),
}

impl fmt::Display for Move {
    fn fmt(&self, f: &mut fmt::Formatter<'_>) -> fmt::Result {
        match self {
            Self::Clear(clear) => write!(f, "{clear}"),
            Self::Edge(edge) => write!(f, "edge {edge} is not parted from the way"),
            Self::Enclosed(within) => enclosed(f, *within),
        }
    }
}

/// An enclosed way in words.
fn enclosed(f: &mut fmt::Formatter<'_>, within: Within) -> fmt::Result {
    let depth = Depth(within.depth, within.units);
    write!(f, "enclosed but for {depth}: no edge reaches deeper than {depth:#}")
}

/// What comes of a reason that is lent for a move of a drawing.
#[derive(Debug, Clone, Copy, PartialEq, Eq)]
pub enum Checked {
    /// It holds: the move is clear to this depth.
    Holds(Within),
    /// The line of this edge, the first such, does not part it from the way, or its two
    /// points are one; 0 where a corner put aside leaves the grid.
    Edge(usize),
    /// Each line parts, and they do not balance: the way is enclosed.
    Enclosed(Within),
}

impl fmt::Display for Checked {
    fn fmt(&self, f: &mut fmt::Formatter<'_>) -> fmt::Result {
        match self {
            Self::Holds(within) => {
                let depth = Depth(within.depth, within.units);
                write!(f, "it holds: nothing reaches deeper than {depth:#}")
            }
            Self::Edge(edge) => write!(f, "edge {edge} is not parted from the way"),
            Self::Enclosed(within) => enclosed(f, *within),
        }
    }
}

/// What comes of the legs of a path of a drawing.
#[derive(Debug, Clone, Copy, PartialEq, Eq)]
pub enum Legs {
    /// Each is clear, and nothing reaches deeper than this on any.
    Clear {
        /// The largest depth of a leg, in units of the grid: 3, 5 or 7.
        depth: u32,
        /// How many units make 1.
        units: u32,
    },
    /// On this leg, the first that is not clear, this edge is not parted from the way.
    Edge {
        /// The point at which the leg begins.
        leg: usize,
        /// The edge.
        edge: usize,
    },
    /// On this leg, the first that is not clear, the way is enclosed.
    Enclosed {
        /// The point at which the leg begins.
        leg: usize,
    },
}

impl Legs {
    /// The depth as a length of the drawing, where every leg is clear: the float nearest to
    /// it.
    pub fn length(&self) -> Option<f64> {
        match *self {
            Self::Clear { depth, units } => Some(f64::from(depth) / f64::from(units)),
            _ => None,
        }
    }
}

impl fmt::Display for Legs {
    fn fmt(&self, f: &mut fmt::Formatter<'_>) -> fmt::Result {
        match *self {
            Self::Clear { depth, units } => {
                let depth = Depth(depth, units);
                write!(f, "clear but for {depth} on every leg: ")?;
                write!(f, "nothing reaches deeper than {depth:#}")
            }
            Self::Edge { leg, edge } => {
                write!(f, "on the leg from point {leg} edge {edge} is not parted from the way")
            }
            Self::Enclosed { leg } => write!(f, "on the leg from point {leg} the way is enclosed"),
        }
    }
}

/// How deep anything reaches at most into the orbiting polygon, lent as drawn, that is moved
/// to `from` and goes straight on to `to`, on a grid of 1 to 1,000,000 units in 1; and the
/// reason, where one is found. Both polygons have 3 to 256 vertices.
///
/// Where a coordinate or a position times the units, exactly, is above 1,000,000 in size, or
/// a corner is where it is moved to, the refusal is [`Refusal::Grid`](crate::Refusal::Grid).
///
/// ```
/// use byrlygent::drawn::{clear_move, Move};
///
/// let block = [(0.0, 0.0), (4.0, 0.0), (4.0, 3.0), (0.0, 3.0)];
/// let tool = [(0.0, 0.0), (0.6, 0.0), (0.6, 0.8), (0.0, 0.8)];
/// // Two units of the grid into the block: it is clear but for seven.
/// let Move::Clear(clear) = clear_move(&block, &tool, (3.98, 0.0), (3.98, 9.0), 100)? else {
///     panic!("nothing reaches deep")
/// };
/// assert_eq!((clear.depth, clear.how), (7, 11));
/// let Move::Enclosed(within) = clear_move(&block, &tool, (1.0, 1.0), (2.0, 1.5), 100)? else {
///     panic!("it lies in the block")
/// };
/// assert_eq!(within.length(), 0.03);
/// assert_eq!(clear_move(&block, &tool, (3.9, 0.0), (3.9, 9.0), 100)?, Move::Edge(1));
/// # Ok::<(), byrlygent::Refusal>(())
/// ```
pub fn clear_move(
    stationary: &[impl Into<Point> + Copy],
    orbiting: &[impl Into<Point> + Copy],
    from: Point,
    to: Point,
    units: u32,
) -> Result<Move> {
    let (mut cells, mut room) = (Cells::default(), vec![0; 4 * stationary.len()]);
    let lent = Lent { stationary: flat(stationary), orbiting: flat(orbiting), units };
    let number = cells.searched(&lent, [from, to], &mut room);
    among(&Entries::sliding(stationary.len(), orbiting.len()), number, cells.place)?;
    let Cells { ground, depth, how, edge, .. } = cells;
    Ok(match ground {
        0 => Move::Clear(Clear { depth, how, units, reason: Reason::of(&room) }),
        1 => Move::Edge(edge as usize),
        _ => Move::Enclosed(Within { depth, how, units }),
    })
}

/// Whether a reason holds for the move with the orbiting polygon put aside like this,
/// whoever made it. It has a line for each stationary edge, and its points are at most
/// 1,000,000 in size; `how` is 0 to 20.
///
/// ```
/// use byrlygent::drawn::{check_reason, Checked};
/// use byrlygent::whole::{Line, Reason};
///
/// let plate = [(0.0, 0.0), (4.0, 0.0), (0.0, 3.0)];
/// let tool = [(0.0, 0.0), (2.0, 0.0), (2.0, 2.0)];
/// let reason = Reason { lines: vec![Line { p: (4000, 9), q: (4000, 0) }; 3] };
/// let checked = |x, how| check_reason(&plate, &tool, (x, 0.0), (x, 9.0), 1000, how, &reason);
/// assert_eq!(checked(4.0, 0)?.to_string(), "it holds: nothing reaches deeper than 0.003");
/// assert_eq!(checked(3.999, 0)?, Checked::Edge(0));
/// // Set off to the right by one unit.
/// assert_eq!(checked(3.999, 3)?.to_string(), "it holds: nothing reaches deeper than 0.005");
/// # Ok::<(), byrlygent::Refusal>(())
/// ```
pub fn check_reason(
    stationary: &[impl Into<Point> + Copy],
    orbiting: &[impl Into<Point> + Copy],
    from: Point,
    to: Point,
    units: u32,
    how: u32,
    reason: &Reason,
) -> Result<Checked> {
    let [a, b] = Entries::sliding(stationary.len(), orbiting.len());
    let lists = [a, b, Entries::reason(reason.lines.len(), stationary.len())];
    let lent = Lent { stationary: flat(stationary), orbiting: flat(orbiting), units };
    let mut cells = Cells::default();
    let number = cells.checked(&lent, [from, to], how, &reason.numbers());
    among(&lists, number, cells.place)?;
    let within = Within { depth: cells.depth, how, units };
    Ok(match cells.ground {
        0 => Checked::Holds(within),
        1 => Checked::Edge(cells.edge as usize),
        _ => Checked::Enclosed(within),
    })
}

/// How deep anything reaches at most into the orbiting polygon, lent as drawn, on any leg of
/// a path of 2 to 10,001 points, and, if it is closed, on that from the last point to the
/// first: [`clear_move`] on each, up to the first that is not clear. All points are tested
/// before any leg.
///
/// ```
/// use byrlygent::drawn::{clear_path, Legs};
///
/// let block = [(0.0, 0.0), (4.0, 0.0), (4.0, 4.0), (0.0, 4.0)];
/// let tool = block.map(|(x, y)| (x / 2.0, y / 2.0));
/// let round = [(-2.0, -2.0), (4.0, -2.0), (4.0, 4.0), (-2.0, 4.0)];
/// let clear = clear_path(&block, &tool, &round, true, 1000)?;
/// assert_eq!(clear, Legs::Clear { depth: 3, units: 1000 });
/// let words = "clear but for 3 units of 1/1000 on every leg: nothing reaches deeper than 0.003";
/// assert_eq!(clear.to_string(), words);
/// assert_eq!(clear_path(&block, &tool, &round[..3], false, 1000)?, clear);
/// let through = clear_path(&block, &tool, &round[..3], true, 1000)?;
/// assert_eq!(through, Legs::Edge { leg: 2, edge: 0 });
/// # Ok::<(), byrlygent::Refusal>(())
/// ```
pub fn clear_path(
    stationary: &[impl Into<Point> + Copy],
    orbiting: &[impl Into<Point> + Copy],
    path: &[impl Into<Point> + Copy],
    closed: bool,
    units: u32,
) -> Result<Legs> {
    let [a, b] = Entries::sliding(stationary.len(), orbiting.len());
    let lists = [a, b, Entries::legs(path.len())];
    let lent = Lent { stationary: flat(stationary), orbiting: flat(orbiting), units };
    let mut cells = Cells::default();
    let number = cells.legs(&lent, &flat(path), u32::from(closed));
    among(&lists, number, cells.place)?;
    let leg = cells.leg as usize;
    Ok(match cells.ground {
        0 => Legs::Clear { depth: cells.depth, units },
        1 => Legs::Edge { leg, edge: cells.edge as usize },
        _ => Legs::Enclosed { leg },
    })
}

/// Both polygons as lists of numbers, and the grid.
struct Lent {
    stationary: Vec<f64>,
    orbiting: Vec<f64>,
    units: u32,
}

/// The cells that the library writes.
#[derive(Debug, Clone, Copy, PartialEq, Default)]
struct Cells {
    ground: u32,
    depth: u32,
    how: u32,
    leg: u64,
    edge: u64,
    place: u64,
}

impl Cells {
    /// Lends the cells to the search with this room; the number of the refusal.
    fn searched(&mut self, lent: &Lent, [from, to]: [Point; 2], room: &mut [i32]) -> u32 {
        // SAFETY: all lists are as long as is said, and every cell is there.
        unsafe {
            ffi::byr_clear_move(
                lent.stationary.as_ptr(),
                lent.stationary.len(),
                lent.orbiting.as_ptr(),
                lent.orbiting.len(),
                from.0,
                from.1,
                to.0,
                to.1,
                lent.units,
                room.as_mut_ptr(),
                room.len(),
                &mut self.ground,
                &mut self.depth,
                &mut self.how,
                &mut self.edge,
                &mut self.place,
            )
        }
    }

    /// Lends the cells to the check of this reason; the number of the refusal.
    fn checked(&mut self, lent: &Lent, [from, to]: [Point; 2], how: u32, reason: &[i32]) -> u32 {
        // SAFETY: all lists are as long as is said, and every cell is there.
        unsafe {
            ffi::byr_check_reason(
                lent.stationary.as_ptr(),
                lent.stationary.len(),
                lent.orbiting.as_ptr(),
                lent.orbiting.len(),
                from.0,
                from.1,
                to.0,
                to.1,
                lent.units,
                how,
                reason.as_ptr(),
                reason.len(),
                &mut self.ground,
                &mut self.depth,
                &mut self.edge,
                &mut self.place,
            )
        }
    }

    /// Lends the cells with this path; the number of the refusal.
    fn legs(&mut self, lent: &Lent, path: &[f64], closed: u32) -> u32 {
        // SAFETY: all lists are as long as is said, and every cell is there.
        unsafe {
            ffi::byr_clear_path(
                lent.stationary.as_ptr(),
                lent.stationary.len(),
                lent.orbiting.as_ptr(),
                lent.orbiting.len(),
                path.as_ptr(),
                path.len(),
                closed,
                lent.units,
                &mut self.ground,
                &mut self.depth,
                &mut self.leg,
                &mut self.edge,
                &mut self.place,
            )
        }
    }
}

#[cfg(test)]
mod tests {
    use super::{Cells, Lent};

    const S: [f64; 8] = [0.0, 0.0, 4.0, 0.0, 4.0, 4.0, 0.0, 4.0];

    /// What the cells hold before a call: no answer there is.
    const HELD: Cells =
        Cells { ground: 77, depth: 77, how: 77, leg: 7777, edge: 7777, place: 7777 };

    /// The square and so many of its numbers, on this grid.
    fn lent(numbers: usize, units: u32) -> Lent {
        Lent { stationary: S.to_vec(), orbiting: S[..numbers].to_vec(), units }
    }

    /// The number, the cells and a room of this length after the search for the way up from
    /// this x.
    fn searched(lent: Lent, x: f64, length: usize) -> (u32, Cells, Vec<i32>) {
        let (mut cells, mut room) = (HELD, vec![77; length]);
        (cells.searched(&lent, [(x, 0.0), (x, 1.0)], &mut room), cells, room)
    }

    /// The number and the cells after the check of this reason for the same.
    fn checked(x: f64, how: u32, reason: &[i32]) -> (u32, Cells) {
        let mut cells = HELD;
        (cells.checked(&lent(8, 10), [(x, 0.0), (x, 1.0)], how, reason), cells)
    }

    /// The number and the cells after a path.
    fn legs(path: &[f64], closed: u32) -> (u32, Cells) {
        let mut cells = HELD;
        (cells.legs(&lent(8, 10), path, closed), cells)
    }

    #[test]
    fn a_clear_move_writes_ground_depth_and_how_and_the_rooms_front() {
        for (x, depth, how) in [(4.0, 3, 0), (3.9, 5, 1), (3.8, 7, 11)] {
            let clear = Cells { ground: 0, depth, how, ..HELD };
            let (number, cells, room) = searched(lent(8, 10), x, 19);
            assert_eq!((number, cells, &room[16..]), (0, clear, &[77; 3][..]));
            let holds = Cells { how: 77, ..clear };
            assert_eq!(checked(x, how, &room[..16]), (0, holds));
            assert_eq!(searched(lent(8, 10), x, 15), (5, HELD, vec![77; 15]));
        }
    }

    #[test]
    fn another_ground_leaves_the_room() {
        let edge = |edge| Cells { ground: 1, edge, ..HELD };
        assert_eq!(searched(lent(8, 10), 3.7, 15), (0, edge(1), vec![77; 15]));
        let enclosed = Cells { ground: 2, depth: 5, how: 1, ..HELD };
        assert_eq!(searched(lent(8, 1), 0.0, 0), (0, enclosed, vec![]));
        let own = [0, 0, 40, 0, 40, 0, 40, 40, 40, 40, 0, 40, 0, 40, 0, 0];
        assert_eq!(checked(0.0, 0, &own), (0, edge(2)));
        assert_eq!(checked(9.0, 0, &[7; 16]), (0, edge(0)));
    }

    #[test]
    fn a_leg_is_written_unless_all_are_clear_and_the_depth_if_they_are() {
        let round = [-4.0, -4.0, 4.0, -4.0, 3.8, 4.0, -4.0, 4.0];
        for closed in [1, 2, u32::MAX] {
            assert_eq!(legs(&round, closed), (0, Cells { ground: 0, depth: 7, ..HELD }));
            let through = Cells { ground: 1, leg: 2, edge: 0, ..HELD };
            assert_eq!(legs(&round[..6], closed), (0, through));
        }
        assert_eq!(legs(&round[..6], 0), (0, Cells { ground: 0, depth: 7, ..HELD }));
        assert_eq!(legs(&round[..4], 0), (0, Cells { ground: 0, depth: 3, ..HELD }));
        assert_eq!(legs(&[0.0; 4], 0), (0, Cells { ground: 2, leg: 0, ..HELD }));
    }

    #[test]
    fn a_refusal_writes_at_most_the_place() {
        let none: Vec<i32> = vec![];
        let odd = Cells { place: 1, ..HELD };
        assert_eq!(searched(lent(7, 0), f64::NAN, 0), (1, odd, none.clone()));
        assert_eq!(searched(lent(8, 0), f64::NAN, 0), (2, HELD, none.clone()));
        assert_eq!(searched(lent(8, 0), f64::MAX, 0), (3, HELD, none.clone()));
        assert_eq!(searched(lent(8, 1), f64::MAX, 0), (14, HELD, none));
        let at_two = Cells { place: 2, ..HELD };
        assert_eq!(checked(f64::MAX, 21, &[1_000_001; 15]), (1, at_two));
        assert_eq!(checked(f64::MAX, 21, &[1_000_001; 12]), (8, at_two));
        assert_eq!(checked(f64::MAX, 21, &[1_000_001; 20]), (9, at_two));
        assert_eq!(checked(f64::MAX, 21, &[1_000_001; 16]), (2, HELD));
        assert_eq!(checked(f64::MAX, 21, &[1_000_000; 16]), (3, HELD));
        assert_eq!(checked(f64::MAX, 20, &[1_000_000; 16]), (14, HELD));
        assert_eq!(legs(&[f64::NAN; 5], 0), (1, at_two));
        assert_eq!(legs(&[f64::NAN; 2], 1), (8, at_two));
        assert_eq!(legs(&[f64::NAN; 20_004], 1), (9, at_two));
        assert_eq!(legs(&[f64::NAN; 4], 1), (2, HELD));
        assert_eq!(legs(&[0.0, 0.0, 1e5, 0.0], 1), (14, HELD));
    }
}
