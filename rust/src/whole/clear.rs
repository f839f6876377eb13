//! Whole moves, and the reason that nothing lay in between.

use super::{flat, Point};
use crate::refusal::among;
use crate::{ffi, Entries, Result};
use std::fmt;

/// A line by two points on it, p and q: the way lies left of it, as seen from p to q, or
/// on it, and a stationary edge right of it or on it.
#[derive(Debug, Clone, Copy, PartialEq, Eq)]
pub struct Line {
    /// Its first point.
    pub p: Point,
    /// Its second.
    pub q: Point,
}

impl fmt::Display for Line {
    fn fmt(&self, f: &mut fmt::Formatter<'_>) -> fmt::Result {
        let Self { p, q } = self;
        write!(f, "{} {} {} {}", p.0, p.1, q.0, q.1)
    }
}

/// The reason that nothing lay in between: for each stationary edge a line that parts it
/// from the way, which is the orbiting polygon's corners at the start and at the end of
/// the move. Of the edges whose line rises, `p.1 < q.1`, as many come up through the
/// way's lowest height, from it or below to above it, as go down.
///
/// One line may serve many edges. It is written once, with the edges that it parts, its
/// four numbers in decimal, and anyone can check it with turns of whole numbers alone.
///
/// ```
/// use byrlygent::whole::{clear_move, Move};
///
/// let [plate, tool] = [[(0, 0), (4, 0), (0, 3)], [(4, 0), (6, 0), (6, 2)]];
/// let Move::Clear(reason) = clear_move(&plate, &tool, (0, 9))? else { panic!("it is clear") };
/// assert_eq!(reason.to_string(), "edges 0-2: 4 1 4 0\n");
/// # Ok::<(), byrlygent::Refusal>(())
/// ```
#[derive(Debug, Clone, PartialEq, Eq)]
pub struct Reason {
    /// The line of each stationary edge, vertex 0 to 1 first.
    pub lines: Vec<Line>,
}

impl Reason {
    /// The reason with these numbers, four to a line.
    pub(crate) fn of(numbers: &[i32]) -> Self {
        let line = |n: &[i32]| Line { p: (n[0], n[1]), q: (n[2], n[3]) };
        Self { lines: numbers.chunks_exact(4).map(line).collect() }
    }

    /// Its numbers, p.x, p.y, q.x and q.y for each edge.
    pub(crate) fn numbers(&self) -> Vec<i32> {
        self.lines.iter().flat_map(|&Line { p, q }| [p.0, p.1, q.0, q.1]).collect()
    }

    /// Each line once, in the order of the first edge that has it, with all that have it.
    pub fn shared(&self) -> Vec<Shared> {
        let mut shared: Vec<Shared> = vec![];
        for (edge, &line) in self.lines.iter().enumerate() {
            match shared.iter_mut().find(|other| other.line == line) {
                Some(other) => other.edges.push(edge),
                None => shared.push(Shared { line, edges: vec![edge] }),
            }
        }
        shared
    }

    /// Whether it holds for this move: [`check_reason`].
    pub fn check(
        &self,
        stationary: &[impl Into<Point> + Copy],
        orbiting: &[impl Into<Point> + Copy],
        by: Point,
    ) -> Result<Ground> {
        check_reason(stationary, orbiting, by, self)
    }
}

impl fmt::Display for Reason {
    fn fmt(&self, f: &mut fmt::Formatter<'_>) -> fmt::Result {
        self.shared().iter().try_for_each(|shared| writeln!(f, "{shared}"))
    }
}

/// A line of a reason, with the edges that it parts from the way; it is written with these
/// as ranges, `edges 0-14, 22: 46000 0 46000 1`.
#[derive(Debug, Clone, PartialEq, Eq)]
pub struct Shared {
    /// The line.
    pub line: Line,
    /// The edges, rising.
    pub edges: Vec<usize>,
}

impl fmt::Display for Shared {
    fn fmt(&self, f: &mut fmt::Formatter<'_>) -> fmt::Result {
        write!(f, "edges {}: {}", ranges(&self.edges), self.line)
    }
}

/// Rising numbers as ranges: `0-14, 22`.
fn ranges(numbers: &[usize]) -> String {
    let mut runs: Vec<[usize; 2]> = vec![];
    for &number in numbers {
        match runs.last_mut() {
            Some([_, last]) if *last + 1 == number => *last = number,
            _ => runs.push([number; 2]),
        }
    }
    let run = |[first, last]: &[usize; 2]| match first == last {
        true => first.to_string(),
        false => format!("{first}-{last}"),
    };
    runs.iter().map(run).collect::<Vec<_>>().join(", ")
}

/// What comes of a reason that is lent.
#[derive(Debug, Clone, Copy, PartialEq, Eq)]
pub enum Ground {
    /// It holds: nothing lies in between.
    Clear,
    /// The line of this edge, the first such, does not part it from the way, or its two
    /// points are one.
    Edge(usize),
    /// Each line parts, and they do not balance: the way is enclosed.
    Enclosed,
}

impl Ground {
    /// The number that the library gives it.
    pub fn number(self) -> u32 {
        match self {
            Self::Clear => 0,
            Self::Edge(_) => 1,
            Self::Enclosed => 2,
        }
    }

    /// The ground that the library gives this number, with this edge.
    fn numbered(ground: u32, edge: u64) -> Self {
        match ground {
            0 => Self::Clear,
            1 => Self::Edge(edge as usize),
            _ => Self::Enclosed,
        }
    }
}

impl fmt::Display for Ground {
    fn fmt(&self, f: &mut fmt::Formatter<'_>) -> fmt::Result {
        match self {
            Self::Clear => f.write_str("nothing lies in between"),
            Self::Edge(edge) => write!(f, "edge {edge} is not parted from the way"),
            Self::Enclosed => f.write_str("every edge is parted, and the way is enclosed"),
        }
    }
}

/// What comes of a whole move.
#[derive(Debug, Clone, PartialEq, Eq)]
pub enum Move {
    /// Nothing lies in between, and this is the reason.
    Clear(Reason),
    /// No line of the search parts this edge from the way; it is the first such.
    Edge(usize),
    /// Every edge is parted, and the way is enclosed.
    Enclosed,
}

impl Move {
    /// The same without the reason.
    pub fn ground(&self) -> Ground {
        match self {
            Self::Clear(_) => Ground::Clear,
            Self::Edge(edge) => Ground::Edge(*edge),
            Self::Enclosed => Ground::Enclosed,
        }
    }
}

/// What comes of the legs of a path.
#[derive(Debug, Clone, Copy, PartialEq, Eq)]
pub enum Legs {
    /// Each is clear.
    Clear,
    /// On this leg, the first that is not clear, no line parts this edge from the way.
    Edge {
        /// The point at which the leg begins.
        leg: usize,
        /// The edge.
        edge: usize,
    },
    /// On this leg, the first that is not clear, the way is enclosed.
    Enclosed {
        /// The point at which the leg begins.
        leg: usize,
    },
}

impl fmt::Display for Legs {
    fn fmt(&self, f: &mut fmt::Formatter<'_>) -> fmt::Result {
        match self {
            Self::Clear => f.write_str("nothing lies in between on any leg"),
            Self::Edge { leg, edge } => {
                write!(f, "on the leg from point {leg} edge {edge} is not parted from the way")
            }
            Self::Enclosed { leg } => write!(f, "on the leg from point {leg} the way is enclosed"),
        }
    }
}

/// Whether nothing lies in between when the orbiting polygon, lent as it stands, slides
/// straight by this move, and the reason where one is found. This is no rule with a
/// tolerance, but so: where there is a reason, at no time of the move does a point of a
/// stationary edge lie inside the moved polygon, and at every time each point inside it
/// lies outside the stationary ring. To touch is to be clear.
///
/// The stationary ring may be any closed one. Of the orbiting polygon the hull is meant:
/// for one that is not convex none found proves nothing, and of one whose vertices are
/// all in line a reason proves nothing. Both polygons have 3 to 256 vertices, and each
/// corner, at the end of the move too, is at most 1,000,000 in size.
///
/// ```
/// use byrlygent::whole::{clear_move, Ground, Move};
///
/// let block = [(0, 0), (400, 0), (400, 300), (0, 300)];
/// let tool = [(400, 0), (460, 0), (460, 80), (400, 80)];
/// let Move::Clear(reason) = clear_move(&block, &tool, (0, 500))? else { panic!("it is clear") };
/// assert_eq!(reason.lines.len(), 4);
/// assert_eq!(reason.check(&block, &tool, (0, 500))?, Ground::Clear);
/// // A unit to the left is through the block's right edge.
/// assert_eq!(clear_move(&block, &tool, (-1, 500))?, Move::Edge(1));
/// assert_eq!(clear_move(&block, &[(9, 9), (12, 9), (9, 12)], (5, 5))?, Move::Enclosed);
/// # Ok::<(), byrlygent::Refusal>(())
/// ```
pub fn clear_move(
    stationary: &[impl Into<Point> + Copy],
    orbiting: &[impl Into<Point> + Copy],
    by: Point,
) -> Result<Move> {
    let (mut cells, mut room) = (Cells::default(), vec![0; 4 * stationary.len()]);
    let number = cells.searched(&flat(stationary), &flat(orbiting), by, &mut room);
    among(&Entries::sliding(stationary.len(), orbiting.len()), number, cells.place)?;
    Ok(match Ground::numbered(cells.ground, cells.edge) {
        Ground::Clear => Move::Clear(Reason::of(&room)),
        Ground::Edge(edge) => Move::Edge(edge),
        Ground::Enclosed => Move::Enclosed,
    })
}

/// Whether a reason holds for the move, whoever made it: [`clear_move`] says what is then
/// so. It has a line for each stationary edge, and its points are at most 1,000,000 in
/// size.
///
/// ```
/// use byrlygent::whole::{check_reason, Ground, Line, Reason};
///
/// let [plate, tool] = [[(0, 0), (4, 0), (0, 3)], [(4, 0), (6, 0), (6, 2)]];
/// let beside = Line { p: (4, 9), q: (4, 0) };
/// let reason = Reason { lines: vec![beside; 3] };
/// assert_eq!(check_reason(&plate, &tool, (0, 9), &reason)?, Ground::Clear);
/// let ground = check_reason(&plate, &tool, (-1, 9), &reason)?;
/// assert_eq!(ground.to_string(), "edge 0 is not parted from the way");
/// # Ok::<(), byrlygent::Refusal>(())
/// ```
pub fn check_reason(
    stationary: &[impl Into<Point> + Copy],
    orbiting: &[impl Into<Point> + Copy],
    by: Point,
    reason: &Reason,
) -> Result<Ground> {
    let [a, b] = Entries::sliding(stationary.len(), orbiting.len());
    let lists = [a, b, Entries::reason(reason.lines.len(), stationary.len())];
    let mut cells = Cells::default();
    let number = cells.checked(&flat(stationary), &flat(orbiting), by, &reason.numbers());
    among(&lists, number, cells.place)?;
    Ok(Ground::numbered(cells.ground, cells.edge))
}

/// Whether nothing lies in between on any leg of a path of 3 to 10,001 points, that from
/// the last to the first included, for the orbiting polygon, lent as drawn: [`clear_move`]
/// on each, up to the first that is not clear. Its corners at each point are at most
/// 1,000,000 in size; the points themselves may be any.
///
/// ```
/// use byrlygent::whole::{clear_path, Legs};
///
/// let [block, tool] = [4, 2].map(|side| [(0, 0), (side, 0), (side, side), (0, side)]);
/// let round = [(-2, -2), (4, -2), (4, 4), (-2, 4)];
/// assert_eq!(clear_path(&block, &tool, &round)?, Legs::Clear);
/// let through = clear_path(&block, &tool, &round[..3])?;
/// assert_eq!(through, Legs::Edge { leg: 2, edge: 0 });
/// let words = "on the leg from point 2 edge 0 is not parted from the way";
/// assert_eq!(through.to_string(), words);
/// # Ok::<(), byrlygent::Refusal>(())
/// ```
pub fn clear_path(
    stationary: &[impl Into<Point> + Copy],
    orbiting: &[impl Into<Point> + Copy],
    path: &[impl Into<Point> + Copy],
) -> Result<Legs> {
    let [a, b] = Entries::sliding(stationary.len(), orbiting.len());
    let lists = [a, b, Entries::path(path.len())];
    let mut cells = Cells::default();
    let number = cells.legs(&flat(stationary), &flat(orbiting), &flat(path));
    among(&lists, number, cells.place)?;
    let leg = cells.leg as usize;
    Ok(match Ground::numbered(cells.ground, cells.edge) {
        Ground::Clear => Legs::Clear,
        Ground::Edge(edge) => Legs::Edge { leg, edge },
        Ground::Enclosed => Legs::Enclosed { leg },
    })
}

/// The cells that the library writes.
#[derive(Debug, Clone, Copy, PartialEq, Default)]
struct Cells {
    ground: u32,
    leg: u64,
    edge: u64,
    place: u64,
}

impl Cells {
    /// Lends the cells to the search with this room; the number of the refusal.
    fn searched(
        &mut self,
        stationary: &[i32],
        orbiting: &[i32],
        by: Point,
        room: &mut [i32],
    ) -> u32 {
        // SAFETY: all lists are as long as is said, and every cell is there.
        unsafe {
            ffi::byr_whole_clear_move(
                stationary.as_ptr(),
                stationary.len(),
                orbiting.as_ptr(),
                orbiting.len(),
                by.0,
                by.1,
                room.as_mut_ptr(),
                room.len(),
                &mut self.ground,
                &mut self.edge,
                &mut self.place,
            )
        }
    }

    /// Lends the cells to the check of this reason; the number of the refusal.
    fn checked(&mut self, stationary: &[i32], orbiting: &[i32], by: Point, reason: &[i32]) -> u32 {
        // SAFETY: all lists are as long as is said, and every cell is there.
        unsafe {
            ffi::byr_whole_check_reason(
                stationary.as_ptr(),
                stationary.len(),
                orbiting.as_ptr(),
                orbiting.len(),
                by.0,
                by.1,
                reason.as_ptr(),
                reason.len(),
                &mut self.ground,
                &mut self.edge,
                &mut self.place,
            )
        }
    }

    /// Lends the cells with this path; the number of the refusal.
    fn legs(&mut self, stationary: &[i32], orbiting: &[i32], path: &[i32]) -> u32 {
        // SAFETY: all lists are as long as is said, and every cell is there.
        unsafe {
            ffi::byr_whole_clear_path(
                stationary.as_ptr(),
                stationary.len(),
                orbiting.as_ptr(),
                orbiting.len(),
                path.as_ptr(),
                path.len(),
                &mut self.ground,
                &mut self.leg,
                &mut self.edge,
                &mut self.place,
            )
        }
    }
}

#[cfg(test)]
mod tests {
    use super::Cells;

    const S: [i32; 8] = [0, 0, 4, 0, 4, 4, 0, 4];
    const BESIDE: [i32; 8] = [4, 0, 8, 0, 8, 4, 4, 4];
    const M: i32 = 1_000_000;

    /// What the cells hold before a call: no answer there is.
    const HELD: Cells = Cells { ground: 77, leg: 7777, edge: 7777, place: 7777 };

    /// The number, the cells and a room of this length after the search.
    fn searched(orbiting: &[i32], dx: i32, length: usize) -> (u32, Cells, Vec<i32>) {
        let (mut cells, mut room) = (HELD, vec![77; length]);
        (cells.searched(&S, orbiting, (dx, 0), &mut room), cells, room)
    }

    /// The number and the cells after the check of a reason for no move.
    fn checked(orbiting: &[i32], reason: &[i32]) -> (u32, Cells) {
        let mut cells = HELD;
        (cells.checked(&S, orbiting, (0, 0), reason), cells)
    }

    /// The number and the cells after a path.
    fn legs(path: &[i32]) -> (u32, Cells) {
        let mut cells = HELD;
        (cells.legs(&S, &S, path), cells)
    }

    #[test]
    fn a_clear_move_writes_the_ground_and_the_rooms_front() {
        let clear = Cells { ground: 0, ..HELD };
        let (number, cells, room) = searched(&BESIDE, 1, 19);
        assert_eq!((number, cells, &room[16..]), (0, clear, &[77; 3][..]));
        assert_eq!(checked(&BESIDE, &room[..16]), (0, clear));
        assert_eq!(searched(&BESIDE, 1, 15), (5, HELD, vec![77; 15]));
    }

    #[test]
    fn another_ground_leaves_the_room_and_an_enclosed_way_the_edge() {
        let edge = Cells { ground: 1, edge: 1, ..HELD };
        assert_eq!(searched(&BESIDE, -1, 15), (0, edge, vec![77; 15]));
        assert_eq!(searched(&S, 0, 0), (0, Cells { ground: 2, ..HELD }, vec![]));
        let own = [0, 0, 4, 0, 4, 0, 4, 4, 4, 4, 0, 4, 0, 4, 0, 0];
        assert_eq!(checked(&S, &own), (0, Cells { ground: 2, ..HELD }));
        assert_eq!(checked(&BESIDE, &[7; 16]), (0, Cells { ground: 1, edge: 0, ..HELD }));
    }

    #[test]
    fn a_leg_is_written_unless_all_are_clear() {
        let round = [-4, -4, 4, -4, 4, 4, -4, 4];
        assert_eq!(legs(&round), (0, Cells { ground: 0, ..HELD }));
        assert_eq!(legs(&round[..6]), (0, Cells { ground: 1, leg: 2, edge: 0, ..HELD }));
        assert_eq!(legs(&[0; 6]), (0, Cells { ground: 2, leg: 0, ..HELD }));
    }

    #[test]
    fn a_refusal_writes_at_most_the_place() {
        assert_eq!(searched(&BESIDE, M, 16), (2, HELD, vec![77; 16]));
        assert_eq!(searched(&BESIDE[..7], M, 0), (1, Cells { place: 1, ..HELD }, vec![]));
        assert_eq!(checked(&BESIDE, &[M + 1; 15]), (1, Cells { place: 2, ..HELD }));
        assert_eq!(checked(&BESIDE, &[M + 1; 12]), (8, Cells { place: 2, ..HELD }));
        assert_eq!(checked(&BESIDE, &[M + 1; 20]), (9, Cells { place: 2, ..HELD }));
        assert_eq!(checked(&BESIDE, &[M + 1; 16]), (2, HELD));
        assert_eq!(legs(&[M; 5]), (1, Cells { place: 2, ..HELD }));
        assert_eq!(legs(&[M; 4]), (8, Cells { place: 2, ..HELD }));
        assert_eq!(legs(&[M; 20_004]), (9, Cells { place: 2, ..HELD }));
        assert_eq!(legs(&[M; 6]), (2, HELD));
    }
}
