//! The lists that a call is lent, by name, with how many entries each has and may
//! have. A call puts its own in the order in which the library counts them.

use std::fmt;

/// A list that a call is lent. Later versions may have more.
#[derive(Debug, Clone, Copy, PartialEq, Eq)]
#[non_exhaustive]
pub enum List {
    /// The polygon that stays where it is.
    Stationary,
    /// The polygon that moves.
    Orbiting,
    /// The positions that were visited.
    Visited,
    /// The path that is checked, or whose legs are asked about.
    Path,
    /// The reason that is checked.
    Reason,
    /// The first of two rings, or of two polygons.
    First,
    /// The second of them.
    Second,
    /// The only ring of a call.
    Ring,
    /// The only list of points of a call.
    Points,
    /// The rings of a book.
    Book,
    /// One ring of a book, counted from 0.
    RingOfBook(usize),
}

impl List {
    /// What one entry of it is called, and what several are.
    fn entries(self) -> (&'static str, &'static str) {
        match self {
            Self::Visited => ("position", "positions"),
            Self::Path | Self::Points => ("point", "points"),
            Self::Reason => ("line", "lines"),
            Self::Book => ("ring", "rings"),
            _ => ("vertex", "vertices"),
        }
    }
}

impl fmt::Display for List {
    fn fmt(&self, f: &mut fmt::Formatter<'_>) -> fmt::Result {
        f.write_str(match self {
            Self::Stationary => "the stationary polygon",
            Self::Orbiting => "the orbiting polygon",
            Self::Visited => "the visited list",
            Self::Path => "the path",
            Self::Reason => "the reason",
            Self::First => "the first outline",
            Self::Second => "the second outline",
            Self::Ring => "the ring",
            Self::Points => "the list",
            Self::Book => "the book",
            Self::RingOfBook(ring) => return write!(f, "ring {ring} of the book"),
        })
    }
}

/// How many entries a lent list has, and how many it may have.
#[derive(Debug, Clone, Copy, PartialEq, Eq)]
pub struct Entries {
    /// Which list it is.
    pub list: List,
    /// The entries that it has.
    pub has: usize,
    /// The fewest that it may have.
    pub least: usize,
    /// The most that it may have.
    pub most: usize,
}

impl Entries {
    /// A polygon of so many vertices.
    pub(crate) fn polygon(list: List, has: usize) -> Self {
        Self { list, has, least: 3, most: 256 }
    }

    /// The two polygons of a sliding call, of so many vertices each.
    pub(crate) fn sliding(stationary: usize, orbiting: usize) -> [Self; 2] {
        [Self::polygon(List::Stationary, stationary), Self::polygon(List::Orbiting, orbiting)]
    }

    /// A ring of so many vertices, which may have none.
    pub(crate) fn ring(list: List, has: usize) -> Self {
        Self { list, has, least: 0, most: 256 }
    }

    /// A ring of so many vertices that is to be mended: it has one at least.
    pub(crate) fn mendable(list: List, has: usize) -> Self {
        Self { list, has, least: 1, most: 256 }
    }

    /// A list of so many points, which may have none.
    pub(crate) fn points(list: List, has: usize) -> Self {
        Self { list, has, least: 0, most: 10_001 }
    }

    /// A path of so many points that is to be checked: it has three at least.
    pub(crate) fn path(has: usize) -> Self {
        Self { list: List::Path, has, least: 3, most: 10_001 }
    }

    /// A path of so many points whose legs are asked about: it has one leg at least.
    pub(crate) fn legs(has: usize) -> Self {
        Self { list: List::Path, has, least: 2, most: 10_001 }
    }

    /// A reason of so many lines, which has one for each of so many edges.
    pub(crate) fn reason(has: usize, edges: usize) -> Self {
        Self { list: List::Reason, has, least: edges, most: edges }
    }

    /// A book of so many rings.
    pub(crate) fn book(has: usize) -> Self {
        Self { list: List::Book, has, least: 1, most: 8 }
    }
}

impl fmt::Display for Entries {
    fn fmt(&self, f: &mut fmt::Formatter<'_>) -> fmt::Result {
        let Self { list, has, least, most } = self;
        let (one, several) = list.entries();
        match has {
            0 => write!(f, "{list} has no {several}")?,
            1 => write!(f, "{list} has 1 {one}")?,
            _ => write!(f, "{list} has {has} {several}")?,
        }
        if least == most {
            return write!(f, ": it must have {least}");
        }
        write!(f, ": it may have {least} to {most}")
    }
}
