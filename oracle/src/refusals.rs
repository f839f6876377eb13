//! docs/SCOPE.md's tests of lent lists, numbers, settings and rooms. Each answers
//! the refusal if its test fails; a call runs them in docs/SCOPE.md's order.

use std::fmt;

/// A refusal: its number, and the place it tells, 0 where it tells none.
#[derive(Debug, Clone, Copy, PartialEq, Eq)]
pub struct Refusal {
    pub number: u32,
    pub place: u64,
}

impl Refusal {
    /// The refusal with this number, which tells no place.
    pub fn of(number: u32) -> Self {
        Self::at(number, 0)
    }

    /// The refusal with this number that tells this place.
    pub fn at(number: u32, place: u64) -> Self {
        Self { number, place }
    }

    /// Whether it tells a place: of a list or ring, or of a file's first fault.
    pub fn tells_place(&self) -> bool {
        matches!(self.number, 1 | 7 | 8 | 9 | 10)
    }
}

impl fmt::Display for Refusal {
    /// The line that a program prints, without its end.
    fn fmt(&self, f: &mut fmt::Formatter<'_>) -> fmt::Result {
        write!(f, "refused {}", self.number)?;
        if self.tells_place() {
            write!(f, " {}", self.place)?;
        }
        Ok(())
    }
}

/// An answer, or the refusal.
pub type Answer<T> = Result<T, Refusal>;

/// Most vertices of a ring or polygon.
pub const MOST_VERTICES: usize = 256;
/// Fewest vertices of a sliding polygon.
pub const LEAST_VERTICES: usize = 3;
/// Most points among visited positions, in a list to simplify or in a path to check.
pub const MOST_POINTS: usize = 10_001;
/// Fewest points of a path to check.
pub const LEAST_POINTS: usize = 3;
/// Most passes that a pass limit may allow.
pub const MOST_PASSES: u64 = 10_000;
/// Largest size of a coordinate.
pub const LARGEST: f64 = 1_000_000.0;

/// The settings of a trace.
#[derive(Debug, Clone, Copy)]
pub struct Settings {
    pub contact_tolerance: f64,
    pub min_translation: f64,
    pub max_iterations: u64,
}

/// The refusal unless the test holds.
pub fn unless(test: bool, refusal: Refusal) -> Answer<()> {
    if test {
        Ok(())
    } else {
        Err(refusal)
    }
}

/// What a lent list holds: how many numbers an entry has, and how many entries
/// there are at least and at most.
#[derive(Debug, Clone, Copy)]
pub struct Kind {
    width: usize,
    least: usize,
    most: usize,
}

impl Kind {
    /// A reason: a line for each of so many edges.
    pub fn reason(edges: usize) -> Self {
        Self { width: 4, least: edges, most: edges }
    }
}

/// A ring.
pub const RING: Kind = Kind { width: 2, least: 0, most: MOST_VERTICES };
/// A ring to mend.
pub const MENDABLE: Kind = Kind { width: 2, least: 1, most: MOST_VERTICES };
/// A sliding polygon.
pub const POLYGON: Kind = Kind { width: 2, least: LEAST_VERTICES, most: MOST_VERTICES };
/// Visited positions, or a list to simplify.
pub const PATH: Kind = Kind { width: 2, least: 0, most: MOST_POINTS };
/// A path to check.
pub const CHECKED: Kind = Kind { width: 2, least: LEAST_POINTS, most: MOST_POINTS };
/// A path whose legs are asked about, which may be one.
pub const LEGS: Kind = Kind { width: 2, least: 2, most: MOST_POINTS };
/// Vectors to select from.
pub const VECTORS: Kind = Kind { width: 3, least: 0, most: usize::MAX };

/// 8 for too few entries, 9 for too many, at this place.
pub fn entries(count: usize, least: usize, most: usize, place: u64) -> Answer<()> {
    unless(least <= count, Refusal::at(8, place))?;
    unless(count <= most, Refusal::at(9, place))
}

/// The first fault of a list, at this place: 1 for a length that fits no whole
/// number of entries, then 8, then 9.
pub fn list<T>(list: &[T], kind: Kind, place: u64) -> Answer<()> {
    unless(list.len().is_multiple_of(kind.width), Refusal::at(1, place))?;
    entries(list.len() / kind.width, kind.least, kind.most, place)
}

/// The first fault of a call's lists, one after the other; the place is the
/// list's among them.
pub fn lists<T>(lists: &[(&[T], Kind)]) -> Answer<()> {
    (0..).zip(lists).try_for_each(|(place, &(numbers, kind))| list(numbers, kind, place))
}

/// 2 unless every number is a coordinate: finite and at most a million in size.
pub fn coordinates(numbers: &[f64]) -> Answer<()> {
    unless(numbers.iter().all(|x| x.abs() <= LARGEST), Refusal::of(2))
}

/// 2 unless every number is finite.
pub fn finite(numbers: &[f64]) -> Answer<()> {
    unless(numbers.iter().all(|x| x.is_finite()), Refusal::of(2))
}

/// 3 unless the tolerance is above 0 and at most 1.
pub fn tolerance(tolerance: f64) -> Answer<()> {
    unless(tolerance > 0.0 && tolerance <= 1.0, Refusal::of(3))
}

/// 3 unless every setting is within its bounds.
pub fn settings(settings: &Settings) -> Answer<()> {
    tolerance(settings.contact_tolerance)?;
    let move_size = settings.min_translation;
    unless(move_size.is_finite() && move_size >= 0.0, Refusal::of(3))?;
    unless(settings.max_iterations <= MOST_PASSES, Refusal::of(3))
}

/// 4 unless the work room holds whole points, at least one, and the result room
/// is at least as long.
pub fn trace_rooms(work: &[f64], result: &[f64]) -> Answer<()> {
    unless(work.len().is_multiple_of(2) && work.len() >= 2, Refusal::of(4))?;
    unless(result.len() >= work.len(), Refusal::of(4))
}

/// 5 unless so many entries, each of that many elements, fit a room so long.
pub fn fits(entries: usize, each: usize, room: usize) -> Answer<()> {
    unless(entries * each <= room, Refusal::of(5))
}

/// 1, 8 and 9, and then 2, for a stationary and an orbiting polygon.
pub fn polygons(stationary: &[f64], orbiting: &[f64]) -> Answer<()> {
    lists(&[(stationary, POLYGON), (orbiting, POLYGON)])?;
    coordinates(stationary)?;
    coordinates(orbiting)
}
