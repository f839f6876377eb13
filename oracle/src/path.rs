//! `check_path`, written down from docs/SCOPE.md: the faults of all points and legs of
//! a path stand in one list, and the first is told. The Rust has no counterpart;
//! contacts and collisions are the text's.

use crate::answers::Point;
use crate::calls::points_of;
use crate::fixed::nfp_sliding::{check_translation_collision, find_contacts};
use crate::refusals::{self, lists, Answer, Settings, CHECKED, POLYGON};

/// What is wrong with a path.
#[derive(Debug, Clone, Copy, PartialEq, Eq)]
pub enum Fault {
    /// At this point the orbiting polygon has no contact.
    Point(usize),
    /// On the leg from this point to the next it runs into something.
    Leg(usize),
}

/// docs/SCOPE.md's number of a path's first fault, or of none, and its index, 0 where
/// there is none.
pub fn numbered(first: Option<Fault>) -> (u32, u64) {
    match first {
        None => (0, 0),
        Some(Fault::Point(index)) => (1, index as u64),
        Some(Fault::Leg(index)) => (2, index as u64),
    }
}

/// The polygon with each vertex moved to this point.
fn moved(polygon: &[Point], to: Point) -> Vec<Point> {
    polygon.iter().map(|&(x, y)| (x + to.0, y + to.1)).collect()
}

/// The points of a path, each with the one after it; the last is followed by the first.
fn legs(path: &[Point]) -> impl Iterator<Item = (usize, Point, Point)> + '_ {
    let next = path.iter().cycle().skip(1);
    path.iter().zip(next).enumerate().map(|(i, (&from, &to))| (i, from, to))
}

/// The faults of a point and of the leg that begins there, in this order.
fn faults(
    stationary: &[Point],
    orbiting: &[Point],
    tolerance: f64,
    (i, from, to): (usize, Point, Point),
) -> Vec<Fault> {
    let there = moved(orbiting, from);
    let by = (to.0 - from.0, to.1 - from.1);
    let mut found = Vec::new();
    if find_contacts(stationary, &there, tolerance).is_empty() {
        found.push(Fault::Point(i));
    }
    if check_translation_collision(stationary, &there, by, tolerance).is_some() {
        found.push(Fault::Leg(i));
    }
    found
}

/// 1, 8 and 9 for both polygons and the path, then 2 and 3.
fn tests(stationary: &[f64], orbiting: &[f64], settings: &Settings, path: &[f64]) -> Answer<()> {
    lists(&[(stationary, POLYGON), (orbiting, POLYGON), (path, CHECKED)])?;
    refusals::coordinates(stationary)?;
    refusals::coordinates(orbiting)?;
    refusals::finite(path)?;
    refusals::settings(settings)
}

/// The first fault of a path that the orbiting polygon, lent as drawn, is to take round
/// the stationary one, in the order point 0, leg 0, point 1 and so on; nothing if there
/// is none.
pub fn check_path(
    stationary: &[f64],
    orbiting: &[f64],
    settings: &Settings,
    path: &[f64],
) -> Answer<Option<Fault>> {
    tests(stationary, orbiting, settings, path)?;
    let (stationary, orbiting, path) =
        (points_of(stationary), points_of(orbiting), points_of(path));
    let tolerance = settings.contact_tolerance;
    let mut all = legs(&path).flat_map(|leg| faults(&stationary, &orbiting, tolerance, leg));
    Ok(all.next())
}
