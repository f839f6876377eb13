//! The list `traces`. A record is sixteen words of header: the lengths of the
//! stationary polygon, the orbiting polygon, the work room and the result room,
//! the bits of the tolerance and of the smallest move, the pass limit, the
//! refusal number, the points of the result, the points stored, the passes, the
//! stop reason (0 where docs/SCOPE.md does not return them), the place that the
//! refusal tells (0 where it tells none) and three zeros; then both polygons, both
//! rooms at entry and both rooms at exit.

mod runs;
mod sample;

use super::{answer_bits, bits, float_room, once, refused, List};
use crate::answers::{Error, Point, Trace};
use crate::calls::{self, points_of, Traced};
use crate::fixed::nfp_sliding::{self as text, SlidingNfpConfig};
use crate::refusals::{self, Settings};
use crate::seeded::Seeded;

pub use runs::eventful;

/// Words of the header.
pub const HEADER: usize = 16;
/// Most words of a room in the list.
pub const MOST_ROOM: usize = 20_100;

/// The list with both its forms.
pub const LIST: List = List { stored: records, long, counted };

/// A trace with what is lent to it; of a room only the length.
#[derive(Clone)]
struct Case {
    stationary: Vec<f64>,
    orbiting: Vec<f64>,
    settings: Settings,
    rooms: [usize; 2],
}

impl Case {
    /// A trace with rooms that are just long enough for its path.
    fn of(stationary: &[f64], orbiting: &[f64], settings: Settings) -> Self {
        let exact = 2 * path_of(stationary, orbiting, &settings).len();
        let [stationary, orbiting] = [stationary, orbiting].map(<[f64]>::to_vec);
        Self { stationary, orbiting, settings, rooms: [exact, exact] }
    }

    /// The same with rooms of these lengths.
    fn lent(&self, rooms: [usize; 2]) -> Self {
        Self { rooms: rooms.map(|room| room.min(MOST_ROOM)), ..self.clone() }
    }
}

/// The trace with room for every point, nothing where it is refused before.
fn traced(stationary: &[f64], orbiting: &[f64], settings: &Settings) -> Option<Trace> {
    refusals::polygons(stationary, orbiting).ok()?;
    refusals::settings(settings).ok()?;
    let config = SlidingNfpConfig {
        contact_tolerance: settings.contact_tolerance,
        max_iterations: settings.max_iterations as usize,
        min_translation: settings.min_translation,
    };
    let (stationary, orbiting) = (points_of(stationary), points_of(orbiting));
    match text::compute_nfp_sliding(&stationary, &orbiting, &config, usize::MAX) {
        Ok(nfp) => Some(nfp.trace),
        Err(Error::Short(trace)) => Some(trace),
        Err(_) => unreachable!("there is room for every point"),
    }
}

/// The points that a trace stores if it has the room; the origin alone where it
/// is refused before it begins.
pub fn path_of(stationary: &[f64], orbiting: &[f64], settings: &Settings) -> Vec<Point> {
    traced(stationary, orbiting, settings).map_or(vec![(0.0, 0.0)], |trace| trace.path)
}

/// The points of the result, the points stored, the passes and the stop reason.
fn values(traced: Traced) -> [u64; 4] {
    match traced {
        Traced::Refused(_) => [0; 4],
        Traced::Full { passes } => [0, 0, passes, 0],
        Traced::Short { passes, stop } => [0, 0, passes, u64::from(stop)],
        Traced::Done { points, stored, passes, stop } => [points, stored, passes, u64::from(stop)],
    }
}

/// The record of a case.
fn record(case: &Case) -> Vec<u64> {
    let Case { stationary, orbiting, settings, rooms } = case;
    let before = rooms.map(float_room);
    let [mut work, mut result] = before.clone();
    let traced = calls::compute_nfp_sliding(stationary, orbiting, settings, &mut work, &mut result);
    let lengths = [stationary.len(), orbiting.len(), rooms[0], rooms[1]];
    let mut words: Vec<u64> = lengths.map(|length| length as u64).to_vec();
    words.extend(bits(&[settings.contact_tolerance, settings.min_translation]));
    let [number, place] = refused(traced.refusal());
    words.extend([settings.max_iterations, number]);
    words.extend(values(traced));
    words.extend([place, 0, 0, 0]);
    [stationary, orbiting, &before[0], &before[1]].iter().for_each(|list| words.extend(bits(list)));
    words.extend(work.into_iter().chain(result).map(answer_bits));
    words
}

/// The list, record by record, none twice.
pub fn records() -> Vec<Vec<u64>> {
    once(runs::cases().iter().map(record).collect())
}

/// A record of a long run: by turns polygons about the bounds of their length, as
/// far as there are any, and a seeded trace.
fn long(seeded: &mut Seeded, place: u64) -> Vec<u64> {
    let bounds = if place.is_multiple_of(2) { runs::swept(place / 2) } else { None };
    record(&bounds.unwrap_or_else(|| sample::case(seeded)))
}

/// The refusal number, the stop reason where one is returned, and the limit.
fn counted(record: &[u64]) -> Vec<String> {
    let (limit, number, stop) = (record[6], record[7], record[11]);
    let mut labels = vec!["all".to_string(), format!("refusal {number}")];
    if stop > 0 {
        labels.push(format!("stop reason {stop}"));
        labels.push(format!("stop reason {stop}, refusal {number}"));
    }
    let upto = [0, 1, 2, 60, 200, 10_000].into_iter().find(|&most| limit <= most);
    labels.push(upto.map_or("limit above 10000".to_string(), |most| format!("limit to {most:5}")));
    labels
}
