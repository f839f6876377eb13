//! The list `paths`. A record is ten words of header: the lengths of the stationary
//! polygon, the orbiting polygon and the path, the bits of the tolerance and of the
//! smallest move, the pass limit, the refusal number, the fault and its index, both 0
//! where there is none, and the place that the refusal tells, 0 where it tells none;
//! then both polygons and the path.

mod runs;
mod sample;

use super::{bits, once, refused, List};
use crate::path::{check_path, numbered};
use crate::refusals::Settings;
use crate::seeded::Seeded;

/// Words of the header.
pub const HEADER: usize = 10;
/// Most words of a polygon, and of a path, in the list.
pub const MOST_POLYGON: usize = 600;
pub const MOST_PATH: usize = 20_100;

/// The list with both its forms.
pub const LIST: List = List { stored: records, long, counted };

/// A path with what else is lent.
#[derive(Clone)]
struct Case {
    stationary: Vec<f64>,
    orbiting: Vec<f64>,
    settings: Settings,
    path: Vec<f64>,
}

impl Case {
    /// The case of these polygons and this path.
    fn of(pair: [&[f64]; 2], settings: Settings, path: &[f64]) -> Self {
        let [stationary, orbiting] = pair.map(<[f64]>::to_vec);
        Self { stationary, orbiting, settings, path: path.to_vec() }
    }
}

/// The record of a case.
fn record(Case { stationary, orbiting, settings, path }: &Case) -> Vec<u64> {
    let answer = check_path(stationary, orbiting, settings, path);
    let [number, place] = refused(answer.err());
    let (fault, index) = numbered(answer.unwrap_or(None));
    let lists = [stationary, orbiting, path];
    let mut words: Vec<u64> = lists.map(|list| list.len() as u64).to_vec();
    words.extend(bits(&[settings.contact_tolerance, settings.min_translation]));
    words.extend([settings.max_iterations, number, u64::from(fault), index, place]);
    lists.iter().for_each(|list| words.extend(bits(list)));
    words
}

/// The list, record by record, none twice.
pub fn records() -> Vec<Vec<u64>> {
    once(runs::cases().iter().map(record).collect())
}

/// A record of a long run: by turns lists about the bounds of their length, as far as
/// there are any, and a seeded path.
fn long(seeded: &mut Seeded, place: u64) -> Vec<u64> {
    let bounds = if place.is_multiple_of(2) { runs::swept(place / 2) } else { None };
    record(&bounds.unwrap_or_else(|| sample::case(seeded)))
}

/// The refusal number or the fault, and of a leg whether it leads back to the first
/// point.
fn counted(record: &[u64]) -> Vec<String> {
    let [points, number, fault, index] = [record[2] / 2, record[6], record[7], record[8]];
    let told = match (number, fault) {
        (0, 0) => "accepted".to_string(),
        (0, 1) => "no contact at a point".to_string(),
        (0, _) if index + 1 == points => "the last leg blocked".to_string(),
        (0, _) => "a leg blocked".to_string(),
        _ => format!("refusal {number}"),
    };
    vec!["check_path: all".to_string(), format!("check_path: {told}")]
}
