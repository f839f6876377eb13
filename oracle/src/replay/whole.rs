//! The list `whole`. A record is five words of header: the call, the length of its
//! list, the refusal number, the value answered and the place that the refusal tells;
//! then the list, each number as 64-bit two's complement.
//!
//! The calls are 0 turn (a, b, c), 1 orientation (a, b, c), 2 on_segment (a, b, p),
//! 3 segments_intersect, 4 is_simple_polygon, 5 signed_area2. A value is 0 or 1, or a
//! turn or twice an area as 64-bit two's complement; 0 where refused. The place is 0
//! where none is told.

mod corners;
mod every;
mod sample;

pub(super) use corners::EDGES;
pub use every::every;
pub(super) use sample::rounded;

use super::{once, refused, List};
use crate::refusals::Answer;
use crate::seeded::Seeded;
use crate::whole;

pub const TURN: u64 = 0;
pub const ORIENTATION: u64 = 1;
pub const ON_SEGMENT: u64 = 2;
pub const SEGMENTS_INTERSECT: u64 = 3;
pub const IS_SIMPLE_POLYGON: u64 = 4;
pub const SIGNED_AREA2: u64 = 5;

/// The calls that take three points.
const THREE_POINT_CALLS: [u64; 3] = [TURN, ORIENTATION, ON_SEGMENT];
/// The calls that take a ring.
const RING_CALLS: [u64; 2] = [IS_SIMPLE_POLYGON, SIGNED_AREA2];

/// The names of the calls, by their number.
const NAMES: [&str; 6] = [
    "turn",
    "orientation",
    "on_segment",
    "segments_intersect",
    "is_simple_polygon",
    "signed_area2",
];

/// Words of the header.
pub const HEADER: usize = 5;

/// The list with both its forms.
pub const LIST: List = List { stored: records, long, counted };

/// A call with the list that is lent to it, or with its points as one.
struct Case {
    call: u64,
    list: Vec<i32>,
}

impl Case {
    /// A call on this list.
    fn of(call: u64, list: &[i32]) -> Self {
        Self { call, list: list.to_vec() }
    }
}

/// An integer as a word.
fn word(number: impl Into<i64>) -> u64 {
    number.into() as u64
}

/// What the call answers, as the value of a record.
fn answer(call: u64, list: &[i32]) -> Answer<u64> {
    let p = |i: usize| (list[2 * i], list[2 * i + 1]);
    match call {
        TURN => whole::turn(p(0), p(1), p(2)).map(word),
        ORIENTATION => whole::orientation(p(0), p(1), p(2)).map(word),
        ON_SEGMENT => whole::on_segment(p(0), p(1), p(2)).map(u64::from),
        SEGMENTS_INTERSECT => whole::segments_intersect(p(0), p(1), p(2), p(3)).map(u64::from),
        IS_SIMPLE_POLYGON => whole::is_simple_polygon(list).map(u64::from),
        SIGNED_AREA2 => whole::signed_area2(list).map(word),
        _ => unreachable!("there are six calls"),
    }
}

/// The record of a case.
fn record(case: &Case) -> Vec<u64> {
    let answer = answer(case.call, &case.list);
    let [number, place] = refused(answer.err());
    let mut words = vec![case.call, case.list.len() as u64, number, answer.unwrap_or(0), place];
    words.extend(case.list.iter().map(|&x| word(x)));
    words
}

/// The list, record by record, none twice.
pub fn records() -> Vec<Vec<u64>> {
    let cases = corners::cases(&mut Seeded::new(0x0f17_0617));
    once(cases.iter().map(record).collect())
}

/// A record of a long run: seeded cases, the calls by turns.
fn long(seeded: &mut Seeded, place: u64) -> Vec<u64> {
    record(&sample::case(seeded, place % NAMES.len() as u64))
}

/// The call, with its refusal number, and its answer where that is one of few.
fn counted(record: &[u64]) -> Vec<String> {
    let (call, number, value) = (record[0], record[2], record[3]);
    let name = NAMES[call as usize];
    let mut all = vec![format!("{call} {name}: all"), format!("{call} {name}: refusal {number}")];
    if number == 0 && call != SIGNED_AREA2 {
        all.push(format!("{call} {name}: answer {}", value as i64));
    }
    all
}
