//! The list `rings`. A record is seven words of header: the call, the lengths of
//! list a, list b and the room, the refusal number, the value answered and the
//! place that the refusal tells; then list a, list b, the room at entry and the
//! room at exit.
//!
//! The calls are 0 orientation (a, b, c), 1 on_segment (a, b, p),
//! 2 segments_intersect, 3 point_segment_distance (p, a, b), 4 mirror_polygon,
//! 5 open_ring, 6 is_simple_polygon, 7 ring_distance, 8 signed_area2,
//! 9 signed_area_robust, 10 project_point_to_segment (p, a, b),
//! 11 point_to_segment_distance (p, a, b), 12 point_on_segment (p, a, b and the
//! tolerance), 13 the foot that project_point_to_segment tells beside its
//! parameter, 14 mend_ring. A value is a float's bits, 0 or 1, a turn as 64-bit
//! two's complement, a number of vertices, or a foot's code; 0 where refused. The
//! place is 0 where none is told.
//!
//! Of mend_ring the value has the dropped vertices 65,536 times besides, list b is
//! the room for their points, and the record goes on with that room at exit, the
//! length of the room for their indices and whys, and this room at entry and at
//! exit.

mod corners;
mod lists;
mod mending;
mod sample;

use super::{answer_bits, once, refused, List};
use crate::calls;
use crate::mend::mend_ring;
use crate::refusals::Answer;
use crate::seeded::Seeded;

pub const ORIENTATION: u64 = 0;
pub const ON_SEGMENT: u64 = 1;
pub const SEGMENTS_INTERSECT: u64 = 2;
pub const POINT_SEGMENT_DISTANCE: u64 = 3;
pub const MIRROR_POLYGON: u64 = 4;
pub const OPEN_RING: u64 = 5;
pub const IS_SIMPLE_POLYGON: u64 = 6;
pub const RING_DISTANCE: u64 = 7;
pub const SIGNED_AREA2: u64 = 8;
pub const SIGNED_AREA_ROBUST: u64 = 9;
pub const PROJECT_POINT_TO_SEGMENT: u64 = 10;
pub const POINT_TO_SEGMENT_DISTANCE: u64 = 11;
pub const POINT_ON_SEGMENT: u64 = 12;
pub const PROJECTED_FOOT: u64 = 13;
pub const MEND_RING: u64 = 14;

pub use mending::every;

/// The names of the calls, by their number.
const NAMES: [&str; 15] = [
    "orientation",
    "on_segment",
    "segments_intersect",
    "point_segment_distance",
    "mirror_polygon",
    "open_ring",
    "is_simple_polygon",
    "ring_distance",
    "signed_area2",
    "signed_area_robust",
    "project_point_to_segment",
    "point_to_segment_distance",
    "point_on_segment",
    "project_point_to_segment, the foot",
    "mend_ring",
];

/// Words of the header.
pub const HEADER: usize = 7;

/// The list with both its forms.
pub const LIST: List = List { stored: records, long, counted };

/// A call with what is lent to it.
struct Case {
    call: u64,
    a: Vec<f64>,
    b: Vec<f64>,
    room: Vec<f64>,
    /// The room of a ring's report, for indices and whys.
    dropped: Vec<u64>,
}

impl Case {
    /// A call that takes one list.
    fn of(call: u64, a: &[f64]) -> Self {
        let (b, room, dropped) = (Vec::new(), Vec::new(), Vec::new());
        Self { call, a: a.to_vec(), b, room, dropped }
    }
}

/// What the call answers, as the value of a record; writes the room.
fn answer(call: u64, a: &[f64], b: &[f64], room: &mut [f64]) -> Answer<u64> {
    let p = |i: usize| (a[2 * i], a[2 * i + 1]);
    match call {
        ORIENTATION => calls::orientation(p(0), p(1), p(2)).map(|turn| i64::from(turn) as u64),
        ON_SEGMENT => calls::on_segment(p(0), p(1), p(2)).map(u64::from),
        SEGMENTS_INTERSECT => calls::segments_intersect(p(0), p(1), p(2), p(3)).map(u64::from),
        POINT_SEGMENT_DISTANCE => calls::point_segment_distance(p(0), p(1), p(2)).map(answer_bits),
        MIRROR_POLYGON => calls::mirror_polygon(a, room).map(|vertices| vertices as u64),
        OPEN_RING => calls::open_ring(a, room).map(|vertices| vertices as u64),
        IS_SIMPLE_POLYGON => calls::is_simple_polygon(a).map(u64::from),
        RING_DISTANCE => calls::ring_distance(a, b).map(answer_bits),
        SIGNED_AREA2 => calls::signed_area2(a).map(answer_bits),
        SIGNED_AREA_ROBUST => calls::signed_area_robust(a).map(answer_bits),
        PROJECT_POINT_TO_SEGMENT => {
            calls::project_point_to_segment(p(0), p(1), p(2)).map(|told| answer_bits(told.0))
        }
        POINT_TO_SEGMENT_DISTANCE => {
            calls::point_to_segment_distance(p(0), p(1), p(2)).map(answer_bits)
        }
        POINT_ON_SEGMENT => calls::point_on_segment(p(0), p(1), p(2), a[6]).map(u64::from),
        PROJECTED_FOOT => {
            calls::project_point_to_segment(p(0), p(1), p(2)).map(|told| u64::from(told.1))
        }
        _ => unreachable!("mend_ring has records of its own"),
    }
}

/// The record of a case as far as all calls have it: its answer, and the room at
/// exit.
fn words_of(case: &Case, answer: Answer<u64>, room: &[f64]) -> Vec<u64> {
    let [number, place] = refused(answer.err());
    let mut words = vec![case.call];
    words.extend([&case.a, &case.b, &case.room].map(|list| list.len() as u64));
    words.extend([number, answer.unwrap_or(0), place]);
    for list in [&case.a[..], &case.b, &case.room, room] {
        words.extend(list.iter().map(|x| x.to_bits()));
    }
    words
}

/// The record of a ring that is mended.
fn mended(case: &Case) -> Vec<u64> {
    let (mut room, mut dropped, mut points) =
        (case.room.clone(), case.dropped.clone(), case.b.clone());
    let answer = mend_ring(&case.a, &mut room, &mut dropped, &mut points);
    let value = |(vertices, gone): (usize, usize)| vertices as u64 + 65_536 * gone as u64;
    let mut words = words_of(case, answer.map(value), &room);
    words.extend(points.iter().map(|x| x.to_bits()));
    words.push(dropped.len() as u64);
    words.extend([&case.dropped[..], &dropped].concat());
    words
}

/// The record of a case.
fn record(case: &Case) -> Vec<u64> {
    if case.call == MEND_RING {
        return mended(case);
    }
    let mut room = case.room.clone();
    let answer = answer(case.call, &case.a, &case.b, &mut room);
    words_of(case, answer, &room)
}

/// The list, record by record, none twice.
pub fn records() -> Vec<Vec<u64>> {
    let seeded = &mut Seeded::new(0x0f17_0011);
    let mut cases = corners::cases(seeded);
    cases.extend(lists::cases(seeded));
    cases.extend(mending::cases());
    once(cases.iter().map(record).collect())
}

/// A record of a long run: by turns lists about their bounds, as far as there are
/// any, and a seeded case, of these the calls by turns.
fn long(seeded: &mut Seeded, place: u64) -> Vec<u64> {
    let bounds = if place.is_multiple_of(2) { lists::swept(place / 2) } else { None };
    record(&bounds.unwrap_or_else(|| sample::case(seeded, place % NAMES.len() as u64)))
}

/// The call, with its refusal number.
fn counted(record: &[u64]) -> Vec<String> {
    let (call, number) = (record[0], record[4]);
    let name = NAMES[call as usize];
    vec![format!("{call:2} {name}: all"), format!("{call:2} {name}: refusal {number}")]
}
