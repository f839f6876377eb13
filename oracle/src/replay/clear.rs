//! The list `clear`. A record is eleven words of header: the call, the lengths of the
//! stationary polygon, the orbiting polygon and the third list, the move, the refusal
//! number, the ground, the leg and the edge, 0 where there is none, and the place that
//! the refusal tells, 0 where it tells none; then the three lists, and for clear_move,
//! whose third is its room, the room at exit. Numbers are 64-bit two's complement.
//!
//! The calls are 0 clear_move, 1 check_reason, whose third list is the reason, and 2
//! clear_path, whose third is the path and whose move is 0.

mod cases;
mod sample;

pub(super) use cases::spoilt;

use super::{once, refused, List};
use crate::clear::{check_reason, clear_move, clear_path, numbered, Ground};
use crate::refusals::Answer;
use crate::seeded::Seeded;
use crate::whole::Spot;

pub const CLEAR_MOVE: u64 = 0;
pub const CHECK_REASON: u64 = 1;
pub const CLEAR_PATH: u64 = 2;

/// The names of the calls, by their number.
const NAMES: [&str; 3] = ["clear_move", "check_reason", "clear_path"];

/// Words of the header.
pub const HEADER: usize = 11;
/// Most words of a polygon, of a room or a reason, and of a path, in the list.
pub const MOST_POLYGON: usize = 600;
pub const MOST_REASON: usize = 1_100;
pub const MOST_PATH: usize = 20_100;

/// The list with both its forms.
pub const LIST: List = List { stored: records, long, counted };

/// A call with what is lent to it; the third list is a room, a reason or a path.
#[derive(Clone)]
struct Case {
    call: u64,
    stationary: Vec<i32>,
    orbiting: Vec<i32>,
    third: Vec<i32>,
    by: Spot,
}

impl Case {
    /// The search for a reason, with a room of this length.
    fn search(pair: [&[i32]; 2], by: Spot, length: usize) -> Self {
        Self::of(CLEAR_MOVE, pair, &room(length), by)
    }

    /// The check of a reason.
    fn check(pair: [&[i32]; 2], by: Spot, reason: &[i32]) -> Self {
        Self::of(CHECK_REASON, pair, reason, by)
    }

    /// The legs of a path.
    fn path(pair: [&[i32]; 2], path: &[i32]) -> Self {
        Self::of(CLEAR_PATH, pair, path, (0, 0))
    }

    /// A call on these lists.
    fn of(call: u64, pair: [&[i32]; 2], third: &[i32], by: Spot) -> Self {
        let [stationary, orbiting] = pair.map(<[i32]>::to_vec);
        Self { call, stationary, orbiting, third: third.to_vec(), by }
    }
}

/// A room of this length whose every number can be told from a coordinate.
fn room(length: usize) -> Vec<i32> {
    (0..length as i32).map(|i| i32::MIN + 3 * i).collect()
}

/// The reason of a move; nothing where it is not clear, or refused.
fn reason_of(stationary: &[i32], orbiting: &[i32], by: Spot) -> Option<Vec<i32>> {
    let mut room = vec![0; 4 * (stationary.len() / 2)];
    let ground = clear_move(stationary, orbiting, by, &mut room);
    (ground == Ok(Ground::Clear)).then_some(room)
}

/// Integers as words.
fn words(list: &[i32]) -> Vec<u64> {
    list.iter().map(|&x| i64::from(x) as u64).collect()
}

/// What the call answers, with the leg, 0 where there is none; and the room at exit.
fn answered(case: &Case) -> (Answer<(Ground, usize)>, Vec<i32>) {
    let Case { call, stationary, orbiting, third, by } = case;
    let mut room = third.clone();
    let answer = match *call {
        CLEAR_MOVE => clear_move(stationary, orbiting, *by, &mut room).map(|ground| (ground, 0)),
        CHECK_REASON => check_reason(stationary, orbiting, *by, third).map(|ground| (ground, 0)),
        _ => clear_path(stationary, orbiting, third)
            .map(|first| first.map_or((Ground::Clear, 0), |(leg, ground)| (ground, leg))),
    };
    (answer, room)
}

/// The record of a case.
fn record(case: &Case) -> Vec<u64> {
    let (answer, room) = answered(case);
    let [number, place] = refused(answer.err());
    let (ground, leg) = answer.unwrap_or((Ground::Clear, 0));
    let (ground, edge) = numbered(ground);
    let lists = [&case.stationary, &case.orbiting, &case.third];
    let mut header = vec![case.call];
    header.extend(lists.map(|list| list.len() as u64));
    header.extend(words(&[case.by.0, case.by.1]));
    header.extend([number, u64::from(ground), leg as u64, edge, place]);
    lists.iter().for_each(|list| header.extend(words(list)));
    if case.call == CLEAR_MOVE {
        header.extend(words(&room));
    }
    header
}

/// The list, record by record, none twice.
pub fn records() -> Vec<Vec<u64>> {
    once(cases::cases().iter().map(record).collect())
}

/// A record of a long run: by turns lists about the bounds of their length, as far as
/// there are any, and a seeded case.
fn long(seeded: &mut Seeded, place: u64) -> Vec<u64> {
    let bounds = if place.is_multiple_of(2) { cases::swept(place / 2) } else { None };
    record(&bounds.unwrap_or_else(|| sample::case(seeded, place / 2 % NAMES.len() as u64)))
}

/// The call, with its refusal number, and its ground where it is not refused.
fn counted(record: &[u64]) -> Vec<String> {
    let (call, number, ground) = (record[0], record[6], record[7]);
    let name = NAMES[call as usize];
    let told = match (number, ground) {
        (0, 0) => "clear".to_string(),
        (0, 1) => "edge".to_string(),
        (0, _) => "enclosed".to_string(),
        _ => format!("refusal {number}"),
    };
    vec![format!("{call} {name}: all"), format!("{call} {name}: {told}")]
}
