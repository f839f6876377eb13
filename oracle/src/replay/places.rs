//! The list `places`. A record is seven words of header: n, k, the start, rn, the
//! refusal number, how many places were written and the following start, both 0 where
//! refused; then the room of rn words at entry and at exit.

use super::{once, refused, List};
use crate::inspection::{next_places, Shift, MOST_INSPECTED, MOST_PLACES};
use crate::seeded::Seeded;

/// Words of the header.
pub const HEADER: usize = 7;

/// The list with both its forms.
pub const LIST: List = List { stored: records, long, counted };

/// Most words of a room in the list.
const MOST_ROOM: usize = 80;

/// Numbers of places that are tried, at both ends of their bounds.
const PATHS: [u64; 12] =
    [1, 2, 63, 64, 65, 128, MOST_PLACES - 1, MOST_PLACES, 0, MOST_PLACES + 1, 1 << 32, u64::MAX];
/// Numbers of places in a shift, in the same way.
const SHIFTS: [u64; 10] =
    [1, 2, 5, 63, MOST_INSPECTED, 0, MOST_INSPECTED + 1, 256, 1 << 32, u64::MAX];

/// A shift with what is lent to it; of the room only the length.
struct Case {
    n: u64,
    k: u64,
    start: u64,
    room: usize,
}

/// How many places a shift inspects, were it not refused.
fn inspected(n: u64, k: u64) -> usize {
    n.min(k).min(MOST_INSPECTED) as usize
}

/// A room of this length whose every word can be told from a place.
fn room(length: usize) -> Vec<u64> {
    (0..length as u64).map(|i| u64::MAX - 3 * i).collect()
}

/// A record: what is lent and both states of the room.
fn record(&Case { n, k, start, room: rn }: &Case) -> Vec<u64> {
    let before = room(rn);
    let mut after = before.clone();
    let answer = next_places(n, k, start, &mut after);
    let [number, _] = refused(answer.err());
    let Shift { places, following } = answer.unwrap_or(Shift { places: 0, following: 0 });
    let header = [n, k, start, rn as u64, number, places as u64, following];
    [&header[..], &before, &after].concat()
}

/// Rooms that are one short, just long enough and longer.
fn rooms(n: u64, k: u64) -> [usize; 3] {
    let needed = inspected(n, k);
    [needed.saturating_sub(1), needed, needed + 2]
}

/// The shifts of paths of a few places, from every start and the one past the last.
fn small() -> impl Iterator<Item = Case> {
    let paths = (0..=7).flat_map(|n| (0..=9).map(move |k| (n, k)));
    paths.flat_map(|(n, k)| (0..=n).map(move |start| Case { n, k, start, room: inspected(n, k) }))
}

/// Shifts at the bounds, from starts at both ends of the path: with rooms of each kind
/// where the bounds are kept, and else with one that is long enough.
fn at_the_bounds() -> impl Iterator<Item = Case> {
    let starts = |n: u64, k: u64| {
        let from_end = [k.saturating_add(1), k, k.saturating_sub(1), 1, 0];
        let mut starts = from_end.map(|back| n.saturating_sub(back)).to_vec();
        starts.extend([0, n / 2, n.saturating_add(1), u64::MAX]);
        starts
    };
    let lent = PATHS.iter().flat_map(|&n| SHIFTS.iter().map(move |&k| (n, k)));
    lent.flat_map(move |(n, k)| {
        let kept = (1..=MOST_PLACES).contains(&n) && (1..=MOST_INSPECTED).contains(&k);
        let at = |start| {
            let lengths = rooms(n, k);
            let tried = if kept && start < n { &lengths[..] } else { &lengths[1..2] };
            tried.iter().map(|&room| Case { n, k, start, room }).collect::<Vec<_>>()
        };
        starts(n, k).into_iter().flat_map(at).collect::<Vec<_>>()
    })
}

/// The list, record by record, none twice.
pub fn records() -> Vec<Vec<u64>> {
    once(small().chain(at_the_bounds()).map(|case| record(&case)).collect())
}

/// Every shift on a path of up to so many places, from every start, with rooms of each
/// kind; and one past each bound.
pub fn every(most: u64) -> impl Iterator<Item = Vec<u64>> {
    let paths = (0..=most).flat_map(|n| (0..=MOST_INSPECTED + 1).map(move |k| (n, k)));
    paths.flat_map(|(n, k)| {
        (0..=n).flat_map(move |start| rooms(n, k).map(|room| record(&Case { n, k, start, room })))
    })
}

/// A record of a long run: a number within its bounds mostly, and rooms near what is
/// needed.
fn long(seeded: &mut Seeded, _place: u64) -> Vec<u64> {
    let n = match seeded.below(8) {
        0 => seeded.pick(&PATHS),
        1..5 => 1 + seeded.below(200) as u64,
        _ => 1 + seeded.below(MOST_PLACES as usize) as u64,
    };
    let k = match seeded.below(8) {
        0 => seeded.pick(&SHIFTS),
        _ => 1 + seeded.below(MOST_INSPECTED as usize) as u64,
    };
    let start = match seeded.below(8) {
        0 => n.saturating_add(seeded.below(3) as u64),
        1 => n.saturating_sub(1 + seeded.below(70) as u64),
        _ => seeded.bits() % n.max(1),
    };
    let room = match seeded.below(4) {
        0 => seeded.pick(&rooms(n, k)),
        1 => seeded.below(MOST_ROOM + 1),
        _ => inspected(n, k) + seeded.below(10),
    };
    record(&Case { n, k, start, room })
}

/// The refusal number, and whether a shift that answers goes round.
fn counted(record: &[u64]) -> Vec<String> {
    let mut all =
        vec!["next_places: all".to_string(), format!("next_places: refusal {}", record[4])];
    if record[4] == 0 {
        let [n, places, start] = [record[0], record[5], record[2]];
        let which = match (start + places).cmp(&n) {
            std::cmp::Ordering::Less => "within the path",
            std::cmp::Ordering::Equal => "up to the last place",
            std::cmp::Ordering::Greater => "round the end",
        };
        all.push(format!("next_places: {which}"));
    }
    all
}
