//! Places to inspect, through the library: the records of a list, and the laws of
//! shifts one after the other, counted out.

use super::Words;
use crate::ffi;
use crate::lent::{words, Cell};
use crate::tally::Compared;
use oracle::inspection::MOST_INSPECTED;
use oracle::replay::places::HEADER;

/// The record's call through the library.
pub fn check(record: &[u64]) -> Compared {
    let [n, k, start, rn, number, places, following] =
        record[..HEADER].try_into().expect("a header of seven words");
    let mut rest = Words(&record[HEADER..]);
    let [before, after] = [0, 1].map(|_| rest.take(rn));
    let (mut room, mut from, mut count) = (words(before), start, u64::HELD);
    let room_n = room.len();
    // SAFETY: the room is as long as is said, and both cells are there.
    let returned =
        unsafe { ffi::byr_next_places(n, k, &mut from, room.room(), room_n, &mut count) };
    let (left, told) = if number == 0 { (following, Some(places)) } else { (start, None) };
    let oracle = (number, left, told, Some(after));
    let library = (u64::from(returned), from, count.told(), room.contents());
    Compared::of("next_places", number, oracle, library)
}

/// The places of one shift, nothing where it is refused; the start becomes the
/// following one.
fn shift(n: u64, k: u64, start: &mut u64) -> Option<Vec<u64>> {
    let (mut room, mut count) = ([u64::HELD; MOST_INSPECTED as usize], u64::HELD);
    // SAFETY: the room is as long as is said, and both cells are there.
    let number =
        unsafe { ffi::byr_next_places(n, k, start, room.as_mut_ptr(), room.len(), &mut count) };
    if number != 0 {
        return None;
    }
    room.get(..count as usize).map(<[u64]>::to_vec)
}

/// What shifts one after the other showed.
#[derive(Debug, PartialEq)]
struct Shown {
    /// The places of each shift differ.
    differ: bool,
    /// n divided by k, rounded up, shifts inspected every place.
    every: bool,
    /// After each shift no place was inspected more than once oftener than another, if
    /// they began at 0.
    evenly: bool,
}

/// What so many shifts one after the other show on a path of n from this start; nothing
/// where one is refused or gives what is no place.
fn shown(n: u64, k: u64, start: u64, shifts: u64) -> Option<Shown> {
    let (mut from, mut times) = (start, vec![0_u64; n as usize]);
    let mut shown = Shown { differ: true, every: false, evenly: true };
    for done in 1..=shifts {
        let mut places = shift(n, k, &mut from)?;
        for &place in &places {
            *times.get_mut(place as usize)? += 1;
        }
        places.sort_unstable();
        shown.differ &= places.windows(2).all(|pair| pair[0] < pair[1]);
        let (least, most) = times.iter().fold((u64::MAX, 0), |(a, b), &t| (a.min(t), b.max(t)));
        shown.evenly &= start != 0 || most <= least + 1;
        if done == n.div_ceil(k) {
            shown.every = least >= 1;
        }
    }
    Some(shown)
}

/// Paths, shifts and starts of which the laws are counted out, with how many shifts: up
/// to 40 places all of them, twice round from start 0; and some of the longest paths.
pub fn runs() -> impl Iterator<Item = [u64; 4]> {
    let small = (1..=40_u64).flat_map(|n| (1..=MOST_INSPECTED).map(move |k| (n, k)));
    let long = [9_999_u64, 10_000, 10_001].into_iter().flat_map(|n| [63, 64].map(|k| (n, k)));
    let starts = |n: u64| (0..n).step_by(n.div_ceil(40) as usize);
    small.chain(long).flat_map(move |(n, k)| {
        let once = n.div_ceil(k);
        starts(n).map(move |start| [n, k, start, if start == 0 { 2 * once + 1 } else { once }])
    })
}

/// The laws of so many shifts on a path of n, k a shift, from this start.
pub fn laws([n, k, start, shifts]: [u64; 4]) -> Compared {
    let all = Shown { differ: true, every: true, evenly: true };
    Compared::of("next_places", 0, Some(all), shown(n, k, start, shifts))
}
