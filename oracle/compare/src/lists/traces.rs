//! The trace, through the library; and that larger rooms and a higher limit leave
//! it as it was.

use super::{told_place, Words};
use crate::ffi;
use crate::lent::{floats, words, Cell, Room};
use crate::tally::Compared;
use oracle::replay::traces::HEADER;
use oracle::seeded::Seeded;

/// What a trace returned and told: points, points stored, passes, stop reason and
/// place.
type Told = (u64, [Option<u64>; 5]);

/// The trace through the library, with the settings of the record but this limit.
fn traced(
    record: &[u64],
    limit: u64,
    lent: &[Room<u64>; 2],
    [work, result]: [&mut Room<u64>; 2],
) -> Told {
    let [tolerance, smallest] = [4, 5].map(|place| f64::from_bits(record[place]));
    let (work_n, result_n) = (work.len(), result.len());
    let (mut points, mut stored, mut passes) = (u64::HELD, u64::HELD, u64::HELD);
    let (mut stop, mut place) = (u32::HELD, u64::HELD);
    // SAFETY: all lists are as long as is said, and every pointer has its cell.
    let returned = unsafe {
        ffi::byr_compute_nfp_sliding(
            lent[0].list(),
            lent[0].len(),
            lent[1].list(),
            lent[1].len(),
            tolerance,
            smallest,
            limit,
            work.room(),
            work_n,
            result.room(),
            result_n,
            &mut points,
            &mut stored,
            &mut passes,
            &mut stop,
            &mut place,
        )
    };
    let cells = [points.told(), stored.told(), passes.told(), stop.told(), place.told()];
    (u64::from(returned), cells)
}

/// What the record says is told: all but the place on success, the passes also with
/// 5, with 6 the stop reason too, and with others the place where they tell one.
fn expected(number: u64, values: [u64; 5]) -> [Option<u64>; 5] {
    let [points, stored, passes, stop, _] = values.map(Some);
    match number {
        0 => [points, stored, passes, stop, None],
        5 => [None, None, passes, None, None],
        6 => [None, None, passes, stop, None],
        _ => [None, None, None, None, told_place(number, values[4])],
    }
}

/// The record's call through the library.
pub fn check(record: &[u64]) -> Compared {
    let number = record[7];
    let told = expected(number, [8, 9, 10, 11, 12].map(|place| record[place]));
    let mut rest = Words(&record[HEADER..]);
    let [polygons, before, after] =
        [[0, 1], [2, 3], [2, 3]].map(|places| places.map(|place: usize| rest.take(record[place])));
    let lent = polygons.map(words);
    let [mut work, mut result] = before.map(words);
    let answer = traced(record, record[6], &lent, [&mut work, &mut result]);
    let rooms = [floats(&work), floats(&result)];
    let read = [lent[0].contents(), lent[1].contents()];
    let oracle = ((number, told), after.map(|room| Some(room.to_vec())), polygons.map(Some));
    let compared = Compared::of("compute_nfp_sliding", number, oracle, (answer, rooms, read));
    Compared { stop: told[3], ..compared }
}

/// No coordinate of a path: what rooms hold at entry, so that the points show.
const EMPTY: [u64; 2] = [0xfeed_face_0bad_cafe, 0x7eed_face_0bad_cafe];
/// The highest pass limit.
const MOST_PASSES: u64 = 10_000;

/// What the trace tells, and the points in its rooms, which are as long as is said;
/// nothing of a room in which more than its front was written.
fn stored(
    record: &[u64],
    limit: u64,
    rooms: [u64; 2],
    empty: u64,
) -> (Told, [Option<Vec<u64>>; 2]) {
    let mut rest = Words(&record[HEADER..]);
    let lent = [0, 1].map(|place: usize| words(rest.take(record[place])));
    let [mut work, mut result] = rooms.map(|room| words(&vec![empty; room as usize]));
    let told = traced(record, limit, &lent, [&mut work, &mut result]);
    let points = |room: &Room<u64>| {
        let mut held = room.contents()?.to_vec();
        let written = held.iter().position(|&word| word == empty).unwrap_or(held.len());
        let kept = held[written..].iter().all(|&word| word == empty);
        held.truncate(written);
        kept.then_some(held)
    };
    (told, [points(&work), points(&result)])
}

/// The record's call in larger rooms and, unless the passes were used up, under a
/// higher limit, beside the call as it stands: nothing where it is refused but by 6.
pub fn larger(record: &[u64]) -> Option<Compared> {
    let (number, stop, limit) = (record[7], record[11], record[6]);
    if !matches!(number, 0 | 6) {
        return None;
    }
    let seeded = &mut Seeded::new(record.iter().fold(0, |sum, word| sum ^ word));
    let work = record[2] + seeded.pick(&[0, 2, 40, 1000]);
    let result = record[3].max(work) + seeded.pick(&[0, 1, 7, 500]);
    let higher = (limit + seeded.pick(&[0, 1, 300, MOST_PASSES])).min(MOST_PASSES);
    let higher = if stop == 5 { limit } else { higher };
    let own = stored(record, limit, [record[2], record[3]], EMPTY[0]);
    let grown = stored(record, higher, [work, result], EMPTY[1]);
    Some(Compared::of("a trace in larger rooms", number, own, grown))
}
