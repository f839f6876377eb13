//! The check of a path, through the library; and that it is what the library's own
//! search for contacts and check of a move say, point by point and leg by leg.

use super::{told_place, Words};
use crate::ffi;
use crate::lent::{words, Cell, Room};
use crate::tally::Compared;
use oracle::replay::paths::HEADER;
use oracle::shapes::placed;

/// What a check returned and told: the fault, its index and the place.
type Told = (u64, [Option<u64>; 3]);

/// The three lists of a record.
fn lists(record: &[u64]) -> [&[u64]; 3] {
    let mut rest = Words(&record[HEADER..]);
    [0, 1, 2].map(|place: usize| rest.take(record[place]))
}

/// The check through the library, with the settings of the record.
fn checked(record: &[u64], [a, b, path]: &[Room<u64>; 3]) -> Told {
    let [tolerance, smallest] = [3, 4].map(|place| f64::from_bits(record[place]));
    let (mut fault, mut index, mut place) = (u32::HELD, u64::HELD, u64::HELD);
    // SAFETY: all lists are as long as is said, and every pointer has its cell.
    let returned = unsafe {
        ffi::byr_check_path(
            a.list(),
            a.len(),
            b.list(),
            b.len(),
            tolerance,
            smallest,
            record[5],
            path.list(),
            path.len(),
            &mut fault,
            &mut index,
            &mut place,
        )
    };
    (u64::from(returned), [fault.told(), index.told(), place.told()])
}

/// What the record says is told: the fault of an answer, its index where there is one,
/// and the place where the refusal tells it.
fn expected(record: &[u64]) -> Told {
    let [number, fault, index, place] = [6, 7, 8, 9].map(|place| record[place]);
    let answer = (number == 0).then_some(fault);
    let at = (number == 0 && fault != 0).then_some(index);
    (number, [answer, at, told_place(number, place)])
}

/// The record's call through the library.
pub fn check(record: &[u64]) -> Compared {
    let (lists, number) = (lists(record), record[6]);
    let lent = lists.map(words);
    let told = checked(record, &lent);
    let read = [0, 1, 2].map(|place: usize| lent[place].contents());
    let oracle = (expected(record), lists.map(Some));
    let compared = Compared::of("check_path", number, oracle, (told, read));
    Compared { fault: (number == 0).then_some(record[7]), ..compared }
}

/// Whether the library finds a contact of these, nothing where it refuses them.
fn touches(a: &[f64], moved: &[f64], tolerance: f64) -> Option<bool> {
    let (mut count, mut place) = (u64::HELD, u64::HELD);
    let (which, points) = (std::ptr::null_mut(), std::ptr::null_mut());
    // SAFETY: both lists are as long as is said, no room is lent, both cells are there.
    let number = unsafe {
        ffi::byr_find_contacts(
            a.as_ptr(),
            a.len(),
            moved.as_ptr(),
            moved.len(),
            tolerance,
            which,
            0,
            points,
            0,
            &mut count,
            &mut place,
        )
    };
    match number {
        0 => Some(false),
        // There is one, and no room for it.
        5 => Some(true),
        _ => None,
    }
}

/// Whether the library finds that this move runs into something, nothing where it
/// refuses it.
fn blocked(a: &[f64], moved: &[f64], by: [f64; 2], tolerance: f64) -> Option<bool> {
    let (mut found, mut distance, mut kind) = (u32::HELD, f64::HELD, u32::HELD);
    let [mut stationary, mut orbiting, mut place] = [u64::HELD; 3];
    // SAFETY: both lists are as long as is said, and every pointer has its cell.
    let number = unsafe {
        ffi::byr_check_translation_collision(
            a.as_ptr(),
            a.len(),
            moved.as_ptr(),
            moved.len(),
            by[0],
            by[1],
            tolerance,
            &mut found,
            &mut distance,
            &mut kind,
            &mut stationary,
            &mut orbiting,
            &mut place,
        )
    };
    (number == 0).then_some(found == 1)
}

/// The first fault and its index by the library's own calls; nothing where one of them
/// refuses a moved polygon or a difference, which the check of a path takes.
fn by_calls(a: &[f64], b: &[f64], tolerance: f64, path: &[f64]) -> Option<(u64, u64)> {
    let points: Vec<&[f64]> = path.chunks_exact(2).collect();
    for (i, from) in points.iter().enumerate() {
        let to = points[(i + 1) % points.len()];
        let moved = placed(b, 1.0, from[0], from[1]);
        if !touches(a, &moved, tolerance)? {
            return Some((1, i as u64));
        }
        if blocked(a, &moved, [to[0] - from[0], to[1] - from[1]], tolerance)? {
            return Some((2, i as u64));
        }
    }
    Some((0, 0))
}

/// The library's own calls on a path that is not refused, beside its check: nothing
/// where they refuse what the check takes.
pub fn pieced(record: &[u64]) -> Option<Compared> {
    if record[6] != 0 {
        return None;
    }
    let floats = |list: &[u64]| list.iter().map(|&word| f64::from_bits(word)).collect::<Vec<_>>();
    let [a, b, path] = lists(record).map(floats);
    let (fault, index) = by_calls(&a, &b, f64::from_bits(record[3]), &path)?;
    let told = [Some(fault), (fault != 0).then_some(index), None];
    let own = checked(record, &lists(record).map(words));
    Some(Compared::of("a path by contacts and moves", 0, (0, told), own))
}
