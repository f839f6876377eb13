//! The predicates in whole numbers, through the library. Besides the oracle's exact
//! answer three more are held to it: that of the library's call in floats on the same
//! numbers, some zeros being -0.0; that of the text in floats; and, of segments and
//! rings, what the plane itself has, points in common.

use super::{told_place, with_cell, with_cells, Told};
use crate::ffi;
use crate::lent::Room;
use crate::tally::Compared;
use oracle::answers::Orientation;
use oracle::calls::{self, points_of};
use oracle::fixed::helpers::orient2d_filtered;
use oracle::refusals::Answer;
use oracle::replay::whole::{self as calls_of, HEADER};
use oracle::whole::{has_edges_apart, have_common_point};

/// What margins of integers hold.
const MARGIN: i32 = 0x5eed_5eed;

/// The name of the call and what the library answers in whole numbers.
fn in_integers(call: u64, list: &Room<i32>) -> (&'static str, Told) {
    let contents = list.contents().expect("no call was made yet");
    let n = |place: usize| contents[place];
    let (ring, length) = (list.list(), list.len());
    let three = || [0, 1, 2, 3, 4, 5].map(n);
    // SAFETY: the list is as long as is said, and every pointer has its cell.
    unsafe {
        match call {
            calls_of::TURN => {
                let [a, b, c, d, e, f] = three();
                ("whole_turn", with_cell(|to| ffi::byr_whole_turn(a, b, c, d, e, f, to)))
            }
            calls_of::ORIENTATION => {
                let [a, b, c, d, e, f] = three();
                let turn = with_cell(|to| ffi::byr_whole_orientation(a, b, c, d, e, f, to));
                ("whole_orientation", turn)
            }
            calls_of::ON_SEGMENT => {
                let [a, b, c, d, e, f] = three();
                let on = with_cell(|to| ffi::byr_whole_on_segment(a, b, c, d, e, f, to));
                ("whole_on_segment", on)
            }
            calls_of::SEGMENTS_INTERSECT => {
                let [a, b, c, d, e, f] = three();
                let meet = with_cell(|to| {
                    ffi::byr_whole_segments_intersect(a, b, c, d, e, f, n(6), n(7), to)
                });
                ("whole_segments_intersect", meet)
            }
            calls_of::IS_SIMPLE_POLYGON => (
                "whole_is_simple_polygon",
                with_cells(|to, at| ffi::byr_whole_is_simple_polygon(ring, length, to, at)),
            ),
            _ => (
                "whole_signed_area2",
                with_cells(|to, at| ffi::byr_whole_signed_area2(ring, length, to, at)),
            ),
        }
    }
}

/// The word of the integer that a float is, if it is one.
fn integer(x: f64) -> Option<u64> {
    (x == x.trunc()).then_some(x as i64 as u64)
}

/// What the library answers in floats. There is no call of its own for the turn: it
/// is the orientation's here.
fn in_floats(call: u64, list: &[f64]) -> Told {
    let n = |place: usize| list[place];
    let (ring, length) = (list.as_ptr(), list.len());
    let three = || [0, 1, 2, 3, 4, 5].map(n);
    // SAFETY: the list is as long as is said, and every pointer has its cell.
    unsafe {
        match call {
            calls_of::TURN | calls_of::ORIENTATION => {
                let [a, b, c, d, e, f] = three();
                with_cell(|to| ffi::byr_orientation(a, b, c, d, e, f, to))
            }
            calls_of::ON_SEGMENT => {
                let [a, b, c, d, e, f] = three();
                with_cell(|to| ffi::byr_on_segment(a, b, c, d, e, f, to))
            }
            calls_of::SEGMENTS_INTERSECT => {
                let [a, b, c, d, e, f] = three();
                with_cell(|to| ffi::byr_segments_intersect(a, b, c, d, e, f, n(6), n(7), to))
            }
            calls_of::IS_SIMPLE_POLYGON => {
                with_cells(|to, at| ffi::byr_is_simple_polygon(ring, length, to, at))
            }
            _ => {
                let (number, area, at) =
                    with_cells(|to, at| ffi::byr_signed_area2(ring, length, to, at));
                (number, area.and_then(|bits| integer(f64::from_bits(bits))), at)
            }
        }
    }
}

/// The turn of three points, as the text tells it.
fn turned(p: &[(f64, f64)]) -> u64 {
    match orient2d_filtered(p[0], p[1], p[2]) {
        Orientation::CounterClockwise => 1,
        Orientation::Clockwise => -1_i64 as u64,
        Orientation::Collinear => 0,
    }
}

/// What the text answers in floats: the refusal's number, and the value.
fn in_text(call: u64, list: &[f64]) -> (u32, Option<u64>) {
    let p = points_of(list);
    let word = |turn: i32| i64::from(turn) as u64;
    let answer: Answer<Option<u64>> = match call {
        calls_of::TURN => calls::orientation(p[0], p[1], p[2]).map(|_| Some(turned(&p))),
        calls_of::ORIENTATION => calls::orientation(p[0], p[1], p[2]).map(word).map(Some),
        calls_of::ON_SEGMENT => calls::on_segment(p[0], p[1], p[2]).map(u64::from).map(Some),
        calls_of::SEGMENTS_INTERSECT => {
            calls::segments_intersect(p[0], p[1], p[2], p[3]).map(u64::from).map(Some)
        }
        calls_of::IS_SIMPLE_POLYGON => calls::is_simple_polygon(list).map(u64::from).map(Some),
        _ => calls::signed_area2(list).map(integer),
    };
    answer.map_or_else(|no| (no.number, None), |value| (0, value))
}

/// What the plane itself has, of a call that is about points in common.
fn in_plane(call: u64, list: &[i32]) -> Option<u64> {
    let p = |i: usize| (list[2 * i], list[2 * i + 1]);
    match call {
        calls_of::SEGMENTS_INTERSECT => Some(u64::from(have_common_point(p(0), p(1), p(2), p(3)))),
        calls_of::IS_SIMPLE_POLYGON => Some(u64::from(has_edges_apart(list))),
        _ => None,
    }
}

/// The numbers as floats; of the zeros every other place has -0.0.
fn as_floats(list: &[i32]) -> Vec<f64> {
    let float = |(place, &x): (usize, &i32)| {
        if x == 0 && place % 4 < 2 {
            -0.0
        } else {
            f64::from(x)
        }
    };
    list.iter().enumerate().map(float).collect()
}

/// The record's call through the library, in whole numbers and in floats.
pub fn check(record: &[u64]) -> Compared {
    let (call, number, value, place) = (record[0], record[2], record[3], record[4]);
    let list: Vec<i32> = record[HEADER..].iter().map(|&word| word as i64 as i32).collect();
    let lent = Room::new(&list, MARGIN);
    let refusal = u32::try_from(number).expect("a refusal's number is small");
    let told = (number == 0).then_some(value);
    let exact: Told = (refusal, told, told_place(number, place));
    let (name, integers) = in_integers(call, &lent);
    let floats = as_floats(&list);
    let plane = if number == 0 { in_plane(call, &list) } else { None };
    let oracle = (exact, exact, (refusal, told), plane.and(told), Some(&list[..]));
    let library =
        (integers, in_floats(call, &floats), in_text(call, &floats), plane, lent.contents());
    Compared::of(name, number, oracle, library)
}
