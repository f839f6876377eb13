//! Segments and rings, through the library.

use super::{on_success, told_place, with_cell, with_cells, Told, Words};
use crate::ffi;
use crate::lent::{floats, words, Cell, Room};
use crate::tally::Compared;
use oracle::replay::rings::{self, HEADER};

/// The name of the call and what the library answers; writes the room.
pub fn answer(
    call: u64,
    a: &Room<u64>,
    b: &Room<u64>,
    room: &mut Room<u64>,
) -> (&'static str, Told) {
    if matches!(call, rings::MIRROR_POLYGON..=rings::SIGNED_AREA_ROBUST) {
        on_rings(call, a, b, room)
    } else {
        on_points(call, a)
    }
}

/// A call that takes single points: the first so many numbers of the list.
fn on_points(call: u64, list: &Room<u64>) -> (&'static str, Told) {
    let contents = list.contents().expect("no call was made yet");
    let n = |place: usize| f64::from_bits(contents[place]);
    let [a, b, c, d, e, f] = [0, 1, 2, 3, 4, 5].map(n);
    // SAFETY: the answer has its cell.
    unsafe {
        match call {
            rings::ORIENTATION => {
                ("orientation", with_cell(|turn| ffi::byr_orientation(a, b, c, d, e, f, turn)))
            }
            rings::ON_SEGMENT => {
                ("on_segment", with_cell(|on| ffi::byr_on_segment(a, b, c, d, e, f, on)))
            }
            rings::SEGMENTS_INTERSECT => (
                "segments_intersect",
                with_cell(|meet| ffi::byr_segments_intersect(a, b, c, d, e, f, n(6), n(7), meet)),
            ),
            rings::POINT_SEGMENT_DISTANCE => (
                "point_segment_distance",
                with_cell(|to| ffi::byr_point_segment_distance(a, b, c, d, e, f, to)),
            ),
            rings::PROJECT_POINT_TO_SEGMENT => (
                "project_point_to_segment",
                with_cell(|to| ffi::byr_project_point_to_segment(a, b, c, d, e, f, to, &mut 0)),
            ),
            rings::PROJECTED_FOOT => (
                "project_point_to_segment",
                with_cell(|at| ffi::byr_project_point_to_segment(a, b, c, d, e, f, &mut 0.0, at)),
            ),
            rings::POINT_TO_SEGMENT_DISTANCE => (
                "point_to_segment_distance",
                with_cell(|to| ffi::byr_point_to_segment_distance(a, b, c, d, e, f, to)),
            ),
            _ => (
                "point_on_segment",
                with_cell(|on| ffi::byr_point_on_segment(a, b, c, d, e, f, n(6), on)),
            ),
        }
    }
}

/// A call that takes rings.
fn on_rings(call: u64, a: &Room<u64>, b: &Room<u64>, room: &mut Room<u64>) -> (&'static str, Told) {
    let (ring, n, room_n) = (a.list(), a.len(), room.len());
    // SAFETY: all lists are as long as is said, and every pointer has its cell.
    unsafe {
        match call {
            rings::MIRROR_POLYGON => (
                "mirror_polygon",
                with_cells(|to, at| ffi::byr_mirror_polygon(ring, n, room.room(), room_n, to, at)),
            ),
            rings::OPEN_RING => (
                "open_ring",
                with_cells(|to, at| ffi::byr_open_ring(ring, n, room.room(), room_n, to, at)),
            ),
            rings::IS_SIMPLE_POLYGON => (
                "is_simple_polygon",
                with_cells(|to, at| ffi::byr_is_simple_polygon(ring, n, to, at)),
            ),
            rings::RING_DISTANCE => (
                "ring_distance",
                with_cells(|to, at| ffi::byr_ring_distance(ring, n, b.list(), b.len(), to, at)),
            ),
            rings::SIGNED_AREA2 => {
                ("signed_area2", with_cells(|to, at| ffi::byr_signed_area2(ring, n, to, at)))
            }
            _ => (
                "signed_area_robust",
                with_cells(|to, at| ffi::byr_signed_area_robust(ring, n, to, at)),
            ),
        }
    }
}

/// A record of mend_ring through the library.
fn mended(record: &[u64]) -> Compared {
    let (number, value, place) = (record[4], record[5], record[6]);
    let mut rest = Words(&record[HEADER..]);
    let (lent, spots) = (rest.take(record[1]), rest.take(record[2]));
    let [before, after] = [0, 1].map(|_| rest.take(record[3]));
    let spots_after = rest.take(record[2]);
    let length = rest.take(1)[0];
    let [whys, whys_after] = [0, 1].map(|_| rest.take(length));
    let ring = words(lent);
    let [mut room, mut dropped, mut points] = [before, whys, spots].map(words);
    let (lengths, mut told) = ([room.len(), dropped.len(), points.len()], [u64::HELD; 3]);
    let [vertices, count, at] = &mut told;
    // SAFETY: all lists are as long as is said, and every pointer has its cell.
    let returned = unsafe {
        let rooms = (room.room(), dropped.room(), points.room());
        ffi::byr_mend_ring(
            ring.list(),
            ring.len(),
            rooms.0,
            lengths[0],
            rooms.1,
            lengths[1],
            rooms.2,
            lengths[2],
            vertices,
            count,
            at,
        )
    };
    let [remaining, gone] = on_success(number, [value % 65_536, value / 65_536]);
    let cells = [remaining, gone, told_place(number, place)];
    let rooms = [after, whys_after, spots_after].map(|room| Some(room.to_vec()));
    let oracle = (number, cells, rooms, Some(lent));
    let left = [floats(&room), dropped.contents().map(<[u64]>::to_vec), floats(&points)];
    let library = (u64::from(returned), told.map(Cell::told), left, ring.contents());
    Compared::of("mend_ring", number, oracle, library)
}

/// The record's call through the library.
pub fn check(record: &[u64]) -> Compared {
    if record[0] == rings::MEND_RING {
        return mended(record);
    }
    let (number, value, place) = (record[4], record[5], record[6]);
    let mut rest = Words(&record[HEADER..]);
    let lists = [1, 2].map(|place| rest.take(record[place]));
    let [before, after] = [0, 1].map(|_| rest.take(record[3]));
    let [a, b] = lists.map(words);
    let mut room = words(before);
    let (call, (returned, told, at)) = answer(record[0], &a, &b, &mut room);
    let cells = [(number == 0).then_some(value), told_place(number, place)];
    let oracle = (number, cells, Some(after.to_vec()), lists.map(Some));
    let library = (u64::from(returned), [told, at], floats(&room), [a.contents(), b.contents()]);
    Compared::of(call, number, oracle, library)
}
