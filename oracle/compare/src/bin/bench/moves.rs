//! Whole moves: the search for a reason and the check of it, beside plain Rust.

use crate::plain_clear::{self, Line, Spot, Way};
use crate::rows::{rounded, Row};
use crate::timing::{side, Sides};
use compare::ffi;
use oracle::shapes::{disc, placed};
use std::hint::black_box;

/// The move of the discs: the second slides along the first and on.
const BY: (i32, i32) = (0, 310_000);

/// Two discs of n corners that touch, with whole coordinates.
fn touching(n: usize) -> [Vec<i32>; 2] {
    let ring = disc(n, 150_000.0);
    [rounded(ring.clone()), rounded(placed(&ring, 1.0, 300_000.0, 0.0))]
}

/// What plain Rust takes of the same.
fn plain([a, b]: &[Vec<i32>; 2]) -> (Vec<Spot>, Way) {
    let spots = |list: &[i32], (dx, dy): (i32, i32)| -> Vec<Spot> {
        let spot = |p: &[i32]| (i64::from(p[0] + dx), i64::from(p[1] + dy));
        list.chunks_exact(2).map(spot).collect()
    };
    (spots(a, (0, 0)), Way { start: spots(b, (0, 0)), end: spots(b, BY) })
}

/// The library's search: its number, the ground and the edge.
fn searched([a, b]: &[Vec<i32>; 2], room: &mut [i32]) -> (u32, u32, u64) {
    let (mut ground, mut edge, mut place) = (0, 0, 0);
    // SAFETY: all lists are as long as is said, and every pointer has its cell.
    let number = unsafe {
        ffi::byr_whole_clear_move(
            a.as_ptr(),
            a.len(),
            b.as_ptr(),
            b.len(),
            black_box(BY.0),
            BY.1,
            room.as_mut_ptr(),
            room.len(),
            &mut ground,
            &mut edge,
            &mut place,
        )
    };
    (number, ground, edge)
}

/// The library's check of a reason, in the same way.
fn checked([a, b]: &[Vec<i32>; 2], reason: &[i32]) -> (u32, u32, u64) {
    let (mut ground, mut edge, mut place) = (0, 0, 0);
    // SAFETY: all lists are as long as is said, and every pointer has its cell.
    let number = unsafe {
        ffi::byr_whole_check_reason(
            a.as_ptr(),
            a.len(),
            b.as_ptr(),
            b.len(),
            black_box(BY.0),
            BY.1,
            reason.as_ptr(),
            reason.len(),
            &mut ground,
            &mut edge,
            &mut place,
        )
    };
    (number, ground, edge)
}

/// The lines of a reason as the library hands them out.
fn flat(lines: &[Line]) -> Vec<i32> {
    lines.concat().into_iter().flat_map(|(x, y)| [x as i32, y as i32]).collect()
}

/// The search of two discs of n corners.
fn search(n: usize) -> Sides {
    let discs = touching(n);
    let (ring, way) = plain(&discs);
    let (mut lines, mut room) = (Vec::new(), vec![0; 4 * n]);
    assert_eq!(plain_clear::search(&ring, &way, &mut lines), (0, 0));
    assert_eq!(searched(&discs, &mut room), (0, 0, 0));
    assert_eq!(room, flat(&lines));
    [
        side(move || plain_clear::search(black_box(&ring), &way, &mut lines)),
        side(move || searched(&discs, &mut room)),
    ]
}

/// The check of the reason that the search hands out for them.
fn check(n: usize) -> Sides {
    let discs = touching(n);
    let (ring, way) = plain(&discs);
    let mut lines = Vec::new();
    plain_clear::search(&ring, &way, &mut lines);
    let reason = flat(&lines);
    assert_eq!(plain_clear::check(&ring, &way, &lines), (0, 0));
    assert_eq!(checked(&discs, &reason), (0, 0, 0));
    [
        side(move || plain_clear::check(black_box(&ring), &way, &lines)),
        side(move || checked(&discs, black_box(&reason))),
    ]
}

/// The check and the search, both of which go to the end: the move is clear.
pub fn moves() -> Vec<Row> {
    vec![
        Row::new("whole_check_reason, discs 256 x 256, under 1 ms", || check(256)),
        Row::new("whole_clear_move, discs 64 x 64", || search(64)),
        Row::new("whole_clear_move, discs 256 x 256, under 3 ms", || search(256)),
    ]
}
