//! Moves of drawings, beside the whole move that each is on its grid: where every edge is
//! parted as it is, and where none is however it is put aside; and a path, beside its
//! legs one after the other.

use crate::paths::round_discs;
use crate::rows::Row;
use crate::timing::{side, Sides};
use compare::ffi;
use oracle::grid::nearest;
use oracle::shapes::disc;
use std::hint::black_box;

/// A drawing in millimetres on a grid of micrometres.
const UNITS: u32 = 1000;

/// A drawing and a move of it, x and y of both ends.
struct Drawing {
    stationary: Vec<f64>,
    orbiting: Vec<f64>,
    ends: [f64; 4],
}

/// The same in whole numbers: both polygons as they stand at the start, and the move.
struct Whole {
    stationary: Vec<i32>,
    orbiting: Vec<i32>,
    by: (i32, i32),
}

impl Drawing {
    /// Two discs of n corners, the second of which goes up beside the first, so far from
    /// it. The first begins with the corner after the rightmost.
    fn beside(n: usize, apart: f64) -> Self {
        let (mut stationary, orbiting) = (disc(n, 150.0), disc(n, 150.0));
        stationary.rotate_left(2);
        Self { stationary, orbiting, ends: [300.0 + apart, 0.0, 300.0 + apart, 310.0] }
    }

    /// It on the grid.
    fn whole(&self) -> Whole {
        let grid = |list: &[f64]| list.iter().map(|&x| nearest(UNITS, x)).collect::<Vec<i32>>();
        let ends = grid(&self.ends);
        let there = grid(&self.orbiting);
        let there = there.chunks_exact(2).flat_map(|p| [p[0] + ends[0], p[1] + ends[1]]);
        Whole {
            stationary: grid(&self.stationary),
            orbiting: there.collect(),
            by: (ends[2] - ends[0], ends[3] - ends[1]),
        }
    }
}

/// The library's search: its number, the ground, how and the edge.
fn searched(Drawing { stationary, orbiting, ends }: &Drawing, room: &mut [i32]) -> [u64; 4] {
    let ([mut ground, mut depth, mut how], mut edge, mut place) = ([0; 3], 0, 0);
    // SAFETY: all lists are as long as is said, and every pointer has its cell.
    let number = unsafe {
        ffi::byr_clear_move(
            stationary.as_ptr(),
            stationary.len(),
            orbiting.as_ptr(),
            orbiting.len(),
            black_box(ends[0]),
            ends[1],
            ends[2],
            ends[3],
            UNITS,
            room.as_mut_ptr(),
            room.len(),
            &mut ground,
            &mut depth,
            &mut how,
            &mut edge,
            &mut place,
        )
    };
    [u64::from(number), u64::from(ground), u64::from(how), edge]
}

/// The library's search in whole numbers, in the same way, as it is.
fn searched_whole(Whole { stationary, orbiting, by }: &Whole, room: &mut [i32]) -> [u64; 4] {
    let (mut ground, mut edge, mut place) = (0, 0, 0);
    // SAFETY: all lists are as long as is said, and every pointer has its cell.
    let number = unsafe {
        ffi::byr_whole_clear_move(
            stationary.as_ptr(),
            stationary.len(),
            orbiting.as_ptr(),
            orbiting.len(),
            black_box(by.0),
            by.1,
            room.as_mut_ptr(),
            room.len(),
            &mut ground,
            &mut edge,
            &mut place,
        )
    };
    [u64::from(number), u64::from(ground), 0, edge]
}

/// The search of discs of n corners, of which this is told, whole and drawn.
fn search(n: usize, apart: f64, ground: u64) -> Sides {
    let drawing = Drawing::beside(n, apart);
    let whole = drawing.whole();
    let [mut one, mut other] = [vec![0; 4 * n], vec![0; 4 * n]];
    let told = searched_whole(&whole, &mut one);
    assert_eq!((told, told[1]), (searched(&drawing, &mut other), ground));
    assert_eq!(one, other);
    [side(move || searched_whole(&whole, &mut one)), side(move || searched(&drawing, &mut other))]
}

/// The library's answer for a path: its number, the ground and the depth.
fn gone(a: &[f64], b: &[f64], path: &[f64]) -> [u32; 3] {
    let ([mut ground, mut depth], [mut leg, mut edge, mut place]) = ([0; 2], [0; 3]);
    // SAFETY: all lists are as long as is said, and every pointer has its cell.
    let number = unsafe {
        ffi::byr_clear_path(
            a.as_ptr(),
            a.len(),
            b.as_ptr(),
            b.len(),
            path.as_ptr(),
            path.len(),
            1,
            black_box(UNITS),
            &mut ground,
            &mut depth,
            &mut leg,
            &mut edge,
            &mut place,
        )
    };
    [number, ground, depth]
}

/// A closed path of so many points round two discs of n corners, leg by leg and at once.
fn round(n: usize, points: usize) -> Sides {
    let ([a, b], path) = round_discs(n, points);
    let path: Vec<f64> = path.iter().flat_map(|p| [p.0, p.1]).collect();
    let [number, ground, depth] = gone(&a, &b, &path);
    assert!(number == 0 && ground == 0 && depth > 0);
    let legs: Vec<Drawing> = (0..points)
        .map(|i| {
            let end = |k: usize| path[k % path.len()];
            let ends = [0, 1, 2, 3].map(|k| end(2 * i + k));
            Drawing { stationary: a.clone(), orbiting: b.clone(), ends }
        })
        .collect();
    let mut room = vec![0; 4 * n];
    let mut each = move || legs.iter().all(|leg| searched(leg, &mut room)[..2] == [0, 0]);
    assert!(each());
    [side(each), side(move || gone(&a, &b, &path))]
}

/// The searches, both of which go to the end: one is clear as it is, and of the other an
/// edge is not parted however it is put aside, nearly the last.
pub fn moves() -> Vec<Row> {
    vec![
        Row::new("clear_move, discs 256 x 256, clear as it is", || search(256, 0.0, 0)),
        Row::new("clear_move, discs 256 x 256, no how parts every edge", || search(256, -0.01, 1)),
    ]
}

/// The path, all of which is clear.
pub fn paths() -> Vec<Row> {
    vec![Row::new("clear_path, 10,001 points, discs 64 x 64", || round(64, 10_001))]
}
