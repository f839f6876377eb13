//! Points as the library takes them, x and y alternating, and back.

use crate::refusal::{among, plain};
use crate::{Entries, List, Point, Result};

/// The points as a list of numbers.
pub fn flat(points: &[impl Into<Point> + Copy]) -> Vec<f64> {
    let numbers = |&point| {
        let (x, y): Point = Into::into(point);
        [x, y]
    };
    points.iter().flat_map(numbers).collect()
}

/// So many points from the front of a list of numbers.
pub fn points(list: &[f64], count: u64) -> Vec<Point> {
    list.chunks_exact(2).take(count as usize).map(|point| (point[0], point[1])).collect()
}

/// A function of the library that measures a point against a segment.
pub type Measuring = unsafe fn(f64, f64, f64, f64, f64, f64, *mut f64) -> u32;

/// What such a function measures of p against the segment a-b.
pub fn measured(measuring: Measuring, p: Point, a: Point, b: Point) -> Result<f64> {
    let mut answer = 0.0;
    // SAFETY: the cell of the answer is there.
    plain(unsafe { measuring(p.0, p.1, a.0, a.1, b.0, b.1, &mut answer) })?;
    Ok(answer)
}

/// A function of the library that measures a ring.
pub type RingMeasuring<T> = unsafe fn(*const f64, usize, *mut T, *mut u64) -> u32;

/// What such a function measures of the ring.
pub fn ring_measured<T: Default>(
    measuring: RingMeasuring<T>,
    vertices: &[impl Into<Point> + Copy],
) -> Result<T> {
    let (ring, mut answer, mut place) = (flat(vertices), T::default(), 0);
    // SAFETY: the list is as long as is said, and both cells are there.
    let number = unsafe { measuring(ring.as_ptr(), ring.len(), &mut answer, &mut place) };
    among(&[Entries::ring(List::Ring, vertices.len())], number, place)?;
    Ok(answer)
}
