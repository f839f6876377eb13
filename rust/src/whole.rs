//! The predicates in whole numbers: for parts whose coordinates are whole, each at
//! most 1,000,000 in size. No float, no margin and no rounding is in them. Lent the
//! same numbers as floats, either zero for 0, those of [`crate::polygon_ops`] answer
//! and refuse alike.
//!
//! ```
//! use byrlygent::polygon_ops;
//! use byrlygent::whole::{is_simple_polygon, segments_intersect, signed_area2};
//!
//! let plate = [(0, 0), (400, 0), (400, 300), (200, 1), (0, 300)];
//! assert!(is_simple_polygon(&plate)?);
//! assert_eq!(signed_area2(&plate)?, 120_400);
//! assert!(segments_intersect((0, 0), (400, 0), (200, 0), (200, 300))?);
//! assert!(!segments_intersect((0, 0), (400, 0), (200, 1), (200, 300))?);
//!
//! let floats = plate.map(|(x, y)| (f64::from(x), f64::from(y)));
//! assert_eq!(polygon_ops::signed_area2(&floats)?, 120_400.0);
//! # Ok::<(), byrlygent::Refusal>(())
//! ```
//!
//! [`clear_move`] tells whether nothing lies in between when one such part slides along
//! another, and hands out a reason that anyone can check.

mod clear;

pub use clear::{check_reason, clear_move, clear_path, Ground, Legs, Line, Move, Reason, Shared};

use crate::refusal::{among, plain};
use crate::{ffi, Entries, List, Result};

/// A point with whole coordinates. A list of points may hold anything that converts
/// to it, such as `[i32; 2]`.
pub type Point = (i32, i32);

/// 1 if a, b, c turn counter-clockwise, -1 if clockwise, 0 if they are in line.
///
/// ```
/// let far = (1_000_000, 1_000_000);
/// assert_eq!(byrlygent::whole::turn((-1_000_000, -1_000_000), far, (999_999, 1_000_000))?, 1);
/// # Ok::<(), byrlygent::Refusal>(())
/// ```
pub fn turn(a: Point, b: Point, c: Point) -> Result<i32> {
    of_three(ffi::byr_whole_turn, a, b, c)
}

/// The same number, as [`crate::polygon_ops::orientation`]'s: without a margin there
/// is one turn.
pub fn orientation(a: Point, b: Point, c: Point) -> Result<i32> {
    of_three(ffi::byr_whole_orientation, a, b, c)
}

/// A function of the library that takes three points.
type OfThree<T> = unsafe fn(i32, i32, i32, i32, i32, i32, *mut T) -> u32;

/// What such a function answers.
fn of_three<T: Default>(call: OfThree<T>, a: Point, b: Point, c: Point) -> Result<T> {
    let mut answer = T::default();
    // SAFETY: the cell of the answer is there.
    plain(unsafe { call(a.0, a.1, b.0, b.1, c.0, c.1, &mut answer) })?;
    Ok(answer)
}

/// Whether p, in line with a and b, lies between them: in their box.
pub fn on_segment(a: Point, b: Point, p: Point) -> Result<bool> {
    of_three(ffi::byr_whole_on_segment, a, b, p).map(|on| on != 0)
}

/// Whether the closed segments p1-p2 and p3-p4 meet, which they do also where they
/// touch.
///
/// ```
/// use byrlygent::whole::segments_intersect;
///
/// assert!(segments_intersect((0, 0), (4, 4), (0, 4), (4, 0))?);
/// assert!(segments_intersect((0, 0), (4, 0), (4, 0), (9, 7))?);
/// assert!(!segments_intersect((0, 0), (4, 0), (5, 0), (9, 0))?);
/// # Ok::<(), byrlygent::Refusal>(())
/// ```
pub fn segments_intersect(p1: Point, p2: Point, p3: Point, p4: Point) -> Result<bool> {
    let mut meet = 0;
    // SAFETY: the cell of the answer is there.
    plain(unsafe {
        ffi::byr_whole_segments_intersect(p1.0, p1.1, p2.0, p2.1, p3.0, p3.1, p4.0, p4.1, &mut meet)
    })?;
    Ok(meet != 0)
}

/// Whether the ring has three vertices or more, and no two edges meet but neighbours,
/// by [`segments_intersect`].
///
/// ```
/// let bow = [(0, 0), (2, 2), (2, 0), (0, 2)];
/// assert!(!byrlygent::whole::is_simple_polygon(&bow)?);
/// # Ok::<(), byrlygent::Refusal>(())
/// ```
pub fn is_simple_polygon(vertices: &[impl Into<Point> + Copy]) -> Result<bool> {
    measured(ffi::byr_whole_is_simple_polygon, vertices).map(|simple| simple != 0)
}

/// Twice the signed area, above 0 for counter-clockwise order.
pub fn signed_area2(vertices: &[impl Into<Point> + Copy]) -> Result<i64> {
    measured(ffi::byr_whole_signed_area2, vertices)
}

/// The points as a list of numbers.
fn flat(points: &[impl Into<Point> + Copy]) -> Vec<i32> {
    let numbers = |&point| {
        let (x, y): Point = Into::into(point);
        [x, y]
    };
    points.iter().flat_map(numbers).collect()
}

/// A function of the library that measures a ring.
type Measuring<T> = unsafe fn(*const i32, usize, *mut T, *mut u64) -> u32;

/// What such a function measures of the ring.
fn measured<T: Default>(
    measuring: Measuring<T>,
    vertices: &[impl Into<Point> + Copy],
) -> Result<T> {
    let (ring, mut answer, mut place) = (flat(vertices), T::default(), 0);
    // SAFETY: the list is as long as is said, and both cells are there.
    let number = unsafe { measuring(ring.as_ptr(), ring.len(), &mut answer, &mut place) };
    among(&[Entries::ring(List::Ring, vertices.len())], number, place)?;
    Ok(answer)
}
