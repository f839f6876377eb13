//! A point against a segment, as the sliding measures it.

use crate::lent::measured;
use crate::refusal::plain;
use crate::{ffi, Point, Result};

/// Where on an edge the foot of a point sits.
#[derive(Debug, Clone, Copy, PartialEq, Eq)]
pub enum Foot {
    /// At the edge's start: the parameter is 0.
    Start,
    /// At its end: the parameter is 1.
    End,
    /// Between the two.
    Between,
}

impl Foot {
    /// The foot that the library gives this number.
    pub(super) fn numbered(foot: u64) -> Self {
        match foot {
            0 => Self::Start,
            1 => Self::End,
            _ => Self::Between,
        }
    }
}

/// The point of a segment that is nearest to another point.
#[derive(Debug, Clone, Copy, PartialEq)]
pub struct Projection {
    /// Where on the segment p1-p2 it lies, 0 at p1 and 1 at p2.
    pub parameter: f64,
    /// Whether that is its start, its end or between.
    pub foot: Foot,
}

/// Where on the segment p1-p2 the point nearest to this one lies, 0 at p1 and 1
/// at p2, and whether that is the start, the end or between; 0, the start, for a
/// segment shorter than 1e-10.
///
/// ```
/// use byrlygent::nfp_sliding::{project_point_to_segment, Foot};
///
/// let beyond = project_point_to_segment((7.0, 4.0), (0.0, 0.0), (4.0, 0.0))?;
/// assert_eq!((beyond.parameter, beyond.foot), (1.0, Foot::End));
/// let above = project_point_to_segment((1.0, 4.0), (0.0, 0.0), (4.0, 0.0))?;
/// assert_eq!((above.parameter, above.foot), (0.25, Foot::Between));
/// # Ok::<(), byrlygent::Refusal>(())
/// ```
pub fn project_point_to_segment(point: Point, p1: Point, p2: Point) -> Result<Projection> {
    let (mut parameter, mut foot) = (0.0, 0);
    // SAFETY: both cells of the answer are there.
    plain(unsafe {
        ffi::byr_project_point_to_segment(
            point.0,
            point.1,
            p1.0,
            p1.1,
            p2.0,
            p2.1,
            &mut parameter,
            &mut foot,
        )
    })?;
    Ok(Projection { parameter, foot: Foot::numbered(u64::from(foot)) })
}

/// The distance of the point from the segment p1-p2.
///
/// ```
/// use byrlygent::nfp_sliding::point_to_segment_distance;
///
/// assert_eq!(point_to_segment_distance((7.0, 4.0), (0.0, 0.0), (4.0, 0.0))?, 5.0);
/// # Ok::<(), byrlygent::Refusal>(())
/// ```
pub fn point_to_segment_distance(point: Point, p1: Point, p2: Point) -> Result<f64> {
    measured(ffi::byr_point_to_segment_distance, point, p1, p2)
}

/// Whether that distance is below the tolerance.
pub fn point_on_segment(point: Point, p1: Point, p2: Point, tol: f64) -> Result<bool> {
    let mut on = 0;
    // SAFETY: the cell of the answer is there.
    plain(unsafe {
        ffi::byr_point_on_segment(point.0, point.1, p1.0, p1.1, p2.0, p2.1, tol, &mut on)
    })?;
    Ok(on != 0)
}
