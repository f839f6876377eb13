//! The signed area by a compensated sum.

use crate::lent::ring_measured;
use crate::{ffi, Point, Result};

/// The signed area of a ring of at most 256 vertices, above 0 for
/// counter-clockwise order; 0.0 below three vertices.
///
/// ```
/// let area = byrlygent::robust::signed_area_robust(&[(0.0, 0.0), (4.0, 0.0), (0.0, 3.0)])?;
/// assert_eq!(area, 6.0);
/// # Ok::<(), byrlygent::Refusal>(())
/// ```
pub fn signed_area_robust(polygon: &[impl Into<Point> + Copy]) -> Result<f64> {
    ring_measured(ffi::byr_signed_area_robust, polygon)
}
