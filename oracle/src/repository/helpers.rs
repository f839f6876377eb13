//! The helpers as the repository and Rust's library have them.

use crate::answers::Point;

pub use crate::answers::{Error, Nfp, Result, Trace};
pub use crate::fixed::helpers::orient2d_filtered;

/// Where Rust's own sum of floats begins.
pub const SUM_START: f64 = -0.0;

/// Rust's own minimum.
pub fn smaller(a: f64, b: f64) -> f64 {
    a.min(b)
}

/// Rust's own maximum.
pub fn larger(a: f64, b: f64) -> f64 {
    a.max(b)
}

/// Computes the centroid (arithmetic mean of vertices) of a polygon.
///
/// # Returns
///
/// `(0.0, 0.0)` for an empty polygon, otherwise the mean of all vertices.
pub fn polygon_centroid(polygon: &[Point]) -> Point {
    if polygon.is_empty() {
        return (0.0, 0.0);
    }

    let sum: (f64, f64) = polygon.iter().fold((0.0, 0.0), |acc, &(x, y)| (acc.0 + x, acc.1 + y));
    let n = polygon.len() as f64;
    (sum.0 / n, sum.1 / n)
}
