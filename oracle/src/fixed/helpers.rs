//! The helpers as docs/SCOPE.md fixes them.

use crate::answers::{Orientation, Point};

pub use crate::answers::{Error, Nfp, Result, Trace};

/// Where a sum of floats begins.
pub const SUM_START: f64 = 0.0;

/// The smaller of two numbers: of a NaN and a number the number, -0.0 below
/// +0.0; NaN only for two NaNs.
pub fn smaller(a: f64, b: f64) -> f64 {
    if a.is_nan() {
        b
    } else if b.is_nan() || a < b || (a == b && a.is_sign_negative()) {
        a
    } else {
        b
    }
}

/// The larger of two numbers: of a NaN and a number the number, -0.0 below
/// +0.0; NaN only for two NaNs.
pub fn larger(a: f64, b: f64) -> f64 {
    if a.is_nan() {
        b
    } else if b.is_nan() || a > b || (a == b && a.is_sign_positive()) {
        a
    } else {
        b
    }
}

/// The turn of a, b, c: the sign of one determinant, each operation rounded
/// once; a NaN is collinear.
pub fn orient2d_filtered(a: Point, b: Point, c: Point) -> Orientation {
    let d = (b.0 - a.0) * (c.1 - a.1) - (b.1 - a.1) * (c.0 - a.0);
    if d > 0.0 {
        Orientation::CounterClockwise
    } else if d < 0.0 {
        Orientation::Clockwise
    } else {
        Orientation::Collinear
    }
}

/// The centroid: the mean of the vertices if twice the area is below 1e-10 in
/// size, else the area's own centroid. A NaN area takes the second way.
pub fn polygon_centroid(polygon: &[Point]) -> Point {
    let n = polygon.len();
    let mut area = 0.0;
    let mut sum = (0.0, 0.0);
    let mut weighted = (0.0, 0.0);
    for i in 0..n {
        let (x, y) = polygon[i];
        let (next_x, next_y) = polygon[(i + 1) % n];
        let c = x * next_y - next_x * y;
        area += c;
        sum = (sum.0 + x, sum.1 + y);
        weighted.0 += (x + next_x) * c;
        weighted.1 += (y + next_y) * c;
    }
    if area.abs() < 1e-10 {
        (sum.0 / n as f64, sum.1 / n as f64)
    } else {
        let divisor = 3.0 * area;
        (weighted.0 / divisor, weighted.1 / divisor)
    }
}
