//! The fixed helpers with the order of the two zeros turned round.

use crate::fixed::helpers as fixed;

pub use crate::answers::{Error, Nfp, Result, Trace};
pub use crate::fixed::helpers::{orient2d_filtered, polygon_centroid, SUM_START};

/// The smaller of two numbers, +0.0 below -0.0.
pub fn smaller(a: f64, b: f64) -> f64 {
    if a == 0.0 && b == 0.0 {
        fixed::larger(a, b)
    } else {
        fixed::smaller(a, b)
    }
}

/// The larger of two numbers, +0.0 below -0.0.
pub fn larger(a: f64, b: f64) -> f64 {
    if a == 0.0 && b == 0.0 {
        fixed::smaller(a, b)
    } else {
        fixed::larger(a, b)
    }
}
