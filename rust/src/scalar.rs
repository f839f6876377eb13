//! Scalars: every float is taken, and nothing is refused.
//!
//! ```
//! use byrlygent::scalar::{clamp, larger, smaller, sqrt};
//!
//! assert_eq!(sqrt(2.25), 1.5);
//! assert_eq!(larger(f64::NAN, 1.0), 1.0);
//! assert!(smaller(0.0, -0.0).is_sign_negative());
//! assert_eq!(clamp(7.0, 0.0, 1.0), 1.0);
//! ```

use crate::ffi;

/// The absolute value.
pub fn abs(x: f64) -> f64 {
    // SAFETY: the function takes every float.
    unsafe { ffi::byr_abs(x) }
}

/// The smaller of two: of a NaN and a number the number; -0.0 is below +0.0.
pub fn smaller(a: f64, b: f64) -> f64 {
    // SAFETY: the function takes every float.
    unsafe { ffi::byr_smaller(a, b) }
}

/// The larger of two: of a NaN and a number the number; -0.0 is below +0.0.
pub fn larger(a: f64, b: f64) -> f64 {
    // SAFETY: the function takes every float.
    unsafe { ffi::byr_larger(a, b) }
}

/// `lo` if x is below it, else `hi` if x is above that, else x itself.
pub fn clamp(x: f64, lo: f64, hi: f64) -> f64 {
    // SAFETY: the function takes every float.
    unsafe { ffi::byr_clamp(x, lo, hi) }
}

/// The square root, correctly rounded; NaN for NaN and negatives.
pub fn sqrt(x: f64) -> f64 {
    // SAFETY: the function takes every float.
    unsafe { ffi::byr_sqrt(x) }
}
