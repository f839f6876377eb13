//! The scalars, through the library.

use crate::ffi;
use crate::tally::Compared;
use oracle::replay::answer_bits;
use oracle::replay::scalars::{ABS, CLAMP, LARGER, SMALLER, SQRT};

/// The record's call through the library.
pub fn check(record: &[u64]) -> Compared {
    let [x, y, z] = [1, 2, 3].map(|place| f64::from_bits(record[place]));
    // SAFETY: the functions take every float.
    let (call, answer) = unsafe {
        match record[0] {
            ABS => ("abs", ffi::byr_abs(x)),
            SMALLER => ("smaller", ffi::byr_smaller(x, y)),
            LARGER => ("larger", ffi::byr_larger(x, y)),
            CLAMP => ("clamp", ffi::byr_clamp(x, y, z)),
            SQRT => ("sqrt", ffi::byr_sqrt(x)),
            _ => unreachable!("there are five operations"),
        }
    };
    Compared::of(call, 0, record[4], answer_bits(answer))
}
