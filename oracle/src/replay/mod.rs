//! The replay lists: the oracle's answers on edge cases and a seeded sample, as
//! little-endian 64-bit words without a header.

pub mod book;
pub mod clear;
pub mod discs;
pub mod drawn;
pub mod grid;
mod lengths;
pub mod paths;
pub mod places;
mod polygons;
pub mod rings;
pub mod scalars;
pub mod sliding;
pub mod traces;
pub mod whole;
pub mod wkb;

use crate::refusals::{Refusal, LARGEST};
use crate::seeded::Seeded;
use std::collections::HashSet;

/// How a NaN answer is written.
pub const NAN_BITS: u64 = 0x7ff8_0000_0000_0000;

/// Numbers to put in a place: on the bounds, past them, and odd ones within.
const EDGES: [f64; 14] = [
    LARGEST,
    -LARGEST,
    LARGEST.next_up(),
    (-LARGEST).next_down(),
    f64::NAN,
    f64::INFINITY,
    f64::NEG_INFINITY,
    f64::MAX,
    -0.0,
    5e-324,
    -5e-324,
    f64::MIN_POSITIVE,
    LARGEST.next_down(),
    1e-160,
];

/// NaNs: quiet and signalling, both signs, several payloads.
const NANS: [u64; 8] = [
    0x7ff8_0000_0000_0000,
    0xfff8_0000_0000_0000,
    0x7ff0_0000_0000_0001,
    0xfff0_0000_0000_0001,
    0x7fff_ffff_ffff_ffff,
    0xffff_ffff_ffff_ffff,
    0x7ff7_ffff_ffff_ffff,
    0x7ff8_0000_dead_beef,
];

/// A list with a form to store and a long one.
pub struct List {
    /// The records that the repository stores.
    pub stored: fn() -> Vec<Vec<u64>>,
    /// A record of a long run, which the seed and its place in the run decide.
    pub long: fn(&mut Seeded, u64) -> Vec<u64>,
    /// What a record is counted as.
    pub counted: fn(&[u64]) -> Vec<String>,
}

/// The list with this name, if there is one.
pub fn list(name: &str) -> Option<List> {
    match name {
        "scalars" => Some(scalars::LIST),
        "rings" => Some(rings::LIST),
        "book" => Some(book::LIST),
        "book_equal" => Some(book::EQUAL),
        "book_one" => Some(book::ONE),
        "clear" => Some(clear::LIST),
        "discs" => Some(discs::LIST),
        "drawn" => Some(drawn::LIST),
        "grid" => Some(grid::LIST),
        "paths" => Some(paths::LIST),
        "places" => Some(places::LIST),
        "sliding" => Some(sliding::LIST),
        "traces" => Some(traces::LIST),
        "whole" => Some(whole::LIST),
        "wkb" => Some(wkb::LIST),
        _ => None,
    }
}

/// The bits of an answer; every NaN is written alike.
pub fn answer_bits(x: f64) -> u64 {
    if x.is_nan() {
        NAN_BITS
    } else {
        x.to_bits()
    }
}

/// The words as bytes, each word's lowest byte first.
pub fn bytes(words: &[u64]) -> Vec<u8> {
    words.iter().flat_map(|word| word.to_le_bytes()).collect()
}

/// A refusal's number and place, both 0 where there is none.
fn refused(refusal: Option<Refusal>) -> [u64; 2] {
    refusal.map_or([0; 2], |no| [u64::from(no.number), no.place])
}

/// The list with this number in this place.
fn with(list: &[f64], place: usize, number: f64) -> Vec<f64> {
    let mut changed = list.to_vec();
    changed[place] = number;
    changed
}

/// An edge number or a NaN.
fn edge(seeded: &mut Seeded) -> f64 {
    if seeded.below(4) == 0 {
        f64::from_bits(seeded.pick(&NANS))
    } else {
        seeded.pick(&EDGES)
    }
}

/// Puts these bytes in this place, if they fit.
fn patch(file: &mut [u8], place: usize, bytes: &[u8]) {
    if let Some(there) = file.get_mut(place..place + bytes.len()) {
        there.copy_from_slice(bytes);
    }
}

/// A room of this length whose every number can be told from an answer.
fn float_room(length: usize) -> Vec<f64> {
    let number = |i: usize| if i % 5 == 3 { -0.0 } else { 1000.5 + i as f64 };
    (0..length).map(number).collect()
}

/// A room of this many bytes, a pattern without a short period.
fn byte_room(length: usize) -> Vec<u8> {
    (0..length).map(|i| (i * 151 + i / 64 + 90) as u8).collect()
}

/// The bits of the numbers.
fn bits(list: &[f64]) -> Vec<u64> {
    list.iter().map(|x| x.to_bits()).collect()
}

/// The bytes, eight to a word, the last word filled up with zeros.
pub fn packed(bytes: &[u8]) -> Vec<u64> {
    let word = |chunk: &[u8]| chunk.iter().rev().fold(0, |word, &byte| word << 8 | u64::from(byte));
    bytes.chunks(8).map(word).collect()
}

/// The records, none twice.
fn once(mut records: Vec<Vec<u64>>) -> Vec<Vec<u64>> {
    let mut met = HashSet::new();
    records.retain(|record| met.insert(record.clone()));
    records
}
