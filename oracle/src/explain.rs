//! The program that says why a move of a book's second ring is clear, or not: what
//! it prints for an input, and the inputs that the repository stores with their
//! outputs.

use crate::answers::Point;
use crate::book::{book_of, file_of, read_book, MOST_BYTES};
use crate::grounds::{explain_collision, Explanation};
use crate::refusals::{unless, Answer, Refusal, LARGEST};
use crate::replay::{answer_bits, bytes};
use crate::shapes::{comb, disc, placed, square};
use crate::stored::{Cases, Program};

/// The program, with its stored cases.
pub const PROGRAM: Program = Program { example, cases, printed, others: Vec::new };

/// Bytes of the move and the tolerance before the book.
const WORDS: usize = 24;

/// The usual tolerance.
const TOLERANCE: f64 = 1e-6;

// ---------------------------------------------------------------------------
// The program
// ---------------------------------------------------------------------------

/// The answer for an input: 1 for one too short for the three numbers, the book's
/// refusal, and then that of the call. A book with one ring has an orbiting
/// polygon of no vertices.
fn answered(input: &[u8]) -> Answer<Explanation> {
    unless(input.len() >= WORDS, Refusal::of(1))?;
    let (words, book) = input.split_at(WORDS);
    let word = |at: usize| f64::from_le_bytes(words[at..at + 8].try_into().expect("eight bytes"));
    let (mut coordinates, mut counts) = ([0.0; 4096], [0; 8]);
    read_book(book, &mut coordinates, &mut counts, &mut [0; 8])?;
    let (stationary, rest) = coordinates.split_at(2 * counts[0] as usize);
    let orbiting = &rest[..2 * counts[1] as usize];
    explain_collision(stationary, orbiting, (word(0), word(8)), word(16))
}

/// What is printed for an input.
pub fn printed(input: &[u8]) -> String {
    match answered(input) {
        Err(refusal) => format!("refused {}\n", refusal.number),
        Ok(Explanation { hit: None, ground, .. }) => format!("clear {ground}\n"),
        Ok(Explanation { hit: Some(hit), others, .. }) => {
            let (kind, stationary, orbiting) = (hit.kind, hit.stationary, hit.orbiting);
            let distance = answer_bits(hit.distance);
            format!("hit {kind} {stationary} {orbiting} {distance:016x} {others}\n")
        }
    }
}

// ---------------------------------------------------------------------------
// The stored cases
// ---------------------------------------------------------------------------

/// The move and the tolerance as bytes.
fn words(by: Point, tolerance: f64) -> Vec<u8> {
    bytes(&[by.0.to_bits(), by.1.to_bits(), tolerance.to_bits()])
}

/// This move and this tolerance before the book of these rings.
fn input_of(by: Point, tolerance: f64, rings: &[Vec<f64>]) -> Vec<u8> {
    [words(by, tolerance), book_of(rings)].concat()
}

/// The same before a file that keeps the rings as they are.
fn unchecked(by: Point, tolerance: f64, rings: &[Vec<f64>]) -> Vec<u8> {
    [words(by, tolerance), file_of(rings)].concat()
}

/// A carrier 12 wide and 8 high with a notch in its upper edge, and a disc of 24
/// corners with radius 1.5 about this point.
fn disc_at(x: f64, y: f64) -> [Vec<f64>; 2] {
    let carrier = vec![0.0, 0.0, 12.0, 0.0, 12.0, 8.0, 8.0, 8.0, 6.0, 3.5, 4.0, 8.0, 0.0, 8.0];
    [carrier, placed(&disc(24, 1.5), 1.0, x, y)]
}

/// docs/SCOPE.md's squares, the small one at this point.
fn squares(x: f64, y: f64) -> [Vec<f64>; 2] {
    [square(4.0), placed(&square(2.0), 1.0, x, y)]
}

/// Two upright lines, this far apart: all hits of a move along x are at one distance.
fn uprights(apart: f64) -> [Vec<f64>; 2] {
    let line = |x: f64| vec![x, 0.0, x, 2.0, x, 4.0];
    [line(0.0), line(-apart)]
}

/// Two combs with so many teeth, tips to tips, this far apart.
fn combs(teeth: usize, apart: f64) -> [Vec<f64>; 2] {
    let upper = placed(&comb(teeth), -1.0, 2.0 * teeth as f64, 6.0 + apart);
    [comb(teeth), upper]
}

/// The input of the gate: the disc comes down into the carrier's notch.
pub fn example() -> Vec<u8> {
    input_of((0.0, -6.0), TOLERANCE, &disc_at(6.0, 12.0))
}

/// Moves that run into something, by their names.
fn hits() -> Cases {
    let input = |by, rings: &[Vec<f64>]| input_of(by, TOLERANCE, rings);
    let wedge = vec![-3.0, -1.0, 0.0, 1.0, -3.0, 3.0];
    let [s, q] = squares(-5.0, 1.0);
    let third = placed(&q, 1.0, 2.0, 0.5);
    vec![
        ("disc_hit", input((0.0, -3.0), &disc_at(10.0, 12.0))),
        ("vertex_on_edge", input((9.0, 0.0), &[s.clone(), placed(&wedge, 1.0, -1.0, 0.0)])),
        ("edge_on_vertex", input((-9.0, 0.0), &[wedge, placed(&q, 1.0, 11.0, -1.0)])),
        ("squares", input((10.0, 0.0), &[s.clone(), q.clone()])),
        ("squares_swapped", input((-10.0, 0.0), &[q.clone(), s.clone()])),
        ("minus_zero_in_the_move", input((10.0, -0.0), &[s.clone(), q.clone()])),
        ("corner_to_corner", input((9.0, 9.0), &[s.clone(), placed(&q, 1.0, 0.0, -4.0)])),
        ("combs", input((0.0, -2.0), &combs(1, 0.5))),
        ("combs_of_ten_teeth", input((0.0, -2.0), &combs(10, 0.5))),
        ("third_ring_unused", input((10.0, 0.0), &[s, q, third])),
        ("discs", input((-9.0, 0.0), &[disc(24, 2.0), placed(&disc(24, 2.0), 1.0, 7.0, 0.0)])),
        ("longest", input((1000.0, 0.0), &vec![disc(256, 1000.0); 8])),
    ]
}

/// Moves that run into nothing, by their names.
fn clear() -> Cases {
    let pair = squares(-5.0, 1.0);
    let of = |by, tolerance, rings: &[Vec<f64>; 2]| input_of(by, tolerance, rings);
    vec![
        ("disc_clear", of((0.0, -2.5), TOLERANCE, &disc_at(10.0, 12.0))),
        ("disc_passes_by", of((16.0, 0.0), TOLERANCE, &disc_at(-3.0, 9.75))),
        ("short", of((9e-7, 0.0), TOLERANCE, &pair)),
        ("no_move", of((0.0, -0.0), TOLERANCE, &pair)),
        ("short_and_on_top", of((0.25, 0.0), 0.5, &squares(1.0, 1.0))),
        ("smallest_move", of((5e-324, 5e-324), 5e-324, &pair)),
        ("never", of((-10.0, 0.0), TOLERANCE, &pair)),
        ("length_without_bounds", of((1e200, -1e200), TOLERANCE, &pair)),
        ("near", of((0.0, -9.0), TOLERANCE, &squares(1.0, -2.0))),
        ("near_within_two_tolerances", of((1.5, 0.0), 1.0, &uprights(0.75))),
        ("far", of((3.0, 0.0), TOLERANCE, &pair)),
        ("far_within_two_tolerances", of((1.5, 0.0), 1.0, &uprights(1.25))),
        ("far_of_the_tolerance_long", of((1.0, 0.0), 1.0, &pair)),
        ("both_sides", of((1.0, 0.0), TOLERANCE, &squares(-2.0, 1.0))),
        ("both_sides_within_two_tolerances", of((1.5, 0.0), 1.0, &squares(-2.75, 1.0))),
    ]
}

/// Inputs that are refused for their move or their tolerance, or for want of a
/// second ring, by their names.
fn refused() -> Cases {
    let with = |by, tolerance| input_of(by, tolerance, &squares(-5.0, 1.0));
    let one = |by, tolerance| input_of(by, tolerance, &[square(4.0)]);
    let infinite = (f64::INFINITY, 0.0);
    vec![
        ("one_ring", one((1.0, 0.0), TOLERANCE)),
        ("one_ring_and_no_tolerance", one((1.0, 0.0), 0.0)),
        ("one_ring_and_infinite_move", one(infinite, TOLERANCE)),
        ("infinite_move", with(infinite, TOLERANCE)),
        ("move_not_a_number", with((0.0, f64::NAN), TOLERANCE)),
        ("infinite_move_and_no_tolerance", with(infinite, 0.0)),
        ("no_tolerance", with((10.0, 0.0), 0.0)),
        ("negative_tolerance", with((10.0, 0.0), -TOLERANCE)),
        ("large_tolerance", with((10.0, 0.0), 1.0_f64.next_up())),
        ("tolerance_not_a_number", with((10.0, 0.0), f64::NAN)),
        ("short_and_large_tolerance", with((1.5, 0.0), 2.0)),
    ]
}

/// Inputs that are too short, or whose book is wrong, by their names.
fn wrong() -> Cases {
    let by = (10.0, 0.0);
    let least = vec![0.0, 0.0, 0.0, 4.0, 4.0, 4.0, 4.0, 0.0];
    let turned = [&least[2..], &least[..2]].concat();
    let right = input_of(by, TOLERANCE, &squares(-5.0, 1.0));
    let bad = input_of((f64::NAN, 0.0), f64::NAN, &squares(-5.0, 1.0));
    let far = vec![0.0, 0.0, 0.0, 4.0, LARGEST.next_up(), 4.0];
    let minus = vec![0.0, 0.0, 0.0, 4.0, 4.0, -0.0];
    let mut one_ring = input_of(by, TOLERANCE, &[square(4.0)]);
    one_ring.pop();
    vec![
        ("empty", vec![]),
        ("words_cut_off", right[..WORDS - 1].to_vec()),
        ("no_book", right[..WORDS].to_vec()),
        ("book_cut_off", right[..right.len() - 1].to_vec()),
        ("one_byte_more", [&right[..], &[0]].concat()),
        ("words_cut_off_and_no_numbers", bad[..WORDS - 1].to_vec()),
        ("book_cut_off_and_no_numbers", bad[..bad.len() - 1].to_vec()),
        ("one_ring_cut_off", one_ring),
        ("not_the_least", unchecked(by, TOLERANCE, &[least.clone(), turned])),
        ("coordinate_too_large", unchecked(by, TOLERANCE, &[far, least.clone()])),
        ("minus_zero", unchecked(by, TOLERANCE, &[least, minus])),
        ("too_long", [words(by, TOLERANCE), vec![0; MOST_BYTES + 1]].concat()),
        ("far_too_long", [words(by, TOLERANCE), vec![0; 5 * MOST_BYTES]].concat()),
    ]
}

/// All stored cases, by their names.
pub fn cases() -> Cases {
    [hits(), clear(), refused(), wrong()].concat()
}
