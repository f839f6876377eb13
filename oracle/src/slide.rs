//! The program that traces one ring of a book round another: what it prints for
//! an input, and the inputs that the repository stores with their outputs.

use crate::book::{book_of, file_of, read_book, MOST_BYTES};
use crate::calls::{compute_nfp_sliding, Traced};
use crate::refusals::{Settings, LARGEST, MOST_POINTS};
use crate::replay::{answer_bits, bytes};
use crate::shapes::{comb, disc, placed, square};
use crate::stored::{Cases, Program};

/// The program, with its stored cases.
pub const PROGRAM: Program = Program { example, cases, printed, others: Vec::new };

/// Bytes of the settings before the book.
const SETTINGS: usize = 24;

/// The Rust's default settings.
const DEFAULT: Settings =
    Settings { contact_tolerance: 1e-6, min_translation: 1e-8, max_iterations: 10_000 };

// ---------------------------------------------------------------------------
// The program
// ---------------------------------------------------------------------------

/// The settings, 0 where the input ends before.
fn settings_of(input: &[u8]) -> Settings {
    let word = |at: usize| match input.get(at..at + 8) {
        Some(bytes) => u64::from_le_bytes(bytes.try_into().expect("eight bytes")),
        None => 0,
    };
    Settings {
        contact_tolerance: f64::from_bits(word(0)),
        min_translation: f64::from_bits(word(8)),
        max_iterations: word(16),
    }
}

/// What is printed of the trace of two polygons.
fn traced(stationary: &[f64], orbiting: &[f64], settings: &Settings) -> String {
    let [mut work, mut result] = [vec![0.0; 2 * MOST_POINTS], vec![0.0; 2 * MOST_POINTS]];
    let traced = compute_nfp_sliding(stationary, orbiting, settings, &mut work, &mut result);
    let Traced::Done { points, passes, stop, .. } = traced else {
        let refusal = traced.refusal().expect("only what is done is not refused");
        return format!("{refusal}\n");
    };
    let mut text = format!("path {points} passes {passes} stop {stop}\n");
    for point in result.chunks_exact(2).take(points as usize) {
        text += &format!("{:016x} {:016x}\n", answer_bits(point[0]), answer_bits(point[1]));
    }
    text
}

/// What is printed for an input. A book with one ring has an orbiting polygon of
/// no vertices.
pub fn printed(input: &[u8]) -> String {
    let (mut coordinates, mut counts) = ([0.0; 4096], [0; 8]);
    let book = input.get(SETTINGS..).unwrap_or_default();
    match read_book(book, &mut coordinates, &mut counts, &mut [0; 8]) {
        Ok(_) => {
            let (stationary, rest) = coordinates.split_at(2 * counts[0] as usize);
            traced(stationary, &rest[..2 * counts[1] as usize], &settings_of(input))
        }
        Err(refusal) => format!("{refusal}\n"),
    }
}

// ---------------------------------------------------------------------------
// The stored cases
// ---------------------------------------------------------------------------

/// The settings as bytes.
fn settings_bytes(settings: &Settings) -> Vec<u8> {
    let Settings { contact_tolerance, min_translation, max_iterations } = settings;
    bytes(&[contact_tolerance.to_bits(), min_translation.to_bits(), *max_iterations])
}

/// These settings before the book of these rings.
fn input_of(settings: &Settings, rings: &[Vec<f64>]) -> Vec<u8> {
    [settings_bytes(settings), book_of(rings)].concat()
}

/// These settings before a file that keeps the rings as they are.
fn unchecked(settings: &Settings, rings: &[Vec<f64>]) -> Vec<u8> {
    [settings_bytes(settings), file_of(rings)].concat()
}

/// The settings with this pass limit.
fn limited(max_iterations: u64) -> Settings {
    Settings { max_iterations, ..DEFAULT }
}

/// The input of the gate: a disc of 24 vertices round a carrier with a notch.
pub fn example() -> Vec<u8> {
    let carrier = vec![0.0, 0.0, 12.0, 0.0, 12.0, 8.0, 8.0, 8.0, 6.0, 3.5, 4.0, 8.0, 0.0, 8.0];
    input_of(&limited(400), &[carrier, disc(24, 1.5)])
}

/// Inputs that are traced, by their names.
fn paths() -> Cases {
    let [s, q] = [square(4.0), square(2.0)];
    let ell = vec![0.0, 0.0, 4.0, 0.0, 4.0, 2.0, 2.0, 2.0, 2.0, 4.0, 0.0, 4.0];
    let wedge = vec![0.0, 0.0, 1.0, -3.0, 2.0, 0.0];
    let third = placed(&q, -0.1, 1.0 / 3.0, 0.7);
    vec![
        ("squares", input_of(&DEFAULT, &[s.clone(), q.clone()])),
        ("squares_swapped", input_of(&DEFAULT, &[q.clone(), s.clone()])),
        ("closing", input_of(&DEFAULT, &[s.clone(), s.clone()])),
        ("clockwise", input_of(&limited(60), &[ell, disc(8, 0.5)])),
        ("counter_clockwise", input_of(&limited(60), &[wedge.clone(), wedge])),
        ("comb_and_disc", input_of(&limited(40), &[comb(2), disc(24, 0.75)])),
        ("third_ring_unused", input_of(&limited(60), &[s.clone(), third, q.clone()])),
    ]
}

/// Crossing rings whose traces stop for the first three reasons.
fn stopped() -> Cases {
    let input = |contact_tolerance, min_translation, rings: [&[f64]; 2]| {
        let settings = Settings { contact_tolerance, min_translation, max_iterations: 60 };
        input_of(&settings, &rings.map(<[f64]>::to_vec))
    };
    vec![
        (
            "contact_lost",
            input(
                1.0,
                1e-8,
                [
                    &[3.0, 3.0, -1.0, -1.0, 1.0, 2.0, 2.0, 0.0],
                    &[0.0, 3.0, -2.0, -1.0, -1.0, 0.0, -1.0, 1.0],
                ],
            ),
        ),
        (
            "no_vector_left",
            input(
                0.125,
                1e-8,
                [
                    &[-3.0, 0.0, -1.0, 0.0, -3.0, -1.0, 1.0, 3.0],
                    &[-3.0, 1.0, -2.0, 0.0, -3.0, -3.0, 1.0, -3.0],
                ],
            ),
        ),
        (
            "late_move_too_short",
            input(
                1e-6,
                0.75,
                [
                    &[-1.0, -3.0, 1.0, -2.0, -2.0, 3.0, 3.0, -3.0],
                    &[3.0, 2.0, -1.0, 0.0, -2.0, -3.0, -2.0, 1.0],
                ],
            ),
        ),
    ]
}

/// Inputs whose settings or rings are refused, by their names.
fn refused() -> Cases {
    let pair = || [square(4.0), square(2.0)];
    let with = |settings: Settings| input_of(&settings, &pair());
    let widest = vec![disc(256, 1000.0); 8];
    vec![
        ("one_ring", input_of(&DEFAULT, &[square(4.0)])),
        (
            "one_ring_and_no_tolerance",
            input_of(&Settings { contact_tolerance: 0.0, ..DEFAULT }, &[square(4.0)]),
        ),
        ("no_tolerance", with(Settings { contact_tolerance: 0.0, ..DEFAULT })),
        ("tolerance_not_a_number", with(Settings { contact_tolerance: f64::NAN, ..DEFAULT })),
        ("negative_move", with(Settings { min_translation: -1e-8, ..DEFAULT })),
        ("limit_too_large", with(limited(10_001))),
        ("limit_zero", with(limited(0))),
        ("largest_tolerance", with(Settings { contact_tolerance: 1.0, ..DEFAULT })),
        ("move_too_short", with(Settings { min_translation: 1e300, ..DEFAULT })),
        ("longest", input_of(&limited(0), &widest)),
    ]
}

/// Inputs whose book is wrong, by their names.
fn wrong() -> Cases {
    let least = vec![0.0, 0.0, 0.0, 4.0, 4.0, 4.0, 4.0, 0.0];
    let right = input_of(&DEFAULT, &[least.clone(), square(2.0)]);
    let bad = Settings { contact_tolerance: 2.0, ..DEFAULT };
    let far = vec![0.0, 0.0, 0.0, 4.0, LARGEST.next_up(), 4.0];
    let minus = vec![0.0, 0.0, 0.0, 4.0, 4.0, -0.0];
    let mut cut = right.clone();
    cut.pop();
    vec![
        ("empty", vec![]),
        ("settings_cut_off", right[..23].to_vec()),
        ("no_book", right[..24].to_vec()),
        ("book_cut_off", cut),
        ("not_the_least", unchecked(&DEFAULT, &[least.clone(), turned(&least)])),
        ("not_the_least_and_large_tolerance", unchecked(&bad, &[least.clone(), turned(&least)])),
        ("coordinate_too_large", unchecked(&DEFAULT, &[far, least.clone()])),
        ("minus_zero", unchecked(&DEFAULT, &[least, minus])),
        ("too_long", [settings_bytes(&DEFAULT), vec![0; MOST_BYTES + 1]].concat()),
    ]
}

/// The ring from its second vertex on.
fn turned(ring: &[f64]) -> Vec<f64> {
    [&ring[2..], &ring[..2]].concat()
}

/// All stored cases, by their names.
pub fn cases() -> Cases {
    [paths(), stopped(), refused(), wrong()].concat()
}
