//! The ring printer's stored inputs: books, and files that are none.

use crate::book::{book_of, file_of, old_file, patched, printed, LEAST_BYTES};
use crate::refusals::LARGEST;
use crate::replay::book::longest;
use crate::shapes::{carrier, mirrored};
use crate::stored::{Cases, Program};

/// The program, with its stored cases.
pub const PROGRAM: Program = Program { example, cases, printed, others: Vec::new };

/// Document 01's ring, as lent.
fn triangle() -> Vec<f64> {
    vec![4.0, 0.0, 0.0, 3.0, 0.0, 0.0]
}

/// A ring with a repeated corner, in its least reading.
fn pinched() -> Vec<f64> {
    vec![0.0, 0.0, 0.0, 1.0, 0.0, 0.0, 1.0, 0.0]
}

/// The input of the gate: document 01's book.
fn example() -> Vec<u8> {
    book_of(&[triangle()])
}

/// Files that are books, by their names.
fn books() -> Cases {
    let edges = vec![-1.5, 2.0, -0.0, 0.0, LARGEST, -LARGEST, 2.25, -7.0];
    vec![
        ("three_rings", book_of(&[triangle(), pinched(), edges])),
        ("same_twice", book_of(&[pinched(), pinched()])),
        ("carrier_and_mirror", book_of(&[carrier(), mirrored(&carrier())])),
        ("longest", book_of(&longest())),
    ]
}

/// Files of a wrong length, by their names.
fn wrong_lengths() -> Cases {
    let most = book_of(&longest());
    vec![
        ("empty", vec![]),
        ("too_short", example()[..LEAST_BYTES - 1].to_vec()),
        ("one_byte_more", [book_of(&[triangle(), pinched()]), vec![0]].concat()),
        ("one_byte_too_long", [most.clone(), vec![0]].concat()),
        ("far_too_long", most.repeat(5)),
    ]
}

/// Files as books were before rings had parts, by their names.
fn old_books() -> Cases {
    vec![
        ("old_shortest", old_file(&example())),
        ("old_two_rings", old_file(&book_of(&[triangle(), pinched()]))),
        ("old_longest", old_file(&book_of(&longest()))),
    ]
}

/// Files with a wrong field, by their names. The book of one ring has its entry
/// at byte 48, that of two rings its entries at byte 112.
fn wrong_fields() -> Cases {
    let with = |file: &[u8], place: usize, value: u32| patched(file, place, &value.to_le_bytes());
    let (one, two) = (example(), book_of(&[triangle(), pinched()]));
    vec![
        ("no_ring", with(&one, 60, 0)),
        ("nine_rings", with(&one, 60, 9)),
        ("eight_rings_told", with(&with(&one, 60, 8), 64, 0)),
        ("entries_elsewhere", with(&one, 64, 47)),
        ("two_vertices", with(&one, 52, 2)),
        ("too_many_vertices", with(&two, 116, 257)),
        ("ring_elsewhere", with(&two, 124, 49)),
        ("rings_end_early", with(&two, 128, 3)),
    ]
}

/// Files with a wrong coordinate, or rings that are no least readings, by their
/// names.
fn wrong_rings() -> Cases {
    let with = |place: usize, number: f64| patched(&example(), place, &number.to_le_bytes());
    let least = vec![0.0, 0.0, 0.0, 3.0, 4.0, 0.0];
    let turned = vec![0.0, 0.0, 1.0, 0.0, 0.0, 0.0, 0.0, 1.0];
    let far = vec![2.0 * LARGEST, 0.0, 1.0, 1.0, 2.0, 2.0];
    vec![
        ("infinite", with(40, f64::NEG_INFINITY)),
        ("not_a_number", with(24, f64::NAN)),
        ("too_large", with(32, LARGEST.next_up())),
        ("minus_zero", with(40, -0.0)),
        ("minus_zero_and_not_the_least", file_of(&[triangle(), mirrored(&triangle())])),
        ("not_the_least", file_of(&[least, turned])),
        ("two_faults", file_of(&[triangle(), far])),
    ]
}

/// All stored cases, by their names.
fn cases() -> Cases {
    [books(), wrong_lengths(), old_books(), wrong_fields(), wrong_rings()].concat()
}
