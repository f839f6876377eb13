//! Each refusal, and the words that it has for a person; tests/lists.rs has those
//! of lists with too few entries or too many, tests/discs.rs those of discs, and
//! tests/wkb.rs those of drawings.

use byrlygent::nfp_sliding::{self, compute_nfp_sliding, SlidingNfpConfig, StopReason};
use byrlygent::outline_book::{read_book, write_book};
use byrlygent::wkb::Fault;
use byrlygent::{polygon_ops, robust, Entries, List, Point, Refusal};

const SQUARE: [Point; 4] = [(0.0, 0.0), (4.0, 0.0), (4.0, 4.0), (0.0, 4.0)];

/// The trace of the square round itself with these settings.
fn trace(config: SlidingNfpConfig) -> Result<u64, Refusal> {
    compute_nfp_sliding(&SQUARE, &SQUARE, &config).map(|nfp| nfp.passes)
}

/// The next float after a positive one.
fn after(x: f64) -> f64 {
    f64::from_bits(x.to_bits() + 1)
}

/// The square with this number in place of a coordinate.
fn with(number: f64) -> [Point; 4] {
    let mut square = SQUARE;
    square[2].1 = number;
    square
}

#[test]
fn each_refusal_says_what_to_mend() {
    let told = |refusal: Refusal, parts: &[&str]| {
        let text = refusal.to_string();
        assert!(parts.iter().all(|part| text.contains(part)), "{text}");
    };
    told(Refusal::Number, &["out of bounds", "finite", "-1000000 to 1000000", "above 0"]);
    let settings =
        ["above 0 and at most 1", "not negative", "at most 10000", "units of a grid 1 to"];
    told(Refusal::Setting, &settings);
    let reasons = [
        (StopReason::NoContact, "lost contact"),
        (StopReason::NoVector, "no vector left"),
        (StopReason::ShortMove, "too short"),
        (StopReason::Closed, "back at the start"),
        (StopReason::Passes, "used up"),
    ];
    for (stop, words) in reasons {
        told(Refusal::ShortPath { passes: 17, stop }, &["fewer than three", "17 passes", words]);
    }
    told(Refusal::Book { place: 56 }, &["byte 56", "write it anew"]);
    told(Refusal::Wkb { place: 1, fault: Fault::Type(6) }, &["byte 1", "type is 6"]);
    told(Refusal::Remaining, &["fewer than three", "a point or a line"]);
    told(Refusal::Inspection, &["1 to 10001 places", "1 to 64", "start must be below"]);
    told(Refusal::Grid, &["above 1000000", "fewer units", "nearer to (0, 0)"]);
}

#[test]
fn refusals_have_the_numbers_of_the_library() {
    let short = Refusal::ShortPath { passes: 0, stop: StopReason::Passes };
    let plain = [Refusal::Number, Refusal::Setting, short, Refusal::Book { place: 0 }];
    assert_eq!(plain.map(Refusal::number), [2, 3, 6, 7]);
    let entries = Entries { list: List::Ring, has: 257, least: 0, most: 256 };
    let wkb = Refusal::Wkb { place: 0, fault: Fault::Short(0) };
    let rest = [Refusal::Few(entries), Refusal::Many(entries), wkb];
    assert_eq!(rest.map(Refusal::number), [8, 9, 10]);
    let last = [Refusal::Remaining, Refusal::Quarter(3), Refusal::Inspection, Refusal::Grid];
    assert_eq!(last.map(Refusal::number), [11, 12, 13, 14]);
}

#[test]
fn coordinates_are_finite_and_at_most_a_million() {
    assert!(polygon_ops::is_simple_polygon(&with(1e6)).is_ok());
    for number in [after(1e6), f64::NAN, f64::INFINITY, f64::NEG_INFINITY] {
        let ring = with(number);
        assert_eq!(polygon_ops::is_simple_polygon(&ring), Err(Refusal::Number));
        assert_eq!(robust::signed_area_robust(&ring), Err(Refusal::Number));
        assert_eq!(nfp_sliding::polygons_overlap(&SQUARE, &ring), Err(Refusal::Number));
        assert_eq!(write_book(&[(1, ring)]), Err(Refusal::Number));
        let turn = polygon_ops::orientation((0.0, 0.0), (1.0, 1.0), (number, 0.0));
        assert_eq!(turn, Err(Refusal::Number));
    }
}

#[test]
fn settings_keep_their_bounds() {
    let default = SlidingNfpConfig::default();
    assert_eq!(trace(default), Ok(8));
    for contact_tolerance in [0.0, -0.0, after(1.0), f64::NAN] {
        assert_eq!(trace(SlidingNfpConfig { contact_tolerance, ..default }), Err(Refusal::Setting));
        let found = nfp_sliding::find_contacts(&SQUARE, &SQUARE, contact_tolerance);
        assert_eq!(found, Err(Refusal::Setting));
    }
    for min_translation in [-1e-9, f64::NAN, f64::INFINITY] {
        assert_eq!(trace(SlidingNfpConfig { min_translation, ..default }), Err(Refusal::Setting));
    }
    for max_iterations in [10_001, usize::MAX] {
        assert_eq!(trace(SlidingNfpConfig { max_iterations, ..default }), Err(Refusal::Setting));
    }
}

#[test]
fn a_path_too_short_tells_its_passes_and_why() {
    let default = SlidingNfpConfig::default();
    let short = |passes, stop| Err(Refusal::ShortPath { passes, stop });
    assert_eq!(
        trace(SlidingNfpConfig { max_iterations: 1, ..default }),
        short(1, StopReason::Passes)
    );
    let long_steps = SlidingNfpConfig { min_translation: 1e300, ..default };
    assert_eq!(trace(long_steps), short(1, StopReason::ShortMove));
}

#[test]
fn a_wrong_book_tells_the_place() {
    let book = write_book(&[(7, SQUARE)]).expect("a square makes a book");
    assert_eq!(read_book(&book).map(|rings| rings.len()), Ok(1));
    assert_eq!(read_book(&[]), Err(Refusal::Book { place: 0 }));
    let mut wrong = book.clone();
    wrong[book.len() - 8] = 9;
    assert_eq!(read_book(&wrong), Err(Refusal::Book { place: book.len() - 8 }));
    wrong = book.clone();
    wrong[8..16].copy_from_slice(&f64::NAN.to_le_bytes());
    assert_eq!(read_book(&wrong), Err(Refusal::Book { place: 8 }));
}

#[test]
fn a_stored_minus_zero_is_told_at_its_coordinate() {
    let book = write_book(&[(7, SQUARE)]).expect("a square makes a book");
    let with = |book: &[u8], place: usize, number: f64| {
        let mut wrong = book.to_vec();
        wrong[place..place + 8].copy_from_slice(&number.to_le_bytes());
        wrong
    };
    for place in (0..book.len() - 20).step_by(8) {
        let minus = with(&book, place, -0.0);
        assert_eq!(read_book(&minus), Err(Refusal::Book { place }));
        // A wrong coordinate before it is told first; one after it is not.
        assert_eq!(read_book(&with(&minus, 0, -0.0)), Err(Refusal::Book { place: 0 }));
        let after = (place + 8).min(book.len() - 28);
        let both = with(&with(&book, after, f64::NAN), place, -0.0);
        assert_eq!(read_book(&both), Err(Refusal::Book { place }));
    }
}

#[test]
fn a_ring_of_which_fewer_than_three_vertices_remain_is_not_mended() {
    let line = [(0.0, 0.0), (4.0, 0.0), (4.0, -0.0), (-0.0, 0.0)];
    assert_eq!(polygon_ops::mend_ring(&line), Err(Refusal::Remaining));
    assert_eq!(polygon_ops::mend_ring(&[(1.0, 2.0); 256]), Err(Refusal::Remaining));
    assert_eq!(polygon_ops::mend_ring(&[(1.0, f64::NAN); 4]), Err(Refusal::Number));
}
