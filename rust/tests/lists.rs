//! Lists with too few entries or too many: each call names the one that is at
//! fault, the first of several, and says what it has and what it may have.

use byrlygent::drawn;
use byrlygent::nfp_sliding::{self, SlidingNfpConfig};
use byrlygent::outline_book::write_book;
use byrlygent::whole::{Line, Reason};
use byrlygent::{polygon_ops, robust, Entries, List, Point, Refusal};

const TOLERANCE: f64 = 1e-6;
const NOWHERE: Point = (0.0, 0.0);

/// So many points, no two of which are equal.
fn points(count: u32) -> Vec<Point> {
    (0..count).map(|i| (f64::from(i), f64::from(i % 7))).collect()
}

/// So many points, one of which is out of bounds.
fn wrong(count: u32) -> Vec<Point> {
    let mut list = points(count);
    list[0].0 = f64::NAN;
    list
}

/// The refusal of too few of this list, a polygon.
fn few(list: List, has: usize) -> Option<Refusal> {
    Some(Refusal::Few(Entries { list, has, least: 3, most: 256 }))
}

/// The refusal of too many of this list, of which there may be so many.
fn many(list: List, has: usize, least: usize, most: usize) -> Option<Refusal> {
    Some(Refusal::Many(Entries { list, has, least, most }))
}

/// What the calls with a stationary and an orbiting polygon refuse these with.
fn sliding(stationary: &[Point], orbiting: &[Point]) -> [Option<Refusal>; 13] {
    let (s, o, at) = (stationary, orbiting, NOWHERE);
    let none: [Point; 0] = [];
    let reason = Reason { lines: vec![Line { p: (9, 0), q: (9, 1) }; s.len()] };
    [
        nfp_sliding::find_contacts(s, o, TOLERANCE).err(),
        nfp_sliding::compute_translation_vectors(s, o, TOLERANCE).err(),
        nfp_sliding::handle_perfect_fit(s, o, at, &none, TOLERANCE).err(),
        nfp_sliding::check_translation_collision(s, o, at, TOLERANCE).err(),
        nfp_sliding::explain_collision(s, o, at, TOLERANCE).err(),
        nfp_sliding::detect_interlocking_opportunity(s, o, at, TOLERANCE).err(),
        nfp_sliding::recover_contact(s, o, at, TOLERANCE).err(),
        nfp_sliding::find_start_position(s, o).err(),
        nfp_sliding::compute_nfp_sliding(s, o, &SlidingNfpConfig::default()).err(),
        nfp_sliding::check_path(s, o, &SlidingNfpConfig::default(), &[at; 3]).err(),
        drawn::clear_move(s, o, at, at, 1).err(),
        drawn::check_reason(s, o, at, at, 1, 0, &reason).err(),
        drawn::clear_path(s, o, &[at; 2], false, 1).err(),
    ]
}

/// What both overlaps refuse these polygons with.
fn overlaps(a: &[Point], b: &[Point]) -> [Option<Refusal>; 2] {
    [
        nfp_sliding::polygons_overlap(a, b).err(),
        nfp_sliding::polygons_overlap_with_tolerance(a, b, TOLERANCE).err(),
    ]
}

/// What the calls with one ring refuse this with; tests/whole.rs has those in whole
/// numbers.
fn one_ring(ring: &[Point]) -> [Option<Refusal>; 5] {
    [
        polygon_ops::mirror_polygon(ring).err(),
        polygon_ops::open_ring(ring).err(),
        polygon_ops::is_simple_polygon(ring).err(),
        polygon_ops::signed_area2(ring).err(),
        robust::signed_area_robust(ring).err(),
    ]
}

#[test]
fn the_words_say_which_list_what_it_has_and_what_it_may_have() {
    let lists = [
        (List::Stationary, "the stationary polygon has 5 vertices"),
        (List::Orbiting, "the orbiting polygon has 5 vertices"),
        (List::Visited, "the visited list has 5 positions"),
        (List::Path, "the path has 5 points"),
        (List::Reason, "the reason has 5 lines"),
        (List::First, "the first outline has 5 vertices"),
        (List::Second, "the second outline has 5 vertices"),
        (List::Ring, "the ring has 5 vertices"),
        (List::Points, "the list has 5 points"),
        (List::Book, "the book has 5 rings"),
        (List::RingOfBook(7), "ring 7 of the book has 5 vertices"),
    ];
    for (list, words) in lists {
        let entries = Entries { list, has: 5, least: 6, most: 9 };
        assert_eq!(Refusal::Few(entries).to_string(), format!("{words}: it may have 6 to 9"));
        assert_eq!(Refusal::Many(entries).to_string(), format!("{words}: it may have 6 to 9"));
    }
    let few = |has| Refusal::Few(Entries { list: List::Ring, has, least: 3, most: 256 });
    assert_eq!(few(0).to_string(), "the ring has no vertices: it may have 3 to 256");
    assert_eq!(few(1).to_string(), "the ring has 1 vertex: it may have 3 to 256");
}

#[test]
fn polygons_of_the_sliding_have_3_to_256_vertices() {
    let four = points(4);
    for has in [0, 1, 2] {
        let short = points(has);
        assert_eq!(sliding(&short, &four), [few(List::Stationary, has as usize); 13]);
        assert_eq!(sliding(&four, &short), [few(List::Orbiting, has as usize); 13]);
    }
    let long = points(257);
    assert_eq!(sliding(&long, &four), [many(List::Stationary, 257, 3, 256); 13]);
    assert_eq!(sliding(&four, &long), [many(List::Orbiting, 257, 3, 256); 13]);
    for (stationary, orbiting) in [(3, 256), (256, 3)] {
        let start = nfp_sliding::find_start_position(&points(stationary), &points(orbiting));
        assert!(start.is_ok());
    }
}

#[test]
fn polygons_of_an_overlap_have_3_to_256_vertices() {
    let four = points(4);
    assert_eq!(overlaps(&points(2), &four), [few(List::First, 2); 2]);
    assert_eq!(overlaps(&four, &points(2)), [few(List::Second, 2); 2]);
    assert_eq!(overlaps(&points(257), &four), [many(List::First, 257, 3, 256); 2]);
    assert_eq!(overlaps(&four, &points(257)), [many(List::Second, 257, 3, 256); 2]);
    assert_eq!(overlaps(&points(3), &points(256)), [None; 2]);
}

#[test]
fn rings_have_0_to_256_vertices() {
    for has in [0, 1, 2, 256] {
        assert_eq!(one_ring(&points(has)), [None; 5]);
        assert!(polygon_ops::ring_distance(&points(has), &points(256)).is_ok());
    }
    assert_eq!(one_ring(&points(257)), [many(List::Ring, 257, 0, 256); 5]);
    let distance = |a, b| polygon_ops::ring_distance(&points(a), &points(b)).err();
    assert_eq!(distance(257, 4), many(List::First, 257, 0, 256));
    assert_eq!(distance(0, 257), many(List::Second, 257, 0, 256));
}

#[test]
fn a_ring_to_mend_has_1_to_256_vertices() {
    let mended = |has| polygon_ops::mend_ring(&points(has)).err();
    let none = Entries { list: List::Ring, has: 0, least: 1, most: 256 };
    assert_eq!(mended(0), Some(Refusal::Few(none)));
    assert_eq!(
        [1, 2, 3, 256].map(mended),
        [Some(Refusal::Remaining), Some(Refusal::Remaining), None, None]
    );
    assert_eq!(mended(257), many(List::Ring, 257, 1, 256));
    assert_eq!(polygon_ops::mend_ring(&wrong(257)).err(), many(List::Ring, 257, 1, 256));
}

#[test]
fn lists_of_points_have_0_to_10001() {
    let simplified = |has| nfp_sliding::simplify_polygon(&points(has), TOLERANCE).err();
    assert_eq!([0, 1, 10_001].map(simplified), [None; 3]);
    assert_eq!(simplified(10_002), many(List::Points, 10_002, 0, 10_001));
    let (four, at) = (points(4), NOWHERE);
    let visited =
        |has| nfp_sliding::handle_perfect_fit(&four, &four, at, &points(has), TOLERANCE).err();
    assert_eq!([0, 1, 10_001].map(visited), [None; 3]);
    assert_eq!(visited(10_002), many(List::Visited, 10_002, 0, 10_001));
}

#[test]
fn a_path_to_check_has_3_to_10001_points() {
    let (four, config) = (points(4), SlidingNfpConfig::default());
    let checked = |has| nfp_sliding::check_path(&four, &four, &config, &points(has)).err();
    assert_eq!([3, 4, 10_001].map(checked), [None; 3]);
    for has in [0, 1, 2] {
        let entries = Entries { list: List::Path, has: has as usize, least: 3, most: 10_001 };
        assert_eq!(checked(has), Some(Refusal::Few(entries)));
    }
    assert_eq!(checked(10_002), many(List::Path, 10_002, 3, 10_001));
}

#[test]
fn books_have_1_to_8_rings_of_3_to_256_vertices() {
    let refused = |counts: &[u32]| {
        let rings: Vec<(u32, Vec<Point>)> =
            counts.iter().map(|&count| (7, points(count))).collect();
        write_book(&rings).err()
    };
    let book = |has| Entries { list: List::Book, has, least: 1, most: 8 };
    assert_eq!(refused(&[]), Some(Refusal::Few(book(0))));
    assert_eq!(refused(&[3; 9]), Some(Refusal::Many(book(9))));
    assert_eq!(refused(&[2; 10]), Some(Refusal::Many(book(10))));
    assert_eq!(refused(&[3; 8]), None);
    assert_eq!(refused(&[2]), few(List::RingOfBook(0), 2));
    assert_eq!(refused(&[2, 257]), few(List::RingOfBook(0), 2));
    assert_eq!(refused(&[257, 2]), many(List::RingOfBook(0), 257, 3, 256));
    assert_eq!(refused(&[3, 256, 0]), few(List::RingOfBook(2), 0));
    assert_eq!(refused(&[3, 3, 3, 3, 3, 3, 3, 257]), many(List::RingOfBook(7), 257, 3, 256));
    assert_eq!(refused(&[3, 256]), None);
}

#[test]
fn place_0_of_a_book_is_the_book_or_its_first_ring() {
    let words = |rings: &[Vec<Point>]| {
        let outlines: Vec<_> = rings.iter().map(|ring| (7, ring)).collect();
        write_book(&outlines).map_err(|refusal| refusal.to_string())
    };
    let none = Err("the book has no rings: it may have 1 to 8".to_string());
    assert_eq!(words(&[]), none);
    let short = Err("ring 0 of the book has 2 vertices: it may have 3 to 256".to_string());
    assert_eq!(words(&[points(2)]), short);
    let empty = Err("ring 0 of the book has no vertices: it may have 3 to 256".to_string());
    assert_eq!(words(&[points(0)]), empty);
}

#[test]
fn the_first_list_speaks_and_all_of_them_before_any_number() {
    assert_eq!(sliding(&points(257), &points(2)), [many(List::Stationary, 257, 3, 256); 13]);
    assert_eq!(sliding(&points(2), &points(257)), [few(List::Stationary, 2); 13]);
    assert_eq!(sliding(&wrong(4), &points(2)), [few(List::Orbiting, 2); 13]);
    assert_eq!(sliding(&wrong(4), &points(4)), [Some(Refusal::Number); 13]);
    let (list, at) = (points(10_002), NOWHERE);
    let fit = |o: &[Point]| nfp_sliding::handle_perfect_fit(&wrong(4), o, at, &list, 0.0).err();
    assert_eq!(fit(&points(2)), few(List::Orbiting, 2));
    assert_eq!(fit(&wrong(4)), many(List::Visited, 10_002, 0, 10_001));
    let none = SlidingNfpConfig { contact_tolerance: 0.0, ..Default::default() };
    let checked = |o: &[Point]| nfp_sliding::check_path(&wrong(4), o, &none, &list).err();
    assert_eq!(checked(&points(2)), few(List::Orbiting, 2));
    assert_eq!(checked(&wrong(4)), many(List::Path, 10_002, 3, 10_001));
    let (short, long) = (points(2), points(257));
    assert_eq!(write_book(&[(1, wrong(3)), (2, short)]).err(), few(List::RingOfBook(1), 2));
    assert_eq!(
        write_book(&[(1, wrong(3)), (2, long)]).err(),
        many(List::RingOfBook(1), 257, 3, 256)
    );
}
