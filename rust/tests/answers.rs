//! Known answers through the safe calls: docs/SCOPE.md's pieces, empty lists, and
//! answers longer than the room that is tried first.

use byrlygent::nfp_sliding::{
    self, Contact, ContactType, Foot, Projection, SlidingNfpConfig, StopReason,
};
use byrlygent::outline_book::{read_book, write_book};
use byrlygent::polygon_ops::{mend_ring, Mended, Why};
use byrlygent::{polygon_ops, robust, scalar, Point};

const S: [Point; 4] = [(0.0, 0.0), (4.0, 0.0), (4.0, 4.0), (0.0, 4.0)];
const Q: [Point; 4] = [(0.0, 0.0), (2.0, 0.0), (2.0, 2.0), (0.0, 2.0)];
const TOLERANCE: f64 = 1e-6;

/// The ring moved.
fn moved(ring: &[Point], by: Point) -> Vec<Point> {
    ring.iter().map(|p| (p.0 + by.0, p.1 + by.1)).collect()
}

#[test]
fn scalars_take_every_float() {
    assert_eq!(scalar::sqrt(4.0), 2.0);
    assert_eq!(scalar::sqrt(-0.0).to_bits(), (-0.0_f64).to_bits());
    assert!(scalar::sqrt(-1.0).is_nan() && scalar::sqrt(f64::NAN).is_nan());
    assert_eq!(scalar::sqrt(5e-324), 2.0_f64.powi(-537));
    assert_eq!(scalar::abs(-0.0).to_bits(), 0);
    assert_eq!(scalar::smaller(0.0, -0.0).to_bits(), (-0.0_f64).to_bits());
    assert_eq!(scalar::larger(-0.0, 0.0).to_bits(), 0);
    assert_eq!(scalar::larger(f64::NAN, 1.0), 1.0);
    assert_eq!(scalar::clamp(-0.0, 0.0, 1.0).to_bits(), (-0.0_f64).to_bits());
}

#[test]
fn rings_of_no_vertex_are_taken() {
    let none: [Point; 0] = [];
    assert_eq!(polygon_ops::mirror_polygon(&none), Ok(vec![]));
    assert_eq!(polygon_ops::open_ring(&none), Ok(vec![]));
    assert_eq!(polygon_ops::is_simple_polygon(&none), Ok(false));
    assert_eq!(polygon_ops::ring_distance(&none, &S), Ok(f64::INFINITY));
    assert_eq!(polygon_ops::signed_area2(&none).map(f64::to_bits), Ok(0));
    assert_eq!(robust::signed_area_robust(&none), Ok(0.0));
    assert_eq!(nfp_sliding::simplify_polygon(&none, TOLERANCE), Ok(vec![]));
    let selected = nfp_sliding::select_translation_vector(&[], None, (0.0, 0.0), (1.0, 0.0));
    assert_eq!(selected, None);
}

#[test]
fn a_mended_ring_is_told_bit_for_bit() {
    let drawn = [(0.0, 0.0), (4.0, 0.0), (4.0, -0.0), (4.0, 4.0), (-0.0, 0.0), (0.0, -0.0)];
    let mended = mend_ring(&drawn).expect("three remain");
    let bits =
        |points: &[Point]| points.iter().map(|p| [p.0, p.1].map(f64::to_bits)).collect::<Vec<_>>();
    assert_eq!(bits(&mended.ring), bits(&[drawn[0], drawn[1], drawn[3]]));
    let told: Vec<_> = mended.dropped.iter().map(|gone| (gone.index, gone.why)).collect();
    assert_eq!(told, [(2, Why::Run), (4, Why::Trailing), (5, Why::Run)]);
    let mut ring = mended.ring.clone();
    mended.dropped.iter().for_each(|gone| ring.insert(gone.index, gone.point));
    assert_eq!(bits(&ring), bits(&drawn));
    assert_eq!(mend_ring(&mended.ring), Ok(Mended { ring: mended.ring, dropped: vec![] }));
}

/// A program's own point.
#[derive(Clone, Copy)]
struct Corner {
    x: f64,
    y: f64,
}

impl From<Corner> for Point {
    fn from(corner: Corner) -> Self {
        (corner.x, corner.y)
    }
}

#[test]
fn lists_hold_whatever_converts_to_a_point() {
    let arrays = S.map(|(x, y)| [x, y]);
    let corners = S.map(|(x, y)| Corner { x, y });
    assert_eq!(polygon_ops::signed_area2(&arrays), Ok(32.0));
    assert_eq!(polygon_ops::mirror_polygon(&corners), polygon_ops::mirror_polygon(&S));
    let default = SlidingNfpConfig::default();
    let traced = nfp_sliding::compute_nfp_sliding(&arrays, &corners, &default);
    assert_eq!(traced, nfp_sliding::compute_nfp_sliding(&S, &S, &default));
    assert_eq!(traced.map(|nfp| (nfp.passes, nfp.stop)), Ok((8, StopReason::Closed)));
    assert_eq!(write_book(&[(1, arrays)]), write_book(&[(1, &S[..])]));
    assert_eq!(write_book(&[(1, corners.to_vec())]), write_book(&[(1, S)]));
}

#[test]
fn rings_are_measured() {
    let triangle = [(0.0, 0.0), (4.0, 0.0), (0.0, 3.0)];
    assert_eq!(polygon_ops::signed_area2(&triangle), Ok(12.0));
    assert_eq!(robust::signed_area_robust(&triangle), Ok(6.0));
    assert_eq!(polygon_ops::orientation((0.0, 0.0), (0.0, 1.0), (1.0, 0.0)), Ok(-1));
    assert_eq!(polygon_ops::on_segment((0.0, 0.0), (4.0, 0.0), (5.0, 0.0)), Ok(false));
    assert_eq!(polygon_ops::point_segment_distance((7.0, 4.0), (0.0, 0.0), (4.0, 0.0)), Ok(5.0));
    assert_eq!(polygon_ops::ring_distance(&S, &moved(&Q, (7.0, 0.0))), Ok(3.0));
    assert_eq!(polygon_ops::is_simple_polygon(&triangle), Ok(true));
    let foot = nfp_sliding::project_point_to_segment((7.0, 4.0), (0.0, 0.0), (4.0, 0.0));
    assert_eq!(foot, Ok(Projection { parameter: 1.0, foot: Foot::End }));
    assert_eq!(nfp_sliding::point_on_segment((2.0, 1e-7), (0.0, 0.0), (4.0, 0.0), 1e-6), Ok(true));
}

#[test]
fn contacts_stand_in_scan_order() {
    let at_start = moved(&Q, (0.0, -2.0));
    let found = nfp_sliding::find_contacts(&S, &at_start, TOLERANCE).expect("both are polygons");
    let named = |c: &Contact| (c.contact_type, c.stationary_idx, c.orbiting_idx, c.foot);
    let (ve, ev, ee) = (ContactType::VertexEdge, ContactType::EdgeVertex, ContactType::EdgeEdge);
    let (start, end, between) = (Foot::Start, Foot::End, Foot::Between);
    let expected = [
        (ve, 0, 2, between),
        (ve, 0, 3, start),
        (ve, 3, 3, end),
        (ev, 0, 2, end),
        (ev, 0, 3, start),
        (ee, 0, 2, between),
    ];
    assert_eq!(found.iter().map(named).collect::<Vec<_>>(), expected);
    assert_eq!(found[5].point, (1.0, 0.0));
}

#[test]
fn vectors_tell_their_contacts() {
    let at_start = moved(&Q, (0.0, -2.0));
    let all = nfp_sliding::compute_translation_vectors(&S, &at_start, TOLERANCE).expect("vectors");
    assert_eq!(all.len(), 12);
    assert!(all.iter().enumerate().all(|(i, v)| v.source_contact == i / 2));
    let visited = [(1.0, -2.0)];
    let left =
        nfp_sliding::handle_perfect_fit(&S, &at_start, (0.0, -2.0), &visited, TOLERANCE).unwrap();
    assert!(!left.is_empty() && left.len() < 12);
    assert!(left.iter().all(|v| v.direction.0 * v.max_distance.min(1.0) != 1.0));
    let taken = nfp_sliding::select_translation_vector(&all, None, (2.0, 2.0), (0.0, -2.0));
    assert_eq!(taken.map(|v| (v.direction, v.max_distance)), Some(((1.0, 0.0), 2.0)));
}

#[test]
fn answers_longer_than_the_first_room_are_whole() {
    let dot = [(0.5, 0.5); 40];
    let found = nfp_sliding::find_contacts(&dot, &dot, TOLERANCE).expect("both are polygons");
    assert_eq!(found.len(), 2 * 40 * 40);
    assert_eq!(found[40 * 40].contact_type, ContactType::EdgeVertex);
    let all = nfp_sliding::compute_translation_vectors(&dot, &dot, TOLERANCE).expect("vectors");
    assert_eq!(all.len(), 4 * 40 * 40);
    assert_eq!(all[all.len() - 1].source_contact, found.len() - 1);
}

#[test]
fn moves_and_overlaps_are_judged() {
    let beside = moved(&Q, (-5.0, 1.0));
    let collision = |by| nfp_sliding::check_translation_collision(&S, &beside, by, TOLERANCE);
    let hit = collision((10.0, 0.0)).unwrap().expect("a hit");
    assert_eq!(hit.contact_type, ContactType::VertexEdge);
    assert_eq!((hit.distance, hit.stationary_idx, hit.orbiting_idx), (3.0, 3, 1));
    assert_eq!(collision((0.0, 0.0)), Ok(None));
    assert_eq!(nfp_sliding::polygons_overlap(&S, &beside), Ok(false));
    assert_eq!(nfp_sliding::polygons_overlap(&S, &Q), Ok(true));
    assert_eq!(
        nfp_sliding::polygons_overlap_with_tolerance(&S, &moved(&Q, (4.5, 0.0)), 1.0),
        Ok(true)
    );
    let at = (-5.0, 1.0);
    let back = nfp_sliding::recover_contact(&S, &beside, at, TOLERANCE).unwrap();
    assert!(back.is_some_and(|p| p.0 > at.0));
    assert_eq!(nfp_sliding::recover_contact(&S, &S, (0.0, 0.0), TOLERANCE), Ok(None));
    assert_eq!(nfp_sliding::detect_interlocking_opportunity(&S, &Q, at, TOLERANCE), Ok(None));
    let arrow = [(0.0, 0.0), (4.0, 0.0), (4.0, 4.0), (2.0, 1.0), (0.0, 4.0)];
    let lock = nfp_sliding::detect_interlocking_opportunity(&arrow, &Q, (2.0, 11.0), 0.5);
    assert_eq!(lock, Ok(Some((2.0, 10.5))));
}

#[test]
fn traces_carry_path_passes_and_reason() {
    let nfp = nfp_sliding::compute_nfp_sliding(&S, &Q, &SlidingNfpConfig::default()).unwrap();
    assert_eq!(nfp.polygons, [[(0.0, -2.0), (4.0, -2.0), (4.0, 4.0), (2.000001, 4.0)]]);
    assert_eq!((nfp.path.len(), nfp.passes, nfp.stop), (7, 10_000, StopReason::Passes));
    assert_eq!((nfp.is_empty(), nfp.vertex_count()), (false, 4));
    let round = nfp_sliding::compute_nfp_sliding(&Q, &S, &SlidingNfpConfig::default()).unwrap();
    assert_eq!((round.path.len(), round.passes, round.stop), (10, 11, StopReason::Closed));
    let simplified = nfp_sliding::simplify_polygon(&round.path, TOLERANCE).unwrap();
    assert_eq!(simplified, round.polygons[0]);
}

/// The bits of a ring's coordinates.
fn bits(ring: &[Point]) -> Vec<u64> {
    ring.iter().flat_map(|p| [p.0.to_bits(), p.1.to_bits()]).collect()
}

#[test]
fn books_keep_every_bit_but_the_sign_of_a_zero() {
    let odd = [(-0.0, 5e-324), (-5e-324, 1e6), (0.1, -0.0)];
    let book = write_book(&[(u32::MAX, &odd[..]), (0, &S)]).expect("a book of two rings");
    let rings = read_book(&book).expect("it was just written");
    assert_eq!((rings[0].0, rings[1].0), (u32::MAX, 0));
    assert_eq!(bits(&rings[0].1), bits(&[(-5e-324, 1e6), (0.0, 5e-324), (0.1, 0.0)]));
    assert_eq!(rings[1].1, [(0.0, 0.0), (0.0, 4.0), (4.0, 4.0), (4.0, 0.0)]);
    assert_eq!(write_book(&rings), Ok(book));
}

#[test]
fn the_sign_of_a_zero_does_not_choose_the_reading() {
    // By sign the ring would be read back from its first vertex.
    let ring = [(0.0, -0.0), (1.0, 5.0), (2.0, 2.0), (0.0, 0.0), (1.0, 3.0)];
    let rings = read_book(&write_book(&[(1, ring)]).unwrap()).unwrap();
    let least = [(0.0, 0.0), (1.0, 3.0), (0.0, 0.0), (1.0, 5.0), (2.0, 2.0)];
    assert_eq!(bits(&rings[0].1), bits(&least));
}

#[test]
fn a_carrier_and_its_mirror_have_one_book() {
    let half = [(0.0, 9.125), (-12.5, 18.75), (-42.25, 18.75), (-42.25, 0.0), (0.0, -6.5)];
    let other = half[1..4].iter().rev().map(|&(x, y)| (-x, y));
    let carrier: Vec<Point> = half.into_iter().chain(other).collect();
    let mirror = polygon_ops::mirror_polygon(&carrier).unwrap();
    let minus = |ring: &[Point]| bits(ring).into_iter().filter(|&bits| bits == 1 << 63).count();
    assert_eq!((minus(&carrier), minus(&mirror)), (0, 2));
    let book = write_book(&[(1, &carrier)]).unwrap();
    assert_eq!(write_book(&[(1, &mirror)]).unwrap(), book);
    assert_ne!(write_book(&[(2, &mirror)]).unwrap(), book);
    let mut turned = mirror;
    turned.rotate_left(3);
    assert_eq!(write_book(&[(1, turned)]).unwrap(), book);
    assert_eq!(minus(&read_book(&book).unwrap()[0].1), 0);
}
