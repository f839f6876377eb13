//! The predicates in whole numbers: known answers and refusals; that the rules tell
//! what the plane itself does; and that the text in floats answers the same on whole
//! coordinates.

use oracle::calls;
use oracle::refusals::Refusal;
use oracle::replay::whole::every;
use oracle::replay::{list, whole as records};
use oracle::seeded::Seeded;
use oracle::whole::{self, Spot};

const M: i32 = 1_000_000;

/// The list of a record as numbers.
fn numbers(record: &[u64]) -> Vec<i32> {
    record[records::HEADER..].iter().map(|&word| word as i64 as i32).collect()
}

/// The points of a list.
fn points(list: &[i32]) -> Vec<Spot> {
    list.chunks_exact(2).map(|p| (p[0], p[1])).collect()
}

/// All records that answer: every small one, the stored ones and seeded ones.
fn answered() -> impl Iterator<Item = Vec<u64>> {
    let seeded = &mut Seeded::new(5);
    let long = list("whole").expect("there is such a list").long;
    let seeded: Vec<_> = (0..30_000).map(|place| long(seeded, place)).collect();
    every().chain(records::records()).chain(seeded).filter(|record| record[2] == 0)
}

#[test]
fn known_answers() {
    assert_eq!(whole::turn((0, 0), (4, 0), (4, 1)), Ok(1));
    assert_eq!(whole::turn((0, 0), (4, 0), (4, -1)), Ok(-1));
    assert_eq!(whole::orientation((-M, -M), (M, M), (0, 0)), Ok(0));
    assert_eq!(whole::orientation((-M, -M), (M, M), (M - 1, M)), Ok(1));
    assert_eq!(whole::on_segment((0, 0), (4, 2), (3, 2)), Ok(true));
    assert_eq!(whole::on_segment((0, 0), (4, 2), (3, 3)), Ok(false));
    assert_eq!(whole::segments_intersect((0, 0), (2, 0), (2, 0), (3, 1)), Ok(true));
    assert_eq!(whole::segments_intersect((0, 0), (2, 0), (3, 0), (4, 0)), Ok(false));
    assert_eq!(whole::is_simple_polygon(&[0, 0, 2, 2, 2, 0, 0, 2]), Ok(false));
    assert_eq!(whole::is_simple_polygon(&[0, 0, 2, 0, 2, 2, 0, 2]), Ok(true));
    assert_eq!(whole::is_simple_polygon(&[0, 0, 2, 0]), Ok(false));
    assert_eq!(whole::signed_area2(&[-M, -M, M, -M, M, M, -M, M]), Ok(8_000_000_000_000));
    assert_eq!(whole::signed_area2(&[-M, M, M, M, M, -M, -M, -M]), Ok(-8_000_000_000_000));
    assert_eq!(whole::signed_area2(&[]), Ok(0));
}

#[test]
fn refusals_come_in_their_order() {
    for far in [M + 1, -M - 1, i32::MAX, i32::MIN] {
        assert_eq!(whole::turn((0, 0), (0, 0), (0, far)), Err(Refusal::of(2)));
        assert_eq!(whole::on_segment((far, 0), (0, 0), (0, 0)), Err(Refusal::of(2)));
        let meet = whole::segments_intersect((0, 0), (0, far), (0, 0), (0, 0));
        assert_eq!(meet, Err(Refusal::of(2)));
        for (length, refusal) in [
            (512, Refusal::of(2)),
            (511, Refusal::at(1, 0)),
            (513, Refusal::at(1, 0)),
            (514, Refusal::at(9, 0)),
        ] {
            assert_eq!(whole::is_simple_polygon(&vec![far; length]), Err(refusal));
            assert_eq!(whole::signed_area2(&vec![far; length]), Err(refusal));
        }
    }
    assert_eq!(whole::signed_area2(&[M; 512]), Ok(0));
}

#[test]
fn segments_meet_where_they_have_a_point_in_common() {
    let (mut meeting, mut apart) = (0, 0);
    for record in answered().filter(|record| record[0] == records::SEGMENTS_INTERSECT) {
        let p = points(&numbers(&record));
        let common = whole::have_common_point(p[0], p[1], p[2], p[3]);
        assert_eq!(record[3], u64::from(common), "{p:?}");
        *(if common { &mut meeting } else { &mut apart }) += 1;
    }
    assert!(meeting > 20_000 && apart > 20_000, "{meeting} {apart}");
}

#[test]
fn rings_are_simple_where_edges_that_are_no_neighbours_are_apart() {
    let (mut simple, mut not) = (0, 0);
    for record in answered().filter(|record| record[0] == records::IS_SIMPLE_POLYGON) {
        let ring = numbers(&record);
        let apart = whole::has_edges_apart(&ring);
        assert_eq!(record[3], u64::from(apart), "{ring:?}");
        *(if apart { &mut simple } else { &mut not }) += 1;
    }
    assert!(simple > 5_000 && not > 5_000, "{simple} {not}");
}

#[test]
fn a_common_point_is_found_in_line_and_at_points() {
    let common = whole::have_common_point;
    assert!(common((1, 1), (1, 1), (1, 1), (1, 1)));
    assert!(!common((1, 1), (1, 1), (1, 2), (1, 2)));
    assert!(common((0, 0), (4, 2), (2, 1), (2, 1)));
    assert!(common((2, 1), (2, 1), (4, 2), (0, 0)));
    assert!(!common((0, 0), (4, 2), (6, 3), (6, 3)));
    assert!(!common((0, 0), (4, 2), (3, 1), (3, 1)));
    assert!(common((0, 0), (0, 5), (0, 5), (0, 9)));
    assert!(!common((0, 0), (0, 5), (0, 9), (0, 6)));
    assert!(common((0, 0), (0, 5), (0, -1), (0, 6)));
    assert!(!common((0, 0), (4, 0), (1, 1), (3, 1)));
    assert!(!common((-M, -M), (M, M), (M - 1, M), (0, 1)));
}

#[test]
fn the_text_in_floats_answers_the_same() {
    let float = |p: Spot| (f64::from(p.0), f64::from(p.1));
    for record in answered() {
        let list = numbers(&record);
        let p: Vec<_> = points(&list).into_iter().map(float).collect();
        let ring: Vec<f64> = list.iter().map(|&x| f64::from(x)).collect();
        let value = record[3] as i64;
        match record[0] {
            records::TURN | records::ORIENTATION => {
                assert_eq!(calls::orientation(p[0], p[1], p[2]).map(i64::from), Ok(value));
            }
            records::ON_SEGMENT => {
                assert_eq!(calls::on_segment(p[0], p[1], p[2]).map(i64::from), Ok(value));
            }
            records::SEGMENTS_INTERSECT => {
                let meet = calls::segments_intersect(p[0], p[1], p[2], p[3]);
                assert_eq!(meet.map(i64::from), Ok(value));
            }
            records::IS_SIMPLE_POLYGON => {
                assert_eq!(calls::is_simple_polygon(&ring).map(i64::from), Ok(value));
            }
            _ => assert_eq!(calls::signed_area2(&ring), Ok(value as f64)),
        }
    }
}
