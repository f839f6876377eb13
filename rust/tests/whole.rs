//! The predicates in whole numbers: known answers, the bounds, the order of the
//! refusals, and that those in floats answer alike.

use byrlygent::whole::{self, Point};
use byrlygent::{polygon_ops, Entries, List, Refusal};

const M: i32 = 1_000_000;

/// The point in floats, a zero with either sign.
fn float((x, y): Point, minus: bool) -> byrlygent::Point {
    let number = |x: i32| if x == 0 && minus { -0.0 } else { f64::from(x) };
    (number(x), number(y))
}

/// All points of a grid of 3 by 3 about the origin.
fn grid() -> impl Iterator<Item = Point> + Clone {
    (0..9).map(|i| (i % 3 - 1, i / 3 - 1))
}

/// The refusal of a ring with so many vertices.
fn many(has: usize) -> Refusal {
    Refusal::Many(Entries { list: List::Ring, has, least: 0, most: 256 })
}

#[test]
fn points_and_segments_are_judged() {
    assert_eq!(whole::turn((0, 0), (4, 0), (4, 1)), Ok(1));
    assert_eq!(whole::turn((0, 0), (4, 0), (4, -1)), Ok(-1));
    assert_eq!(whole::orientation((-M, -M), (M, M), (0, 0)), Ok(0));
    assert_eq!(whole::orientation((-M, -M), (M, M), (1, 0)), Ok(-1));
    assert_eq!(whole::orientation((0, 0), (1, 0), (0, 1)), Ok(1));
    assert_eq!(whole::orientation((0, 0), (M, 0), (0, M)), Ok(1));
    assert_eq!(whole::on_segment((0, 0), (4, 0), (4, 0)), Ok(true));
    assert_eq!(whole::on_segment((0, 0), (4, 0), (5, 0)), Ok(false));
    assert_eq!(whole::segments_intersect((-M, -M), (M, M), (-M, M), (M, -M)), Ok(true));
    assert_eq!(whole::segments_intersect((-M, -M), (M, M), (1, 0), (M, -M)), Ok(false));
}

#[test]
fn rings_are_measured() {
    let none: [Point; 0] = [];
    assert_eq!(whole::is_simple_polygon(&none), Ok(false));
    assert_eq!(whole::signed_area2(&none), Ok(0));
    let all = [[-M, -M], [M, -M], [M, M], [-M, M]];
    assert_eq!(whole::is_simple_polygon(&all), Ok(true));
    assert_eq!(whole::signed_area2(&all), Ok(8_000_000_000_000));
    let mut back = all;
    back.reverse();
    assert_eq!(whole::signed_area2(&back), Ok(-8_000_000_000_000));
    let closed = [(0, 0), (4, 0), (0, 3), (0, 0)];
    assert_eq!(whole::is_simple_polygon(&closed), Ok(false));
    assert_eq!(whole::is_simple_polygon(&closed[..3]), Ok(true));
    // The closing edge, from the last vertex to the first, is one of them.
    let crossed = [(0, 0), (4, 0), (1, 3), (4, 2)];
    assert_eq!(whole::is_simple_polygon(&crossed), Ok(false));
}

#[test]
fn coordinates_are_at_most_a_million() {
    for far in [M + 1, -M - 1, i32::MAX, i32::MIN] {
        assert_eq!(whole::turn((far, 0), (0, 0), (0, 0)), Err(Refusal::Number));
        assert_eq!(whole::orientation((0, 0), (0, 0), (0, far)), Err(Refusal::Number));
        assert_eq!(whole::on_segment((0, 0), (0, far), (0, 0)), Err(Refusal::Number));
        let meet = whole::segments_intersect((0, 0), (0, 0), (0, 0), (0, far));
        assert_eq!(meet, Err(Refusal::Number));
        assert_eq!(whole::is_simple_polygon(&[(0, 0), (far, 0)]), Err(Refusal::Number));
        assert_eq!(whole::signed_area2(&[(0, far)]), Err(Refusal::Number));
    }
}

#[test]
fn rings_have_0_to_256_vertices() {
    assert_eq!(whole::signed_area2(&[(M, -M); 256]), Ok(0));
    for vertex in [(M, -M), (M + 1, 0)] {
        assert_eq!(whole::signed_area2(&[vertex; 257]), Err(many(257)));
        assert_eq!(whole::is_simple_polygon(&[vertex; 257]), Err(many(257)));
    }
    assert_eq!(whole::is_simple_polygon(&[(M + 1, 0); 256]), Err(Refusal::Number));
}

#[test]
fn floats_answer_alike() {
    for minus in [false, true] {
        let f = |p: Point| float(p, minus);
        for a in grid() {
            for b in grid() {
                for c in grid() {
                    let turn = polygon_ops::orientation(f(a), f(b), f(c));
                    assert_eq!(whole::turn(a, b, c), turn);
                    assert_eq!(whole::orientation(a, b, c), turn);
                    let on = polygon_ops::on_segment(f(a), f(b), f(c));
                    assert_eq!(whole::on_segment(a, b, c), on);
                    for d in grid() {
                        let meet = polygon_ops::segments_intersect(f(a), f(b), f(c), f(d));
                        assert_eq!(whole::segments_intersect(a, b, c, d), meet);
                        let ring = [a, b, c, d];
                        let floats = ring.map(f);
                        let simple = polygon_ops::is_simple_polygon(&floats);
                        assert_eq!(whole::is_simple_polygon(&ring), simple);
                        let area2 = whole::signed_area2(&ring).map(|area2| area2 as f64);
                        assert_eq!(area2, polygon_ops::signed_area2(&floats));
                    }
                }
            }
        }
    }
}
