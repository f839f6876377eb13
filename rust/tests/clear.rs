//! Whole moves and their reasons: known grounds, reasons that hold and spoilt ones,
//! paths leg by leg, the bounds, the lists that the calls refuse by name, and the words
//! that a person reads.

use byrlygent::whole::{
    check_reason, clear_move, clear_path, Ground, Legs, Line, Move, Point, Reason, Shared,
};
use byrlygent::{Entries, List, Refusal};

const M: i32 = 1_000_000;

/// A square of this side, its lowest corner here.
fn square(side: i32, x: i32, y: i32) -> Vec<Point> {
    vec![(x, y), (x + side, y), (x + side, y + side), (x, y + side)]
}

/// The reason of a move that is clear.
fn reason(stationary: &[Point], orbiting: &[Point], by: Point) -> Reason {
    match clear_move(stationary, orbiting, by) {
        Ok(Move::Clear(reason)) => reason,
        other => panic!("{other:?}"),
    }
}

/// So many points, no two of which are equal.
fn points(count: usize) -> Vec<Point> {
    (0..count as i32).map(|i| (i, i % 7)).collect()
}

/// A reason of so many lines.
fn lines(count: usize) -> Reason {
    Reason { lines: vec![Line { p: (9, 0), q: (9, 1) }; count] }
}

/// What the calls refuse these polygons with.
fn refused(stationary: &[Point], orbiting: &[Point]) -> [Option<Refusal>; 3] {
    let reason = lines(stationary.len());
    [
        clear_move(stationary, orbiting, (0, 0)).err(),
        check_reason(stationary, orbiting, (0, 0), &reason).err(),
        clear_path(stationary, orbiting, &[(0, 0); 3]).err(),
    ]
}

#[test]
fn moves_are_clear_or_not() {
    let s = square(4, 0, 0);
    for by in [(0, 0), (0, 9), (0, -9), (9, 0), (1, -100)] {
        let reason = reason(&s, &square(4, 4, 0), by);
        assert_eq!(reason.lines.len(), 4);
        assert_eq!(reason.check(&s, &square(4, 4, 0), by), Ok(Ground::Clear));
    }
    assert_eq!(clear_move(&s, &square(4, 4, 0), (-1, 0)), Ok(Move::Edge(1)));
    assert_eq!(clear_move(&s, &square(4, 0, 4), (0, -1)), Ok(Move::Edge(2)));
    assert_eq!(clear_move(&s, &s, (0, 0)), Ok(Move::Enclosed));
    assert_eq!(clear_move(&s, &square(1, 1, 1), (1, 1)), Ok(Move::Enclosed));
    // Into a gap as wide as the square, and into one that is one narrower.
    for (left, ground) in [(0, Ground::Clear), (1, Ground::Edge(0))] {
        let block = [(-9, 0), (left, 0), (left, 9), (4, 9), (4, 0), (20, 0), (20, 20), (-9, 20)];
        let told = clear_move(&block, &square(4, 0, -4), (0, 9)).map(|told| told.ground());
        assert_eq!(told, Ok(ground));
    }
}

/// A disc of so many corners about this point.
fn disc(corners: u32, radius: f64, x: i32, y: i32) -> Vec<Point> {
    let angle = |i: u32| std::f64::consts::TAU * f64::from(i) / f64::from(corners);
    let at = |x: i32, part: f64| x + (radius * part).round() as i32;
    (0..corners).map(|i| (at(x, angle(i).cos()), at(y, angle(i).sin()))).collect()
}

#[test]
fn one_line_is_given_where_one_will_do() {
    for corners in [32, 256] {
        let neighbour = disc(corners, 15_000.0, 62_000, 15_000);
        let found = reason(&neighbour, &disc(32, 15_000.0, 0, 15_000), (31_000, 0));
        let line = Line { p: (46_000, 0), q: (46_000, 1) };
        assert_eq!(found.shared(), [Shared { line, edges: (0..corners as usize).collect() }]);
        assert_eq!(found.to_string(), format!("edges 0-{}: 46000 0 46000 1\n", corners - 1));
    }
    // In a gap as wide as the square there is a line for each wall, and one for its floor.
    let block = [(-9, 0), (0, 0), (0, 9), (4, 9), (4, 0), (20, 0), (20, 20), (-9, 20)];
    let found = reason(&block, &square(4, 0, -4), (0, 9));
    let words = "edges 0-1, 7: 0 1 0 0\nedges 2, 6: 1 9 0 9\nedges 3-5: 4 0 4 1\n";
    assert_eq!(found.to_string(), words);
}

#[test]
fn a_lent_reason_is_judged_line_by_line() {
    let (s, beside) = (square(4, 0, 0), square(4, 4, 0));
    let found = reason(&s, &beside, (0, 9));
    for edge in 0..4 {
        let Line { p, q } = found.lines[edge];
        for line in [Line { p, q: p }, Line { p: (0, 2), q: (9, 2) }] {
            let mut spoilt = found.clone();
            spoilt.lines[edge] = line;
            assert_eq!(spoilt.check(&s, &beside, (0, 9)), Ok(Ground::Edge(edge)));
            spoilt.lines[3] = Line { p: q, q };
            assert_eq!(spoilt.check(&s, &beside, (0, 9)), Ok(Ground::Edge(edge)));
        }
    }
    let own = |i: usize| Line { p: s[i], q: s[(i + 1) % 4] };
    let own = Reason { lines: (0..4).map(own).collect() };
    assert_eq!(own.check(&s, &s, (0, 0)), Ok(Ground::Enclosed));
    assert_eq!(own.check(&s, &square(2, 1, 1), (1, 1)), Ok(Ground::Enclosed));
    assert_eq!(own.check(&s, &square(2, 1, 1), (1, 2)), Ok(Ground::Edge(2)));
    // The line that the search takes for all edges, by other points.
    let one = Reason { lines: vec![Line { p: (4, M), q: (4, -M) }; 4] };
    assert_eq!(one.check(&s, &beside, (0, 9)), Ok(Ground::Clear));
}

#[test]
fn a_path_is_judged_leg_by_leg() {
    let (s, q) = (square(4, 0, 0), square(2, 0, 0));
    let round = [(-2, -2), (4, -2), (4, 4), (-2, 4)];
    for start in 0..4 {
        let mut path = round;
        path.rotate_left(start);
        assert_eq!(clear_path(&s, &q, &path), Ok(Legs::Clear));
        path.reverse();
        assert_eq!(clear_path(&s, &q, &path), Ok(Legs::Clear));
        let told = clear_path(&s, &q, &path[..3]).expect("within the bounds");
        assert!(matches!(told, Legs::Edge { leg: 2, .. }), "{told:?}");
    }
    assert_eq!(clear_path(&s, &q, &[(1, 1); 3]), Ok(Legs::Enclosed { leg: 0 }));
    assert_eq!(clear_path(&s, &q, &vec![(4, 4); 10_001]), Ok(Legs::Clear));
    // A path that the rule closes straight through.
    let (unit, bar) = (square(1, 0, 0), [(0, 0), (3, 0), (3, 1), (0, 1)]);
    let through = [(1, -1), (1, 1), (-2, 1), (-2, -1)];
    assert_eq!(clear_path(&unit, &bar, &through), Ok(Legs::Edge { leg: 2, edge: 0 }));
}

#[test]
fn corners_are_at_most_a_million_at_the_end_too() {
    let (s, low) = (square(4, 0, 0), square(4, -M, -M));
    reason(&s, &low, (0, 2 * M - 4));
    for by in [(0, 2 * M - 3), (-1, 0), (i32::MIN, 0), (0, i32::MIN), (i32::MAX, i32::MAX)] {
        assert_eq!(clear_move(&s, &low, by), Err(Refusal::Number));
        assert_eq!(lines(4).check(&s, &low, by), Err(Refusal::Number));
    }
    for far in [M + 1, -M - 1, i32::MAX, i32::MIN] {
        assert_eq!(refused(&[(0, 0), (far, 0), (0, 1)], &s), [Some(Refusal::Number); 3]);
        assert_eq!(refused(&s, &[(0, 0), (0, far), (0, 1)]), [Some(Refusal::Number); 3]);
        let mut reason = lines(4);
        reason.lines[3].q.1 = far;
        assert_eq!(reason.check(&s, &s, (0, 0)), Err(Refusal::Number));
        assert_eq!(clear_path(&s, &s, &[(0, 0), (0, 0), (0, far)]), Err(Refusal::Number));
    }
    // Of a path only the corners are bounded.
    let far = square(4, M - 4, M - 4);
    let path = [(4 - 2 * M, 4 - 2 * M), (-M - 100, -M), (-M - 100, 4 - 2 * M)];
    assert_eq!(clear_path(&s, &far, &path), Ok(Legs::Clear));
}

#[test]
fn polygons_have_3_to_256_vertices() {
    let four = points(4);
    let entries = |list, has| Entries { list, has, least: 3, most: 256 };
    for has in [0, 1, 2] {
        let few = |list| [Some(Refusal::Few(entries(list, has))); 3];
        assert_eq!(refused(&points(has), &four), few(List::Stationary));
        assert_eq!(refused(&four, &points(has)), few(List::Orbiting));
        assert_eq!(refused(&points(has), &points(257)), few(List::Stationary));
    }
    let many = |list| [Some(Refusal::Many(entries(list, 257))); 3];
    assert_eq!(refused(&points(257), &four), many(List::Stationary));
    assert_eq!(refused(&four, &points(257)), many(List::Orbiting));
    assert_eq!(refused(&points(256), &points(256)), [None; 3]);
}

#[test]
fn a_reason_has_a_line_for_each_edge_and_a_path_3_to_10001_points() {
    let (four, wrong) = (points(4), [(M + 1, 0); 4]);
    let entries = |has| Entries { list: List::Reason, has, least: 4, most: 4 };
    for stationary in [&four[..], &wrong] {
        let answer = |has| lines(has).check(stationary, &four, (0, 0)).err();
        assert_eq!(answer(3), Some(Refusal::Few(entries(3))));
        assert_eq!(answer(0), Some(Refusal::Few(entries(0))));
        assert_eq!(answer(5), Some(Refusal::Many(entries(5))));
        let path = |has| clear_path(stationary, &four, &points(has)).err();
        let entries = |has| Entries { list: List::Path, has, least: 3, most: 10_001 };
        assert_eq!(path(2), Some(Refusal::Few(entries(2))));
        assert_eq!(path(10_002), Some(Refusal::Many(entries(10_002))));
    }
    let words = lines(3).check(&four, &four, (0, 0)).map_err(|refusal| refusal.to_string());
    assert_eq!(words, Err("the reason has 3 lines: it must have 4".to_string()));
}

#[test]
fn grounds_have_the_numbers_of_the_library_and_words() {
    let all = [
        (Ground::Clear, 0, "nothing lies in between"),
        (Ground::Edge(7), 1, "edge 7 is not parted from the way"),
        (Ground::Enclosed, 2, "every edge is parted, and the way is enclosed"),
    ];
    for (ground, number, words) in all {
        assert_eq!((ground.number(), ground.to_string().as_str()), (number, words));
    }
    let legs = [
        (Legs::Clear, "nothing lies in between on any leg"),
        (
            Legs::Edge { leg: 2, edge: 7 },
            "on the leg from point 2 edge 7 is not parted from the way",
        ),
        (Legs::Enclosed { leg: 2 }, "on the leg from point 2 the way is enclosed"),
    ];
    legs.iter().for_each(|(legs, words)| assert_eq!(legs.to_string(), *words));
}

#[test]
fn a_reason_is_written_with_the_edges_of_each_line() {
    let line = |p, q| Line { p, q };
    let reason = Reason { lines: vec![line((0, -1), (M, 7)), line((-M, 0), (3, 4))] };
    assert_eq!(reason.to_string(), "edges 0: 0 -1 1000000 7\nedges 1: -1000000 0 3 4\n");
}
