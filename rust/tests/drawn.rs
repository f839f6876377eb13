//! Moves of a drawing: known grounds and depths, reasons that hold and spoilt ones, paths
//! leg by leg, every refusal in its order, the lists that the calls refuse by name, and the
//! words that a person reads.

use byrlygent::drawn::{check_reason, clear_move, clear_path, Checked, Clear, Legs, Move, Within};
use byrlygent::grid::to_grid;
use byrlygent::whole::{self, Line, Reason};
use byrlygent::{discs, Entries, List, Point, Refusal};

/// A square of this side, its lowest corner here.
fn square(side: f64, x: f64, y: f64) -> Vec<Point> {
    vec![(x, y), (x + side, y), (x + side, y + side), (x, y + side)]
}

/// The move of a square of side 2 straight up beside one of side 4, from this x, on a grid
/// of a thousandth.
fn beside(x: f64) -> Move {
    let told = clear_move(&square(4.0, 0.0, 0.0), &square(2.0, 0.0, 0.0), (x, 0.0), (x, 9.0), 1000);
    told.expect("within the bounds")
}

/// The same, which is clear.
fn clear(x: f64) -> Clear {
    match beside(x) {
        Move::Clear(clear) => clear,
        other => panic!("{other:?}"),
    }
}

/// A reason of so many lines.
fn lines(count: usize) -> Reason {
    Reason { lines: vec![Line { p: (9, 0), q: (9, 1) }; count] }
}

/// So many points, no two of which are equal.
fn points(count: usize) -> Vec<Point> {
    (0..count).map(|i| (i as f64, (i % 7) as f64)).collect()
}

/// What the calls refuse these with; a reason has as many lines as it must.
fn refused(s: &[Point], o: &[Point], at: Point, units: u32) -> [Option<Refusal>; 3] {
    [
        clear_move(s, o, (0.0, 0.0), at, units).err(),
        check_reason(s, o, (0.0, 0.0), at, units, 0, &lines(s.len())).err(),
        clear_path(s, o, &[(0.0, 0.0), at], true, units).err(),
    ]
}

#[test]
fn what_touches_is_clear_but_for_three_units_and_what_overlaps_a_little_for_more() {
    for (x, depth, how) in [(4.0, 3, 0), (3.9996, 3, 0), (3.999, 5, 1), (3.998, 7, 11)] {
        let clear = clear(x);
        assert_eq!((clear.depth, clear.how, clear.units), (depth, how, 1000));
        assert_eq!(clear.length(), f64::from(depth) / 1000.0);
        assert_eq!(clear.reason.lines.len(), 4);
    }
    assert_eq!(beside(3.997), Move::Edge(1));
    assert_eq!(beside(2.0), Move::Edge(2));
    let within = Within { depth: 3, how: 0, units: 1000 };
    let (block, tool) = (square(4.0, 0.0, 0.0), square(2.0, 0.0, 0.0));
    let inside = clear_move(&block, &tool, (1.0, 1.0), (2.0, 2.0), 1000);
    assert_eq!(inside, Ok(Move::Enclosed(within)));
    let inside = clear_move(&block, &tool, (1.0, 1.0), (2.001, 2.001), 1000);
    assert_eq!(inside, Ok(Move::Enclosed(Within { depth: 5, how: 1, units: 1000 })));
}

#[test]
fn a_disc_goes_into_a_slot_as_wide_as_it_is() {
    let disc = discs::make_disc((0.0, 0.0), 7.3, 16).expect("a disc");
    let slot = |half: f64| {
        let (a, b) = (20.0, 20.0 + half);
        vec![
            (-b, 0.0),
            (-half, 0.0),
            (-half, 40.0),
            (half, 40.0),
            (half, 0.0),
            (b, 0.0),
            (a, 60.0),
            (-a, 60.0),
        ]
    };
    let into = |half| clear_move(&slot(half), &disc, (0.0, -20.0), (0.0, 32.0), 1000);
    let Ok(Move::Clear(clear)) = into(7.3) else { panic!("it fits") };
    assert_eq!(clear.depth, 3);
    assert_eq!(into(7.29), Ok(Move::Edge(0)));
}

#[test]
fn on_whole_numbers_the_lines_are_those_of_the_whole_move() {
    let (s, o) = (square(4.0, 0.0, 0.0), square(2.0, 0.0, 0.0));
    for (x, y) in [(4.0, 0.0), (-2.0, 7.0), (9.0, 9.0)] {
        let there = o.iter().map(|v| (v.0 + x, v.1 + y)).collect::<Vec<_>>();
        let whole = whole::clear_move(
            &to_grid(&s, 1).expect("on the grid"),
            &to_grid(&there, 1).expect("on the grid"),
            (0, 5),
        );
        let Ok(Move::Clear(clear)) = clear_move(&s, &o, (x, y), (x, y + 5.0), 1) else {
            panic!("({x}, {y}) is clear")
        };
        assert_eq!(Ok(whole::Move::Clear(clear.reason)), whole);
    }
}

#[test]
fn a_lent_reason_is_judged_line_by_line_as_the_disc_was_put() {
    let (s, o) = (square(4.0, 0.0, 0.0), square(2.0, 0.0, 0.0));
    for x in [4.0, 3.999, 3.998] {
        let clear = clear(x);
        let (from, to) = ((x, 0.0), (x, 9.0));
        assert_eq!(clear.check(&s, &o, from, to), Ok(Checked::Holds(clear.within())));
        for edge in 0..4 {
            let mut spoilt = clear.clone();
            spoilt.reason.lines[edge].q = spoilt.reason.lines[edge].p;
            assert_eq!(spoilt.check(&s, &o, from, to), Ok(Checked::Edge(edge)));
        }
        let narrower = Clear { how: 0, ..clear.clone() }.check(&s, &o, from, to);
        let holds = Checked::Holds(Within { depth: 3, how: 0, units: 1000 });
        assert_eq!(narrower, Ok(if clear.how == 0 { holds } else { Checked::Edge(0) }));
    }
    // The block's own edges, round what lies in it.
    let corner = |i: usize| [(0, 0), (4, 0), (4, 4), (0, 4)][i % 4];
    let own = (0..4).map(|i| Line { p: corner(i), q: corner(i + 1) }).collect();
    let told = check_reason(&s, &o, (1.0, 1.0), (2.0, 2.0), 1, 14, &Reason { lines: own });
    assert_eq!(told, Ok(Checked::Edge(2)));
}

#[test]
fn what_leaves_the_grid_is_no_edge_of_a_reason() {
    let (s, o) = (square(4.0, 0.0, 0.0), square(2.0, 0.0, 0.0));
    let reason = Reason { lines: vec![Line { p: (4, 1), q: (4, 0) }; 4] };
    let told = |how| check_reason(&s, &o, (999_998.0, 0.0), (9.0, 0.0), 1, how, &reason);
    for (how, depth) in [(0, 3), (4, 5), (11, 7)] {
        assert_eq!(told(how), Ok(Checked::Holds(Within { depth, how, units: 1 })));
    }
    assert_eq!([3, 7, 13, 20].map(told), [Ok(Checked::Edge(0)); 4]);
}

#[test]
fn a_path_is_judged_leg_by_leg() {
    let (s, o) = (square(4.0, 0.0, 0.0), square(2.0, 0.0, 0.0));
    let round = [(-2.0, -2.0), (4.0, -2.0), (4.0, 4.0), (-2.0, 4.0)];
    let told = |path: &[Point], closed| clear_path(&s, &o, path, closed, 100);
    let clear = |depth| Ok(Legs::Clear { depth, units: 100 });
    assert_eq!(told(&round, true), clear(3));
    assert_eq!(told(&round[..3], false), clear(3));
    assert_eq!(told(&round[..3], true), Ok(Legs::Edge { leg: 2, edge: 0 }));
    assert_eq!(told(&round[..2], true), clear(3));
    let nearer = [(-2.0, -2.0), (4.0, -1.99), (3.98, 4.0)];
    assert_eq!([2, 3].map(|n| told(&nearer[..n], false)), [clear(5), clear(7)]);
    assert_eq!(
        told(&[(9.0, 9.0), (1.0, 1.0), (1.0, 1.0)], false),
        Ok(Legs::Edge { leg: 0, edge: 1 })
    );
    assert_eq!(told(&[(1.0, 1.0); 2], false), Ok(Legs::Enclosed { leg: 0 }));
    assert_eq!(told(&vec![(4.0, 4.0); 10_001], true), clear(3));
    assert_eq!(told(&round, true).map(|legs| legs.length()), Ok(Some(0.03)));
    assert_eq!(Legs::Enclosed { leg: 0 }.length(), None);
}

#[test]
fn numbers_then_units_then_the_grid() {
    let (four, none) = (square(4.0, 0.0, 0.0), (0.0, 0.0));
    let with = |x: f64| vec![(0.0, 0.0), (x, 0.0), (0.0, 1.0)];
    for wrong in [f64::NAN, f64::INFINITY, 1e6_f64.next_up()] {
        assert_eq!(refused(&with(wrong), &four, (2e6, 0.0), 0), [Some(Refusal::Number); 3]);
        assert_eq!(refused(&four, &with(-wrong), (2e6, 0.0), 0), [Some(Refusal::Number); 3]);
    }
    assert_eq!(refused(&four, &four, (0.0, f64::NAN), 0), [Some(Refusal::Number); 3]);
    for units in [0, 1_000_001, u32::MAX] {
        assert_eq!(refused(&four, &four, (f64::MAX, 0.0), units), [Some(Refusal::Setting); 3]);
    }
    for at in [(f64::MAX, 0.0), (0.0, -1e300), (999_996.5, 0.0), (0.0, -1_000_000.5)] {
        assert_eq!(refused(&four, &four, at, 1), [Some(Refusal::Grid); 3]);
    }
    assert_eq!(refused(&four, &four, (999_996.0, -1e6), 1), [None; 3]);
    assert_eq!(refused(&four, &four, none, 250_000), [None; 3]);
    assert_eq!(refused(&with(4.000_001), &four, none, 250_000), [Some(Refusal::Grid); 3]);
    assert_eq!(refused(&four, &with(4.000_001), none, 250_000), [Some(Refusal::Grid); 3]);
}

#[test]
fn a_reason_keeps_its_bounds_and_how_is_at_most_20() {
    let four = square(4.0, 0.0, 0.0);
    let told = |far, units, how| {
        let mut reason = lines(4);
        reason.lines[3].q.1 = far;
        check_reason(&four, &four, (9.0, 0.0), (9e9, 0.0), units, how, &reason).err()
    };
    for far in [1_000_001, -1_000_001, i32::MIN] {
        assert_eq!(told(far, 0, 21), Some(Refusal::Number));
    }
    assert_eq!(told(1_000_000, 0, 0), Some(Refusal::Setting));
    assert_eq!([21, u32::MAX].map(|how| told(0, 1, how)), [Some(Refusal::Setting); 2]);
    assert_eq!(told(-1_000_000, 1, 20), Some(Refusal::Grid));
}

#[test]
fn reasons_and_paths_have_their_lengths() {
    let (four, at) = (points(4), (0.0, 0.0));
    let wrong = [(f64::NAN, 0.0); 4];
    for stationary in [&four[..], &wrong] {
        let entries = |has| Entries { list: List::Reason, has, least: 4, most: 4 };
        let told = |has| check_reason(stationary, &four, at, at, 0, 21, &lines(has)).err();
        assert_eq!(told(3), Some(Refusal::Few(entries(3))));
        assert_eq!(told(5), Some(Refusal::Many(entries(5))));
        let entries = |has| Entries { list: List::Path, has, least: 2, most: 10_001 };
        let path = |has| clear_path(stationary, &four, &points(has), false, 0).err();
        assert_eq!([0, 1].map(path), [0, 1].map(|has| Some(Refusal::Few(entries(has)))));
        assert_eq!(path(10_002), Some(Refusal::Many(entries(10_002))));
    }
    let words = clear_path(&four, &four, &points(1), false, 1).map_err(|told| told.to_string());
    assert_eq!(words, Err("the path has 1 point: it may have 2 to 10001".to_string()));
}

#[test]
fn clear_is_said_with_its_depth() {
    let clear = |depth, units| Clear { depth, how: 0, units, reason: lines(3) }.to_string();
    let words = "clear but for 3 units of 1/1000: nothing reaches deeper than 0.003";
    assert_eq!(clear(3, 1000), words);
    assert_eq!(clear(7, 1), "clear but for 7 units of 1/1: nothing reaches deeper than 7");
    // A length with no end in decimal is rounded up.
    let words = "clear but for 3 units of 1/7: nothing reaches deeper than 0.428571429";
    assert_eq!(clear(3, 7), words);
    let words = "clear but for 5 units of 1/1000000: nothing reaches deeper than 0.000005";
    assert_eq!(clear(5, 1_000_000), words);
    let within = Within { depth: 5, how: 2, units: 100 };
    assert_eq!(within.to_string(), "5 units of 1/100");
    assert_eq!(within.length(), 0.05);
}

#[test]
fn each_answer_has_words() {
    let within = Within { depth: 5, how: 2, units: 100 };
    let enclosed = "enclosed but for 5 units of 1/100: no edge reaches deeper than 0.05";
    let edge = "edge 7 is not parted from the way";
    let moves = [(Move::Edge(7), edge), (Move::Enclosed(within), enclosed)];
    moves.iter().for_each(|(told, words)| assert_eq!(told.to_string(), *words));
    let reasons = [
        (Checked::Holds(within), "it holds: nothing reaches deeper than 0.05"),
        (Checked::Edge(7), edge),
        (Checked::Enclosed(within), enclosed),
    ];
    reasons.iter().for_each(|(told, words)| assert_eq!(told.to_string(), *words));
    let all = "clear but for 7 units of 1/1000 on every leg: nothing reaches deeper than 0.007";
    let legs = [
        (Legs::Clear { depth: 7, units: 1000 }, all),
        (
            Legs::Edge { leg: 2, edge: 7 },
            "on the leg from point 2 edge 7 is not parted from the way",
        ),
        (Legs::Enclosed { leg: 2 }, "on the leg from point 2 the way is enclosed"),
    ];
    legs.iter().for_each(|(told, words)| assert_eq!(told.to_string(), *words));
}
