//! Moves of a drawing: the ways of putting aside as docs/SCOPE.md has them, known
//! grounds, every refusal in its order; that nothing reaches deeper than told, by the exact
//! answer without a grid and without a line; and how many slides in contact are not told
//! clear. `DRAWN_CASES` with a number makes the last two so many times as long.

use oracle::clear;
use oracle::drawn::exact::{truth, Truth};
use oracle::drawn::slides::{along, beside, ring, shape, slot, Slide, SHAPES};
use oracle::drawn::{aside, check_reason, clear_move, clear_path, depth, Ground, Legs};
use oracle::refusals::Refusal;
use oracle::seeded::Seeded;
use std::collections::BTreeMap;

/// The corners of a box, counter-clockwise.
fn corners(a: i64, b: i64, c: i64, d: i64) -> Vec<(i64, i64)> {
    vec![(a, b), (c, b), (c, d), (a, d)]
}

/// The numbers of a box, counter-clockwise.
fn block(a: f64, b: f64, c: f64, d: f64) -> Vec<f64> {
    vec![a, b, c, b, c, d, a, d]
}

#[test]
fn a_box_is_put_aside_in_each_way() {
    let four = corners(10, 20, 14, 24);
    let put = |by, how| aside(&four, by, how).expect("it stays on the grid");
    assert_eq!(put((30, 0), 0), four);
    assert_eq!(put((30, 0), 1), corners(11, 21, 13, 23));
    assert_eq!(aside(&corners(10, 20, 14, 26), (30, 0), 11), Some(corners(12, 22, 12, 24)));
    // The middle of 10 and 11 is 10, and that of -11 and -10 is -11.
    assert_eq!(aside(&corners(10, 20, 11, 24), (30, 0), 1), Some(corners(10, 21, 10, 23)));
    assert_eq!(aside(&corners(-11, 20, -10, 24), (30, 0), 1), Some(corners(-11, 21, -11, 23)));
    // Across a move to the right, back, up, rising, and none.
    assert_eq!(put((30, 0), 2), corners(10, 21, 14, 23));
    assert_eq!(put((-30, 0), 12), corners(10, 22, 14, 22));
    assert_eq!(put((0, 30), 2), corners(11, 20, 13, 24));
    assert_eq!(put((30, 10), 2), [(9, 21), (13, 21), (15, 23), (11, 23)]);
    assert_eq!(put((0, 0), 12), four);
    let middle = aside(&[(10, 20), (14, 22), (10, 24)], (30, 0), 2);
    assert_eq!(middle, Some(vec![(10, 21), (14, 22), (10, 23)]));
    let off = [(1, 0), (0, 1), (-1, 0), (0, -1), (1, 1), (-1, 1), (-1, -1), (1, -1)];
    for (way, (x, y)) in (3..).zip(off) {
        assert_eq!(put((30, 0), way), corners(10 + x, 20 + y, 14 + x, 24 + y));
        let twice = corners(10 + 2 * x, 20 + 2 * y, 14 + 2 * x, 24 + 2 * y);
        assert_eq!(put((30, 0), way + 10), twice);
    }
}

#[test]
fn a_corner_that_leaves_the_grid_makes_it_nothing() {
    let four = corners(-999_999, 20, 14, 1_000_000);
    assert_eq!(aside(&four, (30, 0), 5), Some(corners(-1_000_000, 20, 13, 1_000_000)));
    for how in [4, 7, 8, 14, 15, 17, 18, 19] {
        assert_eq!(aside(&four, (30, 0), how), None, "{how}");
    }
}

#[test]
fn depths_are_3_5_and_7() {
    let depths: Vec<u32> = (0..=20).map(depth).collect();
    assert_eq!(depths, [[3].as_slice(), &[5; 10], &[7; 10]].concat());
}

/// The ground of a tool's way up beside a block whose right side is at 4, from this x.
fn up_from(x: f64) -> Ground {
    let (s, o) = (block(0.0, 0.0, 4.0, 4.0), block(0.0, 0.0, 2.0, 2.0));
    clear_move([&s, &o], (x, 0.0), (x, 9.0), 1000, &mut [0; 16]).expect("within the bounds")
}

#[test]
fn a_tool_beside_a_block_is_clear_down_to_seven_units() {
    assert_eq!(up_from(4.0), Ground::Clear { how: 0 });
    // Half a unit inside is rounded to the block's side, and more is not.
    assert_eq!(up_from(3.9996), Ground::Clear { how: 0 });
    assert_eq!(up_from(3.999), Ground::Clear { how: 1 });
    assert_eq!(up_from(3.998), Ground::Clear { how: 11 });
    assert_eq!(up_from(3.997), Ground::Edge(1));
}

#[test]
fn grounds_of_moves_reasons_and_paths() {
    let (s, o) = (block(0.0, 0.0, 4.0, 4.0), block(0.0, 0.0, 2.0, 2.0));
    let pair = [&s[..], &o];
    let enclosed = clear_move(pair, (1.0, 1.0), (2.0, 2.0), 10, &mut []);
    assert_eq!(enclosed, Ok(Ground::Enclosed { how: 0 }));
    let mut room = [7; 17];
    assert_eq!(clear_move(pair, (3.9, 0.0), (3.9, 2.0), 10, &mut room[..15]), Err(Refusal::of(5)));
    assert_eq!(room, [7; 17]);
    let clear = clear_move(pair, (3.9, 0.0), (3.9, 2.0), 10, &mut room);
    assert_eq!((clear, room[16]), (Ok(Ground::Clear { how: 1 }), 7));
    let checked = |how, reason| check_reason(pair, (3.9, 0.0), (3.9, 2.0), 10, how, reason);
    assert_eq!(checked(1, &room[..16]), Ok(clear::Ground::Clear));
    assert_eq!(checked(0, &room[..16]), Ok(clear::Ground::Edge(0)));
    let round = [-2.0, -2.0, 4.0, -2.0, 4.0, 4.0, -2.0, 4.0];
    assert_eq!(clear_path(pair, &round, true, 10), Ok(Legs::Clear { depth: 3 }));
    assert_eq!(clear_path(pair, &round[..6], false, 10), Ok(Legs::Clear { depth: 3 }));
    assert_eq!(clear_path(pair, &round[..6], true, 10), Ok(Legs::Edge { leg: 2, edge: 0 }));
    let nearer = [-1.8, -2.0, 4.0, -1.9, 3.8, 4.0];
    assert_eq!(clear_path(pair, &nearer, false, 10), Ok(Legs::Clear { depth: 7 }));
    assert_eq!(clear_path(pair, &[1.0; 4], false, 10), Ok(Legs::Enclosed { leg: 0 }));
}

#[test]
fn a_reason_for_what_leaves_the_grid_does_not_part_edge_0() {
    let (s, o) = (block(0.0, 0.0, 4.0, 4.0), block(0.0, 0.0, 2.0, 2.0));
    let far = |how| {
        let reason = [4, 1, 4, 0].repeat(4);
        check_reason([&s, &o], (999_998.0, 0.0), (9.0, 0.0), 1, how, &reason)
    };
    assert_eq!([0, 4, 14].map(far), [Ok(clear::Ground::Clear); 3]);
    assert_eq!([3, 7, 13, 20].map(far), [Ok(clear::Ground::Edge(0)); 4]);
}

/// What the three calls refuse these with; a reason is as long as it must be, of this
/// number.
fn refused(pair: [&[f64]; 2], at: f64, units: u32, how: u32, number: i32) -> [Option<Refusal>; 3] {
    let reason = vec![number; 4 * (pair[0].len() / 2)];
    [
        clear_move(pair, (at, 0.0), (0.0, at), units, &mut [0; 1024]).err(),
        check_reason(pair, (at, 0.0), (0.0, at), units, how, &reason).err(),
        clear_path(pair, &[at, 0.0, 0.0, at], false, units).err(),
    ]
}

#[test]
fn refusals_come_in_their_order() {
    let four = block(0.0, 0.0, 4.0, 4.0);
    let with = |x: f64| [&four[..7], &[x]].concat();
    let all = |refusal| [Some(refusal); 3];
    let nan = with(f64::NAN);
    assert_eq!(refused([&four, &four], 0.0, 1, 20, 1_000_000), [None; 3]);
    assert_eq!(refused([&four[..7], &[]], f64::NAN, 0, 21, 2_000_000), all(Refusal::at(1, 0)));
    assert_eq!(refused([&four[..4], &[]], f64::NAN, 0, 21, 2_000_000), all(Refusal::at(8, 0)));
    assert_eq!(refused([&nan, &[0.0]], f64::NAN, 0, 21, 2_000_000), all(Refusal::at(1, 1)));
    assert_eq!(refused([&nan, &[0.0; 514]], f64::NAN, 0, 21, 0), all(Refusal::at(9, 1)));
    for wrong in [f64::NAN, f64::INFINITY, 1e6_f64.next_up()] {
        assert_eq!(refused([&with(wrong), &four], 2e6, 0, 21, 0), all(Refusal::of(2)));
        assert_eq!(refused([&four, &with(-wrong)], 2e6, 0, 21, 0), all(Refusal::of(2)));
    }
    assert_eq!(refused([&four, &four], f64::NEG_INFINITY, 0, 21, 0), all(Refusal::of(2)));
    for units in [0, 1_000_001, u32::MAX] {
        assert_eq!(refused([&four, &four], f64::MAX, units, 0, 0), all(Refusal::of(3)));
        let reason = refused([&four, &four], f64::MAX, units, 0, -1_000_001)[1];
        assert_eq!(reason, Some(Refusal::of(2)));
    }
    let how = refused([&four, &four], f64::MAX, 1, 21, 0);
    assert_eq!(how, [14, 3, 14].map(|number| Some(Refusal::of(number))));
    for at in [f64::MAX, -f64::MAX, 1e6_f64.next_up(), 999_997.0] {
        assert_eq!(refused([&four, &four], at, 1, 0, 0), all(Refusal::of(14)));
    }
    assert_eq!(refused([&four, &four], 999_996.0, 1, 0, 0), [None; 3]);
    assert_eq!(refused([&with(4.000_001), &four], 0.0, 250_000, 0, 0), all(Refusal::of(14)));
}

#[test]
fn reasons_and_paths_have_their_lengths() {
    let four = block(0.0, 0.0, 4.0, 4.0);
    let pair = [&four[..], &four];
    let checked = |n: usize| check_reason(pair, (4.0, 0.0), (4.0, 1.0), 1, 0, &vec![0; n]);
    let numbers = [15, 12, 20, 0].map(|n| checked(n).err());
    assert_eq!(numbers, [(1, 2), (8, 2), (9, 2), (8, 2)].map(|(n, at)| Some(Refusal::at(n, at))));
    assert_eq!(checked(16), Ok(clear::Ground::Edge(0)));
    let legs = |n: usize| clear_path(pair, &vec![4.0; n], true, 1);
    let numbers = [3, 2, 0, 20_004].map(|n| legs(n).err());
    assert_eq!(numbers, [(1, 2), (8, 2), (8, 2), (9, 2)].map(|(n, at)| Some(Refusal::at(n, at))));
    assert_eq!([4, 20_002].map(legs), [Ok(Legs::Clear { depth: 3 }); 2]);
}

// ---------------------------------------------------------------------------
// The exact answer
// ---------------------------------------------------------------------------

#[test]
fn the_exact_answer_of_known_moves() {
    let (s, o) = (block(0.0, 0.0, 4.0, 4.0), block(0.0, 0.0, 2.0, 2.0));
    let at = |from, to, depth| truth([&s, &o], from, to, 1000, depth);
    // The float 3.99 lies a little above, so that it is not quite ten thousandths inside.
    let (inside, more) = (3.99, 3.99_f64.next_down());
    assert_eq!(at((inside, 0.0), (inside, 9.0), 9), Some(Truth::Reached(1)));
    assert_eq!(at((inside, 0.0), (inside, 9.0), 10), Some(Truth::Outside));
    assert_eq!(at((more, 0.0), (more, 9.0), 10), Some(Truth::Reached(1)));
    assert_eq!(at((4.0, 0.0), (4.0, 9.0), 0), Some(Truth::Outside));
    assert_eq!(at((4.0_f64.next_down(), 0.0), (4.0, 9.0), 0), Some(Truth::Reached(1)));
    // Only at some time between: its corner runs over the block's.
    assert_eq!(at((3.0, -3.0), (5.0, 3.0), 0), Some(Truth::Reached(0)));
    assert_eq!(at((1.0, 1.0), (2.0, 2.0), 0), Some(Truth::Inside));
    assert_eq!(at((1.0, 1.0), (2.0, 2.1), 99), Some(Truth::Reached(2)));
    assert_eq!(at((1.0, 1.0), (2.0, 2.0), 1000), Some(Truth::Shallow));
    assert_eq!(truth([&s, &[0.0, 0.0, 1.0, 1.0, 2.0, 2.0]], (0.0, 0.0), (1.0, 0.0), 1, 3), None);
}

#[test]
fn at_depth_0_the_exact_answer_is_that_of_whole_moves() {
    let seeded = &mut Seeded::new(37);
    let mut met = BTreeMap::new();
    for _ in 0..20_000 {
        let most = seeded.pick(&[2, 5, 9]);
        let ints = |seeded: &mut Seeded, n| -> Vec<i32> {
            (0..2 * n).map(|_| seeded.whole(most) as i32).collect()
        };
        let corners = 3 + seeded.below(4);
        let (s, o) = (ints(seeded, corners), ints(seeded, 3));
        let by = (seeded.whole(most) as i32, seeded.whole(most) as i32);
        let floats = |list: &[i32]| list.iter().map(|&x| f64::from(x)).collect::<Vec<_>>();
        let (from, to) = ((0.5, -8.0), (f64::from(by.0) + 0.5, f64::from(by.1) - 8.0));
        let there: Vec<f64> =
            floats(&o).chunks_exact(2).flat_map(|v| [v[0] - 0.5, v[1] + 8.0]).collect();
        let told = truth([&floats(&s), &there], from, to, 1, 0);
        let expected = clear::exact::is_clear(&s, &o, by);
        assert_eq!(told.map(|told| told == Truth::Outside), expected, "{s:?} {o:?} {by:?}");
        *met.entry(format!("{told:?}").chars().take(9).collect::<String>()).or_insert(0) += 1;
    }
    let all = ["None", "Some(Insi", "Some(Outs", "Some(Reac"];
    assert_eq!(met.keys().collect::<Vec<_>>(), all, "{met:?}");
}

/// Whether a point of the edge lies deeper than this, tried at each sixteenth of the move
/// and of the edge, and a sixteenth deeper: by the four neighbours, in the triangle, whose
/// inside is on this side of its edges.
fn tried(ring: &[i64], disc: &[i64], by: (i64, i64), depth: i64) -> bool {
    let point = |list: &[i64], i: usize| (list[2 * i % list.len()], list[(2 * i + 1) % list.len()]);
    let side = |a: (i64, i64), b: (i64, i64), p: (i64, i64)| {
        (b.0 - a.0) * (p.1 - a.1) - (b.1 - a.1) * (p.0 - a.0)
    };
    let turn = side(point(disc, 0), point(disc, 1), point(disc, 2)).signum();
    let inside = |p: (i64, i64)| {
        let at = |i: usize| (256 * point(disc, i).0, 256 * point(disc, i).1);
        turn != 0 && (0..3).all(|i| turn * side(at(i), at(i + 1), p) >= 0)
    };
    let deep = |(x, y): (i64, i64)| {
        let off = 256 * depth + 16;
        [(off, 0), (-off, 0), (0, off), (0, -off)].iter().all(|d| inside((x + d.0, y + d.1)))
    };
    let met = |j: usize, t: i64, u: i64| {
        let (a, b) = (point(ring, j), point(ring, j + 1));
        let on = |a: i64, b: i64, by: i64| 16 * (16 * a + u * (b - a)) - 16 * t * by;
        deep((on(a.0, b.0, by.0), on(a.1, b.1, by.1)))
    };
    (0..ring.len() / 2).any(|j| (0..=16).any(|t| (0..=16).any(|u| met(j, t, u))))
}

#[test]
fn what_is_tried_point_by_point_the_exact_answer_finds() {
    let seeded = &mut Seeded::new(3_737_373);
    let mut met = [0; 3];
    for _ in 0..3_000 {
        let (size, depth) = (seeded.pick(&[4, 9]), seeded.below(3) as u32);
        let mut list =
            |n: usize| -> Vec<i64> { (0..2 * n).map(|_| seeded.whole(size) as i64).collect() };
        let (ring, disc, by) = (list(3), list(3), list(1));
        let floats = |list: &[i64]| list.iter().map(|&x| x as f64).collect::<Vec<_>>();
        let to = (by[0] as f64, by[1] as f64);
        let told = truth([&floats(&ring), &floats(&disc)], (0.0, 0.0), to, 1, depth);
        let reached = matches!(told, Some(Truth::Reached(_)));
        let tried = tried(&ring, &disc, (by[0], by[1]), i64::from(depth));
        assert!(reached || !tried, "{ring:?} {disc:?} {by:?} {depth}: {told:?}");
        met[usize::from(reached) + usize::from(tried)] += 1;
    }
    // Neither, only what lies between what is tried, and both.
    println!("{met:?}");
    assert!(met.iter().all(|&count| count >= 20) && met[2] > 3 * met[1], "{met:?}");
}

#[test]
fn what_is_handed_out_holds_as_it_was_put_and_a_path_is_its_legs() {
    let seeded = &mut Seeded::new(73);
    for _ in 0..600 {
        let slide = any_slide(seeded, 1000, 24);
        let Slide { stationary, orbiting, from, to } = &slide;
        let (pair, mut room) = ([&stationary[..], orbiting], vec![0; 2 * stationary.len()]);
        let ground = clear_move(pair, *from, *to, 1000, &mut room).expect("within the bounds");
        let path = [from.0, from.1, to.0, to.1];
        let legs = clear_path(pair, &path, false, 1000).expect("within the bounds");
        match ground {
            Ground::Clear { how } => {
                let checked = check_reason(pair, *from, *to, 1000, how, &room);
                assert_eq!(checked, Ok(clear::Ground::Clear), "{slide:?}");
                assert_eq!(legs, Legs::Clear { depth: depth(how) });
            }
            Ground::Edge(edge) => assert_eq!(legs, Legs::Edge { leg: 0, edge }),
            Ground::Enclosed { .. } => assert_eq!(legs, Legs::Enclosed { leg: 0 }),
        }
    }
}

/// How many times as long the runs on random slides are.
fn times() -> usize {
    std::env::var("DRAWN_CASES").map_or(1, |number| number.parse().expect("a number"))
}

/// What the oracle says of a slide.
fn told(slide: &Slide, units: u32) -> Ground {
    let Slide { stationary, orbiting, from, to } = slide;
    let mut room = vec![0; 2 * stationary.len()];
    clear_move([stationary, orbiting], *from, *to, units, &mut room).expect("within the bounds")
}

/// What is so of a slide at this depth.
fn so(slide: &Slide, units: u32, depth: u32) -> Truth {
    let Slide { stationary, orbiting, from, to } = slide;
    truth([stationary, orbiting], *from, *to, units, depth).expect("a shape has an area")
}

/// A slide of any kind: so many units inside an edge or narrower than the shape.
fn any_slide(seeded: &mut Seeded, units: u32, most: usize) -> Slide {
    let name = seeded.pick(&SHAPES);
    let shape = shape(seeded, name, most);
    let by = match seeded.below(3) {
        0 => 0.0,
        1 => seeded.unit() * 8.0,
        _ => seeded.spread(20.0),
    } / f64::from(units);
    match seeded.below(4) {
        0 => along(seeded, &shape, by),
        1 => slot(seeded, &shape, by),
        _ => {
            let corners = 3 + seeded.below(most - 2);
            let mut ring = ring(seeded, corners);
            if seeded.below(3) == 0 {
                // The other way round, so that the shape slides in it.
                ring = ring.chunks_exact(2).rev().flatten().copied().collect();
            }
            beside(seeded, &shape, &ring, by)
        }
    }
}

/// Holds what is told of a slide to what is so; what it was told, and the least number of
/// units that nothing reaches deeper than where it was told clear or enclosed.
fn held(slide: &Slide, units: u32) -> (String, Option<u32>) {
    let ground = told(slide, units);
    let (how, other, name) = match ground {
        Ground::Edge(_) => return ("edge".to_string(), None),
        Ground::Clear { how } => (how, Truth::Inside, "clear"),
        Ground::Enclosed { how } => (how, Truth::Outside, "enclosed"),
    };
    let truth = so(slide, units, depth(how));
    assert!(!matches!(truth, Truth::Reached(_)), "{ground:?} {truth:?} {slide:?} {units}");
    assert_ne!(truth, other, "{ground:?} {slide:?} {units}");
    let reached = |depth: &u32| !matches!(so(slide, units, *depth), Truth::Reached(_));
    (format!("{name}, depth {}", depth(how)), (0..7).find(reached))
}

#[test]
fn nothing_reaches_deeper_than_told() {
    let seeded = &mut Seeded::new(3737);
    let mut met: BTreeMap<String, (u32, u32)> = BTreeMap::new();
    for place in 0..9_000 * times() {
        let units = seeded.pick(&[1000, 1000, 100, 64, 999, 5000]);
        let most = if place % 30 == 0 { 256 } else { 16 + seeded.below(33) };
        let slide = any_slide(seeded, units, most);
        let (told, deepest) = held(&slide, units);
        let (count, most) = met.entry(told).or_default();
        (*count, *most) = (*count + 1, (*most).max(deepest.unwrap_or(7)));
    }
    for (told, (count, most)) in &met {
        let deepest = format!(", of which none reaches deeper than {most} units");
        println!("{told}: {count}{}", if told == "edge" { "" } else { &deepest });
    }
    let each = |name: &str| [3, 5, 7].map(|depth| format!("{name}, depth {depth}"));
    for told in [each("clear"), each("enclosed")].concat() {
        assert!(met.get(&told).is_some_and(|counts| counts.0 >= 20), "{told}: {met:?}");
    }
}

#[test]
fn slides_in_contact_are_told_clear_but_for_seven_units() {
    let seeded = &mut Seeded::new(373_737);
    let mut not_clear: BTreeMap<(&str, &str), [usize; 2]> = BTreeMap::new();
    for name in SHAPES {
        for _ in 0..2_000 * times() {
            let shape = shape(seeded, name, 64);
            for (kind, slide) in
                [("along", along(seeded, &shape, 0.0)), ("slot", slot(seeded, &shape, 0.0))]
            {
                let counts = not_clear.entry((name, kind)).or_default();
                counts[0] += 1;
                counts[1] += usize::from(!matches!(told(&slide, 1000), Ground::Clear { .. }));
            }
        }
    }
    for ((name, kind), [all, not]) in &not_clear {
        println!("{name}, {kind}: {not} of {all} not told clear");
    }
    assert_eq!(not_clear.len(), 2 * SHAPES.len());
    // Of 40,000 slides of each shape and kind three in all were not, in slots: two of thin
    // quadrilaterals and one of a lozenge.
    for ((name, kind), [all, not]) in not_clear {
        let most = if kind == "slot" { all / 10_000 } else { 0 };
        assert!(not <= most, "{name}, {kind}: {not} of {all}");
    }
}
