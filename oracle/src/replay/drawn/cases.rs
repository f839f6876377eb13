//! The moves of drawings, reasons and paths that the repository stores.

use super::{Case, Drawing, CHECK_REASON, CLEAR_MOVE, CLEAR_PATH};
use crate::drawn::slides::{along, beside, ring, shape, slot, Slide, SHAPES};
use crate::drawn::{Ground, MOST_HOW};
use crate::grid::MOST_UNITS;
use crate::refusals::MOST_POINTS;
use crate::replay::clear::spoilt;
use crate::replay::lengths::{self, Lengths};
use crate::replay::{with, EDGES};
use crate::seeded::Seeded;
use crate::shapes::disc;
use std::sync::LazyLock;

/// A square of this side, its lowest corner here.
pub fn square(side: f64, x: f64, y: f64) -> Vec<f64> {
    vec![x, y, x + side, y, x + side, y + side, x, y + side]
}

/// The ring with its corners in the other order.
pub fn reversed(ring: &[f64]) -> Vec<f64> {
    ring.chunks_exact(2).rev().flatten().copied().collect()
}

/// The slide as a drawing on this grid.
pub fn drawn(slide: Slide, units: u32) -> Drawing {
    let Slide { stationary, orbiting, from, to } = slide;
    Drawing { stationary, orbiting, from, to, units }
}

/// The move of a square of side 2 from one place to another about one of side 4.
fn about(from: (f64, f64), to: (f64, f64), units: u32) -> Drawing {
    let (stationary, orbiting) = (square(4.0, 0.0, 0.0), square(2.0, 0.0, 0.0));
    Drawing { stationary, orbiting, from, to, units }
}

/// The search with rooms that are one short, just long enough and longer, and the check
/// of what it hands out, as it was put, as the one before and as it is.
fn searched(drawing: &Drawing) -> Vec<Case> {
    let needed = 4 * (drawing.stationary.len() / 2);
    let mut all = [needed - 1, needed, needed + 3].map(|n| drawing.search(n)).to_vec();
    if let Some((how, reason)) = drawing.reason() {
        all.extend([how, how.saturating_sub(1), 0].map(|how| drawing.check(how, &reason)));
    }
    all
}

/// Moves that are clear to each depth, that end at each edge, and that are enclosed.
fn known() -> Vec<Case> {
    let mut all = Vec::new();
    for units in [1000, 10, 8] {
        let unit = 1.0 / f64::from(units);
        for off in [-3.0, -2.5, -2.0, -1.5, -1.0, -0.5, -0.499, 0.0, 0.5, 1.0] {
            let x = 4.0 + off * unit;
            all.extend(searched(&about((x, -3.0), (x, 5.0), units)));
            all.extend(searched(&about((-3.0, x), (5.0, x - unit), units)));
        }
    }
    for (x, y) in [(-3.0, 1.0), (1.0, -3.0), (5.0, 1.0), (1.0, 5.0)] {
        // Through all of it, half-way into it, and nowhere.
        for to in [(2.0 - x, 2.0 - y), (1.0 + (x - 1.0) * 0.6, 1.0 + (y - 1.0) * 0.6), (x, y)] {
            all.push(about((x, y), to, 10).search(16));
            all.push(about(to, to, 10).path(&[x, y, x, y, to.0, to.1], 0));
        }
    }
    for to in [(1.0, 1.0), (2.0, 2.0), (2.1, 2.0), (2.2, 0.0), (2.3, 2.0)] {
        let within = about((1.0, 1.0), to, 10);
        all.extend([within.search(0), within.search(16)]);
        let corner = |i: usize| [[0, 0], [40, 0], [40, 40], [0, 40]][i % 4];
        let own: Vec<i32> = (0..4).flat_map(|i| [corner(i), corner(i + 1)].concat()).collect();
        all.extend([0, 1, 2, 3, 9, 11, 19].map(|how| within.check(how, &own)));
    }
    for x in [4.0, 3.9, 3.8] {
        let clear = about((x, -3.0), (x, 5.0), 10);
        let (how, reason) = clear.reason().expect("it is clear");
        all.extend(spoilt(&reason).iter().map(|reason| clear.check(how, reason)));
        all.extend((0..=MOST_HOW).map(|how| clear.check(how, &reason)));
    }
    all
}

/// A drawing of these whole numbers, each divided by the units and off by less than half a
/// unit, so that it is on the grid what it was.
fn small(numbers: &[i32], ring: usize, units: u32, seeded: &mut Seeded) -> Drawing {
    let mut off = |&x: &i32| {
        (f64::from(x) + seeded.pick(&[0.0, 0.25, -0.25, 0.4375, -0.4375])) / f64::from(units)
    };
    let floats: Vec<f64> = numbers.iter().map(&mut off).collect();
    let (ring, rest) = floats.split_at(2 * ring);
    let (disc, ends) = rest.split_at(6);
    Drawing {
        stationary: ring.to_vec(),
        orbiting: disc.to_vec(),
        from: (ends[0], ends[1]),
        to: (ends[2], ends[3]),
        units,
    }
}

/// Enclosed ways of a triangle, one for each how from 2 on but 11: the ring, the triangle,
/// and both positions.
const ENCLOSED: [&[i32]; 18] = [
    &[0, -2, 1, -1, -2, 1, -3, -2, 0, 1, -3, 2, -1, -2, -4, 4, 0, 0],
    &[3, 3, -1, -3, -3, 2, -2, 3, 1, 1, 1, 2, 0, -1, -2, -2, -1, 1],
    &[4, 6, -6, -1, -4, -3, 6, -4, -5, -4, 4, -5, 2, -4, 0, 1, -1, 2],
    &[4, 5, -6, 6, -2, -5, -5, 4, -2, 3, -1, 5, 4, -3, 3, 0],
    &[1, 0, -12, 11, -1, -6, -3, -7, -5, 0, -6, -2, -8, 2, 0, 5, 1, 5],
    &[-1, -1, -3, 1, 0, 2, 3, 0, 3, 2, 2, 0, 1, -2, -2, 3, -3, 1],
    &[2, 0, -4, -6, -3, 6, 5, -3, -5, 1, -5, 0, -5, -2, 4, -3, 6, 0],
    &[-2, 3, 3, 0, -3, -2, 3, -1, 2, 1, 2, -1, -2, 1, -3, 3],
    &[1, 3, 3, -1, -3, -2, 0, -2, 2, 1, 3, -2, -2, 2, -2, 3],
    &[3, -7, 6, 11, -4, 12, -9, -10, -6, 11, -3, 5, 1, 10, 7, -1, 4, -6],
    &[4, 6, 0, -1, 5, -6, 5, 0, -1, -6, -1, 0, 0, -5, 2, 4, 3, 4],
    &[-3, -3, -3, 1, 2, 1, 1, -2, 3, 2, 0, 2, 1, 0, -3, -3, -3, -4],
    &[-3, -3, 2, -3, 3, 3, -3, 3, -1, -2, -3, 1, -2, 0, 5, -1, 3, 1],
    &[4, 6, -6, -6, -1, -1, 3, -4, -4, 4, -3, 5, -2, 3, 5, 0, 5, -3],
    &[5, 3, -12, 3, 10, -10, 0, 11, -4, -5, 2, -4, 7, -7, -3, 3, -7, 5],
    &[-10, 9, 8, 8, -7, -11, -9, 2, -8, -4, -5, 0, 12, 3, 11, 3],
    &[-5, -6, -5, -3, -2, 6, 2, -5, 4, 1, 3, 3, 2, 2, -2, -2, -5, -3],
    &[11, -5, 11, 11, -6, -3, -1, 1, -2, -3, 2, 2, 2, 4, 3, 2],
];

/// Small drawings that are clear with each how, and enclosed with each.
fn hows() -> Vec<Case> {
    const EACH: usize = 3;
    let seeded = &mut Seeded::new(0x37);
    let (mut met, mut all) = ([0; 2 * (MOST_HOW as usize + 1)], Vec::new());
    for numbers in ENCLOSED {
        let ring = numbers.len() / 2 - 5;
        for units in [1, 16] {
            let drawing = small(numbers, ring, units, seeded);
            all.push(drawing.search(4 * ring));
            if let Some((Ground::Enclosed { how }, lines)) = drawing.found() {
                all.push(drawing.check(how, &lines));
            }
        }
    }
    while met[..=MOST_HOW as usize].iter().any(|&count| count < EACH) {
        let (size, ring) = (seeded.pick(&[3, 6, 12]), 3 + seeded.below(2));
        let numbers: Vec<i32> = (0..2 * ring + 10).map(|_| seeded.whole(size) as i32).collect();
        let units = seeded.pick(&[1, 2, 10, 16, 1000]);
        let drawing = small(&numbers, ring, units, seeded);
        let (ground, reason) = drawing.found().expect("it is small");
        let (place, how) = match ground {
            Ground::Clear { how } => (how as usize, how),
            Ground::Enclosed { how } => (how as usize + MOST_HOW as usize + 1, how),
            Ground::Edge(_) => continue,
        };
        if met[place] < EACH {
            met[place] += 1;
            all.extend([drawing.search(4 * ring), drawing.check(how, &reason)]);
        }
    }
    all
}

/// Slides at random angles, in contact and a little inside, of every shape.
fn slides() -> Vec<Case> {
    let (seeded, mut all) = (&mut Seeded::new(0x51de), Vec::new());
    for turn in 0..84 {
        let shape = shape(seeded, SHAPES[turn % SHAPES.len()], 16);
        let by = seeded.pick(&[0.0, 0.0, 0.5, 1.0, 2.0, 3.5, 9.0]) / 1000.0;
        let slide = match turn % 3 {
            0 => along(seeded, &shape, by),
            1 => slot(seeded, &shape, by),
            _ => {
                let corners = 3 + seeded.below(8);
                let ring = ring(seeded, corners);
                beside(seeded, &shape, &ring, by)
            }
        };
        let drawing = drawn(slide, 1000);
        all.push(drawing.search(2 * drawing.stationary.len()));
        all.extend(drawing.reason().map(|(how, reason)| drawing.check(how, &reason)));
    }
    all
}

/// Discs of many corners, in contact, apart, and through each other.
fn large() -> Vec<Case> {
    let touching = |n: usize, x: f64, y: f64| Drawing {
        stationary: disc(n, 15.0),
        orbiting: disc(n, 15.0),
        from: (30.0, x),
        to: (30.0, y),
        units: 1000,
    };
    let mut all = Vec::new();
    for drawing in [touching(32, -31.0, 31.0), touching(256, 0.0, 31.0)] {
        all.push(drawing.search(2 * drawing.stationary.len()));
        all.extend(drawing.reason().map(|(how, reason)| drawing.check(how, &reason)));
    }
    let through = Drawing { to: (29.9, 0.0), ..touching(256, 0.0, 0.0) };
    all.push(through.search(3));
    all.push(touching(32, 0.0, 0.0).search(127));
    all.push(Drawing { to: (0.0, 0.0), from: (0.0, 0.0), ..touching(32, 0.0, 0.0) }.search(0));
    all
}

/// Numbers on the bounds, past them and far past them, in every list, position and setting.
fn numbers() -> Vec<Case> {
    let fine = about((5.0, 5.0), (6.0, 5.0), 1);
    let (_, reason) = fine.reason().expect("they are apart");
    let path = [-2.0, -2.0, 4.0, -2.0, 4.0, 4.0];
    let each =
        |drawing: &Drawing| [drawing.search(16), drawing.check(0, &reason), drawing.path(&path, 1)];
    let mut all = Vec::new();
    for number in EDGES {
        for place in [0, 7] {
            let [wrong, other] =
                [with(&fine.stationary, place, number), with(&fine.orbiting, place, number)];
            all.extend(each(&Drawing { stationary: wrong, ..fine.clone() }));
            all.extend(each(&Drawing { orbiting: other, ..fine.clone() }));
        }
        for (from, to) in [((number, 0.0), fine.to), (fine.from, (9.0, number))] {
            let moved = Drawing { from, to, ..fine.clone() };
            all.extend([moved.search(16), moved.check(7, &reason)]);
        }
        all.extend([0, 3].map(|place| fine.path(&with(&path, place, number), 0)));
    }
    for units in [0, 1, 7, MOST_UNITS, MOST_UNITS + 1, u32::MAX] {
        let drawing = Drawing { units, ..fine.clone() };
        all.extend(each(&drawing));
        all.extend(each(&Drawing { from: (f64::NAN, 0.0), ..drawing }));
    }
    for how in [0, 20, 21, 30, u32::MAX] {
        all.push(fine.check(how, &reason));
        all.push(Drawing { from: (1e9, 0.0), ..fine.clone() }.check(how, &reason));
    }
    for (place, number) in [(0, 1_000_000), (7, -1_000_000), (3, 1_000_001), (15, i32::MIN)] {
        let mut wrong = reason.clone();
        wrong[place] = number;
        all.push(fine.check(0, &wrong));
        all.push(Drawing { units: 0, ..fine.clone() }.check(21, &wrong));
    }
    all
}

/// Corners about the end of the grid, as they are moved, and as they are put aside: at the
/// start alone, at the end alone.
fn ends_of_the_grid() -> Vec<Case> {
    let mut all = Vec::new();
    for units in [1, 1000] {
        let unit = 1.0 / f64::from(units);
        for off in [-3.0, -2.0, -1.0, -0.5, 0.0, 0.25, 0.5, 1.0] {
            let last = (1e6 + off) * unit - 2.0;
            for (from, to) in [((last, 0.0), (9.0, 0.0)), ((9.0, 0.0), (9.0, last))] {
                let drawing = about(from, to, units);
                all.push(drawing.search(16));
                all.push(about((-from.0 - 2.0, 9.0), (9.0, -to.1 - 2.0), units).search(16));
                let line = [4 * units as i32, 1, 4 * units as i32, 0].repeat(4);
                all.extend([3, 4, 7, 13, 17, 1, 12].map(|how| drawing.check(how, &line)));
            }
            all.push(about((0.0, 0.0), (0.0, 0.0), units).path(&[9.0, 9.0, last, 9.0], 1));
        }
    }
    // In a corner of the grid, beside what it touches by a unit, only some hows are left.
    for (x, y) in [(999_998.0, 999_998.0), (-1e6, -1e6), (999_998.0, -1e6)] {
        let stationary = square(3.0, x, y).iter().map(|z| z.clamp(-1e6, 1e6)).collect();
        for (dx, dy) in [(-1.0, 0.0), (0.0, 1.0), (-1.5, 1.5), (1.0, -1.0)] {
            let from = (f64::clamp(x + dx, -1e6, 999_998.0), f64::clamp(y + dy, -1e6, 999_998.0));
            let orbiting = square(2.0, 0.0, 0.0);
            let stationary = Vec::clone(&stationary);
            all.push(Drawing { stationary, orbiting, from, to: from, units: 1 }.search(16));
        }
    }
    all
}

/// Points on which a square of side 2 goes round one of side 4.
const ROUND: [[f64; 2]; 4] = [[-2.0, -2.0], [4.0, -2.0], [4.0, 4.0], [-2.0, 4.0]];

/// Rounds, parts of them, and rounds with a point elsewhere, open and closed.
fn rounds() -> Vec<Case> {
    let drawing = about((0.0, 0.0), (0.0, 0.0), 100);
    let mut paths = vec![vec![1.0; 4], vec![4.0; 4], vec![4.0, 1.0, 4.0, 1.0, 1.0, 1.0]];
    paths.extend([[1.0, 1.0, 2.0, 2.0, 9.0, 1.0], [9.0, 1.0, 5.0, 1.0, 1.0, 1.0]].map(Vec::from));
    for start in 0..4 {
        let mut round = ROUND;
        round.rotate_left(start);
        let path = round.concat();
        paths.extend([path.clone(), reversed(&path), path[..6].to_vec(), path[..4].to_vec()]);
        for (place, by) in [(0, 0.01), (3, -0.02), (4, 0.015), (7, -0.03), (1, 1.0)] {
            paths.push(with(&path, place, path[place] + by));
        }
    }
    let mut all: Vec<Case> =
        paths.iter().flat_map(|path| [0, 1].map(|closed| drawing.path(path, closed))).collect();
    all.extend([2, 1 << 31, u32::MAX].map(|closed| drawing.path(&ROUND[..3].concat(), closed)));
    // A square of two units, which is drawn in to a point, comes to an edge and goes on.
    let (stationary, orbiting) = (square(40.0, 0.0, 0.0), square(2.0, -1.0, -1.0));
    let tiny = Drawing { stationary, orbiting, ..about((0.0, 0.0), (0.0, 0.0), 1) };
    all.extend([0, 1].map(|closed| tiny.path(&[-10.0, 20.0, 0.0, 20.0, 20.0, 20.0], closed)));
    // Of the most points that there may be only the last leg is not clear, if there is one;
    // one more is too many.
    let stands = vec![ROUND[0]; MOST_POINTS - 2];
    let path = [&stands[..], &ROUND[1..3]].concat().concat();
    all.push(drawing.path(&path, 1));
    all.push(drawing.path(&[path, vec![f64::NAN; 2]].concat(), 0));
    all
}

/// Third lists of these lengths for each call: fine, odd, short and long, odd besides.
const THIRDS: [(u64, &[usize]); 3] = [
    (CLEAR_MOVE, &[16, 15, 0]),
    (CHECK_REASON, &[16, 15, 12, 20, 13, 21]),
    (CLEAR_PATH, &[8, 7, 4, 2, 0, 1]),
];
/// Paths that are long, or odd besides.
const LONG: [usize; 3] = [20_002, 20_003, 20_004];

/// The case of lists of these lengths.
fn of_lengths(call: u64, lengths: &Lengths<3>) -> Case {
    let third = square(4.0, 9.0, 9.0).repeat(3);
    let fine = [square(4.0, 0.0, 0.0), square(2.0, 5.0, 5.0), third];
    let [stationary, orbiting, third] = lengths.lists([&fine[0], &fine[1], &fine[2]]);
    let drawing = Drawing { stationary, orbiting, from: (1.0, 1.0), to: (2.0, 1.0), units: 2 };
    match call {
        CLEAR_MOVE => drawing.search(third.len()),
        CHECK_REASON => {
            let reason: Vec<i32> = third.iter().map(|&x| x as i32).collect();
            drawing.check(0, &reason)
        }
        _ => drawing.path(&third, 0),
    }
}

/// All pairs of these lengths for every call, beside every third list.
fn beside_thirds(pairs: &[Lengths<2>]) -> Vec<(u64, Lengths<3>)> {
    let one = |pair: &Lengths<2>| {
        let pair = *pair;
        THIRDS.iter().flat_map(move |&(call, thirds)| {
            thirds.iter().map(move |&third| (call, pair.beside(third)))
        })
    };
    pairs.iter().flat_map(one).collect()
}

/// Lists in every three ways, but that polygons which are too long stand beside few.
fn about_bounds() -> Vec<Case> {
    let short = |pair: &&Lengths<2>| pair.of.iter().all(|&n| n <= 8);
    let (ways, long) = (lengths::ways(), [[514, 8], [8, 514], [514, 7], [514, 514]]);
    let ways: Vec<_> = ways.iter().filter(short).copied().collect();
    let mut all = beside_thirds(&ways);
    for of in long {
        let pair = Lengths { of, wrong: None };
        all.extend(THIRDS.map(|(call, thirds)| (call, pair.beside(thirds[1]))));
    }
    all.iter().map(|(call, lengths)| of_lengths(*call, lengths)).collect()
}

/// The case with this place among lists of all lengths, for a long run; nothing past the
/// last.
pub fn swept(place: u64) -> Option<Case> {
    static ALL: LazyLock<Vec<(u64, Lengths<3>)>> = LazyLock::new(|| {
        let fine = Lengths { of: [8, 8], wrong: None };
        let long = LONG.map(|third| (CLEAR_PATH, fine.beside(third)));
        [long.to_vec(), beside_thirds(&lengths::ways()), beside_thirds(&lengths::bounds())].concat()
    });
    ALL.get(place as usize).map(|(call, lengths)| of_lengths(*call, lengths))
}

/// All cases of the list.
pub fn cases() -> Vec<Case> {
    let moves = [known(), hows(), slides(), large()].concat();
    [moves, numbers(), ends_of_the_grid(), rounds(), about_bounds()].concat()
}
