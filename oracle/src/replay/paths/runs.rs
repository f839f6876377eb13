//! The paths that the repository stores.

use super::Case;
use crate::answers::Point;
use crate::refusals::{Settings, LARGEST, LEAST_POINTS, MOST_POINTS};
use crate::replay::lengths::{self, Lengths, PATHS};
use crate::replay::traces::{eventful, path_of};
use crate::replay::{with, EDGES};
use crate::seeded::Seeded;
use crate::shapes::{comb, disc, placed, reversed, square, star, whole_shapes};
use std::sync::LazyLock;

/// The settings that the Rust has by default.
pub const DEFAULT: Settings =
    Settings { contact_tolerance: 1e-6, min_translation: 1e-8, max_iterations: 10_000 };

/// Points on which a square of side 2 goes round one of side 4, so that a corner meets
/// a corner at the end of each leg.
const ROUND: [[f64; 2]; 12] = [
    [-2.0, -2.0],
    [0.0, -2.0],
    [2.0, -2.0],
    [4.0, -2.0],
    [4.0, 0.0],
    [4.0, 2.0],
    [4.0, 4.0],
    [2.0, 4.0],
    [0.0, 4.0],
    [-2.0, 4.0],
    [-2.0, 2.0],
    [-2.0, 0.0],
];

/// The points as a list of numbers.
pub fn flat(points: &[Point]) -> Vec<f64> {
    points.iter().flat_map(|p| [p.0, p.1]).collect()
}

/// The case of a path round the square.
fn round(settings: Settings, path: &[f64]) -> Case {
    Case::of([&square(4.0), &square(2.0)], settings, path)
}

/// The path of the round with this point in a place of its own.
fn changed(place: usize, point: [f64; 2]) -> Vec<f64> {
    let mut path = ROUND;
    path[place] = point;
    path.concat()
}

/// The round; a point off the square, and one on its other side, at every place; and
/// each part of it.
fn rounds() -> Vec<Case> {
    let away = |z: f64| if z < 1.0 { z - 0.5 } else { z + 0.5 };
    let mut paths = vec![ROUND.concat()];
    for (place, point) in ROUND.into_iter().enumerate() {
        paths.push(changed(place, point.map(away)));
        paths.push(changed((place + 1) % ROUND.len(), point.map(|z| 2.0 - z)));
        paths.push(ROUND[..place].concat());
        paths.push([point; 3].concat());
    }
    paths.iter().map(|path| round(DEFAULT, path)).collect()
}

/// Paths of which the first fault is another with either polygon turned round, for
/// rounding alone; and the round with each winding.
fn windings() -> Vec<Case> {
    let at = |contact_tolerance| Settings { contact_tolerance, ..DEFAULT };
    let some = [
        (
            [0.0, 3.0, -1.0, -1.0, -1.0, 0.0],
            [0.0, -3.0, 0.0, 0.0, -1.0, 0.0],
            0.1,
            [-1.0, -0.1, -1.0, 1.5, -1.0, 0.0],
        ),
        (
            [3.0, 0.0, 0.0, 1.0, -1.0, 0.0],
            [3.0, -1.0, 0.0, -1.0, 3.0, 0.0],
            0.3,
            [0.0, 0.1, -1.5, 0.1, 0.0, 0.0],
        ),
        (
            [0.0, 2.0, 0.0, -1.0, 0.0, 2.0],
            [0.0, 2.0, -2.0, 0.0, 2.0, 3.0],
            1.0,
            [1.0, -0.5, 0.5, 1.0, 0.0, -0.2],
        ),
        (
            [2.0, 1.0, 0.0, 2.0, -1.0, -2.0],
            [2.0, 0.0, -2.0, 1.0, 0.0, 2.0],
            1.0,
            [0.0, -1.0, -0.2, 0.0, 2.0, 0.0],
        ),
        (
            [2.0, 2.0, -2.0, 2.0, -2.0, -1.0],
            [2.0, 1.0, 2.0, 1.0, -2.0, 0.0],
            0.5,
            [0.5, 0.0, 0.0, -0.4, -0.2, 0.0],
        ),
    ];
    let both = |a: &[f64], b: &[f64], settings, path: &[f64]| {
        let (c, d) = (reversed(a), reversed(b));
        let pairs: [[&[f64]; 2]; 4] = [[a, b], [&c, b], [a, &d], [&c, &d]];
        pairs.map(|pair| Case::of(pair, settings, path))
    };
    let mut all = both(&square(4.0), &square(2.0), DEFAULT, &ROUND.concat()).to_vec();
    all.extend(some.iter().flat_map(|(a, b, tolerance, path)| both(a, b, at(*tolerance), path)));
    all
}

/// A trace's path, of at most sixty passes, as a path to check.
fn traced(a: &[f64], b: &[f64], settings: Settings) -> Case {
    let traced = Settings { max_iterations: 60, ..settings };
    Case::of([a, b], settings, &flat(&path_of(a, b, &traced)))
}

/// The paths of traces that end in every way, and of shapes; some have under three
/// points.
fn own() -> Vec<Case> {
    let one = |(a, b, contact_tolerance, min_translation): (Vec<f64>, Vec<f64>, f64, f64)| {
        traced(&a, &b, Settings { contact_tolerance, min_translation, ..DEFAULT })
    };
    let mut all: Vec<Case> = eventful().into_iter().map(one).collect();
    let shapes = whole_shapes();
    for (i, shape) in shapes.iter().enumerate() {
        all.push(traced(shape, &shapes[(i * 5 + 1) % shapes.len()], DEFAULT));
        all.push(traced(shape, &placed(shape, 0.1, 0.3, -0.7), DEFAULT));
    }
    all.extend([
        traced(&disc(8, 10.0), &disc(8, 10.0), DEFAULT),
        traced(&disc(12, 2.0), &disc(8, 1.0), DEFAULT),
        traced(&star(3, 3.0, 0.5), &star(4, 1.0, 0.25), DEFAULT),
        traced(&comb(2), &placed(&comb(1), -1.0, 0.0, 0.0), DEFAULT),
    ]);
    all
}

/// The same path with a number moved by this much.
pub fn nudged(case: &Case, place: usize, by: f64) -> Case {
    let path = with(&case.path, place, case.path[place] + by);
    Case { path, ..case.clone() }
}

/// A path that is accepted, and one that is not, with a point moved by a hair or by
/// much, at every place.
fn perturbed() -> Vec<Case> {
    let octagons = traced(&disc(8, 10.0), &disc(8, 10.0), DEFAULT);
    let by = [1e-7, -1e-7, 9.9e-7, -1e-6, 1.1e-6, -2e-6, 1e-3, 0.5, -3.0];
    let mut all = Vec::new();
    for place in 0..octagons.path.len() {
        all.extend([0, 4].map(|k| nudged(&octagons, place, by[(place + k) % by.len()])));
    }
    let squares = traced(&square(2.0), &square(4.0), DEFAULT);
    for (place, number) in squares.path.iter().enumerate() {
        let beside = [number.next_up(), number.next_down()][place % 2] - number;
        all.push(nudged(&squares, place, beside));
    }
    all
}

/// Tolerances, smallest moves and limits on their bounds and past them.
fn settings() -> Vec<Case> {
    let mut all = Vec::new();
    let tolerances = [5e-324, 1e-12, 0.5, 1.0, 0.0, -0.0, 1.0_f64.next_up(), -1e-6, f64::NAN];
    all.extend(tolerances.map(|contact_tolerance| Settings { contact_tolerance, ..DEFAULT }));
    let moves = [0.0, -0.0, 5e-324, f64::MAX, -5e-324, -1.0, f64::INFINITY, f64::NAN];
    all.extend(moves.map(|min_translation| Settings { min_translation, ..DEFAULT }));
    let limits = [0, 1, 10_000, 10_001, 1 << 32, u64::MAX];
    all.extend(limits.map(|max_iterations| Settings { max_iterations, ..DEFAULT }));
    let wrong = changed(11, [f64::NAN, 0.0]);
    let both = |settings| [round(settings, &ROUND.concat()), round(settings, &wrong)];
    all.into_iter().flat_map(both).collect()
}

/// Numbers on the bounds and past them in every list, and what is no coordinate but
/// finite in the path.
fn numbers() -> Vec<Case> {
    let (s, q, path) = (square(4.0), square(2.0), ROUND.concat());
    let mut all = Vec::new();
    for (i, number) in EDGES.into_iter().enumerate() {
        all.push(Case::of([&with(&s, i % 8, number), &q], DEFAULT, &path));
        all.push(Case::of([&s, &with(&q, (i + 3) % 8, number)], DEFAULT, &path));
        all.push(round(DEFAULT, &with(&path, (5 * i) % 24, number)));
        all.push(round(DEFAULT, &[[0.0, -2.0], [number, -2.0], [0.0, number]].concat()));
    }
    let huge = [[f64::MAX, 0.0], [f64::MIN, 0.0], [1e200, -1e200], [-0.0, -2.0]];
    all.extend(huge.map(|point| round(DEFAULT, &changed(7, point))));
    all.push(round(DEFAULT, &[-0.0, -2.0, 0.0, -2.0, 5e-324, -2.0, -5e-324, -2.0]));
    // In the corner of the bounds the moved square goes past them.
    let corner = LARGEST - 4.0;
    let far = placed(&s, 1.0, corner, corner);
    let paths = [path.clone(), changed(5, [4.5, 2.0]), ROUND[..7].concat()];
    all.extend(
        paths.map(|path| Case::of([&far, &q], DEFAULT, &placed(&path, 1.0, corner, corner))),
    );
    all
}

/// A square of side 2 that stands by its neighbour, and at last goes round it: of the
/// most points that there may be, or of one more, only the last leg is blocked.
fn longest(points: usize) -> Case {
    let stands = vec![ROUND[1]; points - 8];
    round(DEFAULT, &[&stands[..], &ROUND[1..9]].concat().concat())
}

/// Lengths of a path: fine, odd, short, odd and short.
const SHORT: [usize; 4] = [8, 7, 4, 5];
/// Those that are long, or odd besides.
const LONG: [usize; 2] = [20_004, 20_003];

/// The case of lists of these lengths, the second of two with wrong settings besides.
fn of_lengths((place, lengths): (usize, &Lengths<3>)) -> Case {
    let [a, b, path] = lengths.lists([&square(4.0), &square(2.0), &ROUND.concat()]);
    let tolerance = if place.is_multiple_of(2) { 1e-6 } else { 0.0 };
    Case::of([&a, &b], Settings { contact_tolerance: tolerance, ..DEFAULT }, &path)
}

/// Paths of these lengths beside each of these pairs.
fn beside(pairs: &[Lengths<2>], paths: &[usize]) -> Vec<Lengths<3>> {
    pairs.iter().flat_map(|pair| paths.iter().map(|&n| pair.beside(n))).collect()
}

/// Lists in every three ways, but that polygons which are too long stand beside few
/// paths.
fn about_bounds() -> Vec<Case> {
    let ways: Vec<_> = lengths::ways().into_iter().filter(|pair| pair.wrong.is_none()).collect();
    let (short, long): (Vec<_>, Vec<_>) =
        ways.into_iter().partition(|pair| pair.of.iter().all(|&n| n <= SHORT[0]));
    let paths: Vec<usize> = PATHS.into_iter().filter(|&n| n <= SHORT[0]).collect();
    let fine = [Lengths { of: [8, 8], wrong: None }];
    let all = [beside(&short, &SHORT), beside(&long, &SHORT[1..2]), beside(&fine, &paths)].concat();
    all.iter().enumerate().map(of_lengths).collect()
}

/// The case with this place among lists of all lengths, for a long run; nothing past
/// the last.
pub fn swept(place: u64) -> Option<Case> {
    static ALL: LazyLock<Vec<Lengths<3>>> = LazyLock::new(|| {
        let (ways, lengths) = (lengths::ways(), lengths::lengths());
        let few: Vec<_> = ways.iter().filter(|pair| pair.wrong.is_none()).copied().collect();
        let fine = [Lengths { of: [8, 8], wrong: None }, Lengths { of: [8, 8], wrong: Some(1) }];
        let paths = [beside(&ways, &SHORT), beside(&few, &LONG), beside(&fine, &PATHS)].concat();
        [paths, beside(&lengths, &SHORT[..1])].concat()
    });
    let place = place as usize;
    ALL.get(place).map(|lengths| of_lengths((place, lengths)))
}

/// Seeded small polygons with whole coordinates, and their traces' paths of three points
/// or more.
fn small() -> Vec<Case> {
    let seeded = &mut Seeded::new(0x9a7);
    let one = || {
        let mut ring = |most: usize| -> Vec<f64> {
            let n = 3 + seeded.below(most);
            (0..2 * n).map(|_| seeded.whole(3)).collect()
        };
        let (a, b) = (ring(3), ring(2));
        let contact_tolerance = seeded.pick(&[1e-6, 1e-6, 0.125, 0.5]);
        let traced = Settings { contact_tolerance, max_iterations: 12, ..DEFAULT };
        Case::of([&a, &b], traced, &flat(&path_of(&a, &b, &traced)))
    };
    let long = |case: &Case| case.path.len() >= 2 * LEAST_POINTS;
    std::iter::repeat_with(one).filter(long).take(120).collect()
}

/// All paths of the list.
pub fn cases() -> Vec<Case> {
    let mut all = rounds();
    all.extend(windings());
    all.extend(own());
    all.extend(perturbed());
    all.extend(settings());
    all.extend(numbers());
    all.extend(about_bounds());
    all.extend(small());
    all.extend([longest(MOST_POINTS), longest(MOST_POINTS + 1)]);
    all
}
