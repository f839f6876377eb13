//! The traces that the repository stores.

use super::{path_of, Case};
use crate::refusals::Settings;
use crate::replay::lengths::{self, Lengths};
use crate::replay::polygons::lost;
use crate::replay::{with, EDGES};
use crate::seeded::Seeded;
use crate::shapes::{comb, disc, parabola, placed, reversed, square, star, whole_shapes};
use std::sync::LazyLock;

/// Few passes, and the other settings as the Rust has them by default.
const FEW: Settings =
    Settings { contact_tolerance: 1e-6, min_translation: 1e-8, max_iterations: 60 };

/// The default settings.
const DEFAULT: Settings = Settings { max_iterations: 10_000, ..FEW };

/// The settings with this pass limit.
fn limited(max_iterations: u64) -> Settings {
    Settings { max_iterations, ..FEW }
}

/// The settings with these tolerances.
fn within(contact_tolerance: f64, min_translation: f64) -> Settings {
    Settings { contact_tolerance, min_translation, ..FEW }
}

/// Small traces that end in every way there is, or come near one.
///
/// By lines: the squares of docs/SCOPE.md, each round the other; no contact after
/// a step to interlock, with a path that is too short and one that is not; a
/// step to interlock that is too short; stuck more than three times; recoveries
/// among these, and before a trace closes, goes on or stops for a short move; a
/// point without area.
pub fn eventful() -> Vec<(Vec<f64>, Vec<f64>, f64, f64)> {
    vec![
        (square(4.0), square(2.0), 1e-6, 1e-8),
        (square(2.0), square(4.0), 1e-6, 1e-8),
        (square(4.0), square(4.0), 1e-6, 1e-8),
        (
            vec![0.0, 1.0, 0.0, -1.0, -1.0, 0.0, 1.0, -1.0],
            vec![0.0, -1.0, 0.0, -1.0, -2.0, -2.0],
            0.125,
            1e-8,
        ),
        (
            vec![0.0, -2.0, 0.0, -1.0, -1.0, 1.0, -2.0, -1.0, -2.0, 1.0],
            vec![0.0, -1.0, 2.0, -3.0, -1.0, -2.0],
            1.0,
            0.0,
        ),
        (
            vec![1.0, -2.0, -2.0, -2.0, 2.0, 0.0, -1.0, 0.0],
            vec![0.0, 2.0, -2.0, -1.0, -1.0, 1.0],
            1.0,
            0.0,
        ),
        (
            vec![-2.0, -1.0, 2.0, -2.0, -2.0, 2.0, 1.0, -4.0],
            vec![-2.0, -2.0, 2.0, -2.0, 2.0, -1.0],
            0.5,
            0.5,
        ),
        (
            vec![-1.0, 1.0, 1.0, 0.0, 0.0, 1.0, -1.0, 0.0],
            vec![-3.0, -2.0, 1.0, -3.0, 2.0, -2.0],
            0.5,
            0.5,
        ),
        (
            vec![-1.0, 2.0, -2.0, 0.0, -2.0, 2.0, 0.0, 1.0],
            vec![2.0, -4.0, 2.0, -4.0, -4.0, -1.0],
            1.0,
            1e-8,
        ),
        (
            vec![0.0, 1.0, -3.0, -2.0, 1.0, -2.0, 0.0, -3.0, -2.0, 3.0],
            vec![1.0, -1.0, -1.0, -1.0, 0.0, -1.0],
            1e-6,
            0.5,
        ),
        (
            vec![0.0, 1.0, -2.0, -2.0, 1.0, 1.0, 1.0, 0.0],
            vec![4.0, -1.0, 2.0, -3.0, 1.0, -2.0],
            1.0,
            1e-8,
        ),
        (
            vec![0.0, 3.0, -3.0, 3.0, 0.0, 0.0, -3.0, -3.0],
            vec![-3.0, 0.0, 2.0, -2.0, -3.0, 0.0],
            0.25,
            1e-8,
        ),
        (
            vec![0.0, -1.0, -1.0, 1.0, 2.0, 2.0, -1.0, 0.0],
            vec![1.0, 0.0, -1.0, -1.0, 1.0, 0.0],
            0.125,
            1e-8,
        ),
        (
            vec![3.0, -1.0, -2.0, 0.0, 3.0, 2.0, -4.0, 2.0],
            vec![-2.0, -2.0, 1.0, -1.0, 2.0, -2.0],
            0.5,
            0.5,
        ),
        (
            vec![2.0, -2.0, -2.0, 3.0, -4.0, 0.0, 3.0, -1.0],
            vec![-1.0, -1.0, -1.0, -1.0, -1.0, 0.0],
            0.25,
            0.0,
        ),
        (
            vec![-4.0, 3.0, 0.0, -2.0, 2.0, 0.0, 4.0, -3.0],
            vec![1.0, -1.0, 1.0, 0.0, -1.0, -1.0],
            0.125,
            0.0,
        ),
        (
            vec![2.0, 2.0, 1.0, 2.0, 2.0, 1.0, 1.0, 1.0],
            vec![0.0, 1.0, 1.0, 1.0, 1.0, 1.0],
            1e-6,
            0.0,
        ),
        (
            vec![-1.0, -1.0, 1.0, 0.0, -1.0, 1.0, 0.0, -1.0],
            vec![1.0, 0.0, 0.0, 1.0, 1.0, -1.0],
            1e-6,
            0.5,
        ),
        (
            vec![0.0, 0.0, 1.0, 0.0, 0.0, 0.0, 1.0, 1.0],
            vec![0.0, 0.0, -1.0, 1.0, -1.0, 1.0],
            1e-6,
            0.5,
        ),
        (
            vec![0.0, 1.0, 1.0, -2.0, 2.0, 2.0, 0.0, -2.0],
            vec![0.0, 2.0, 2.0, 1.0, 0.0, -3.0],
            1e-6,
            0.5,
        ),
        (
            vec![0.0, -1.0, -2.0, 1.0, 0.0, 1.0],
            vec![1.0, 1.0, 0.0, -1.0, 3.0, 2.0, -1.0, 2.0],
            1e-6,
            1e-8,
        ),
        (
            vec![-3.0, 0.0, -1.0, 0.0, -2.0, -3.0],
            vec![2.0, -1.0, 2.0, 2.0, 0.0, -2.0, 0.0, 0.0],
            1e-6,
            1e-8,
        ),
        (
            vec![-1.0, 0.0, 0.0, 1.0, -1.0, 1.0],
            vec![0.0, 1.0, 1.0, 0.0, 1.0, -1.0, -1.0, 1.0],
            1e-6,
            0.5,
        ),
        (
            vec![-1.0, 1.0, -1.0, -1.0, 0.0, -1.0, -1.0, -1.0],
            vec![-1.0, 0.0, 0.0, -1.0, 1.0, 0.0],
            1e-6,
            1e-8,
        ),
        (
            vec![0.0, 0.0, 1.0, 1.0, 0.0, 0.0, 1.0, 0.0],
            vec![-3.0, 3.0, -2.0, -1.0, -2.0, -2.0],
            0.125,
            0.0,
        ),
        (
            vec![2.0, -2.0, -1.0, 2.0, 3.0, 0.0, 1.0, -2.0],
            vec![-3.0, -2.0, 0.0, -4.0, -3.0, -3.0, 1.0, -1.0],
            0.125,
            1e-8,
        ),
        (vec![5.0, 5.0, 5.0, 5.0, 5.0, 5.0], vec![0.0, 0.0, 1.0, 0.0, 2.0, 0.0], 1e-6, 1e-8),
    ]
}

/// The eventful traces, with up to sixty passes.
fn events() -> Vec<Case> {
    let one = |(a, b, tolerance, smallest): (Vec<f64>, Vec<f64>, f64, f64)| {
        Case::of(&a, &b, within(tolerance, smallest))
    };
    eventful().into_iter().map(one).collect()
}

/// Pairs of shapes, as they are and turned round, on fractions, large and small.
fn shaped() -> Vec<Case> {
    let shapes = whole_shapes();
    let n = shapes.len();
    let mut all = Vec::new();
    for (i, shape) in shapes.iter().enumerate() {
        all.push(Case::of(shape, &shapes[(i * 5 + 1) % n], FEW));
        all.push(Case::of(&reversed(shape), &shapes[(i * 7 + 3) % n], limited(24)));
        let small = placed(&shapes[(i * 3 + 2) % n], 0.1, 0.3, -0.7);
        all.push(Case::of(shape, &small, limited(16)));
        let large = placed(shape, 1234.567, -9876.5, 0.001);
        all.push(Case::of(&large, &placed(&shapes[(i + 9) % n], 777.7, 0.1, 0.2), limited(12)));
    }
    all
}

/// Discs, stars, combs and shapes that fit into each other, a few of them with
/// many vertices.
fn curved() -> Vec<Case> {
    let tooth = placed(&comb(1), -1.0, 0.0, 0.0);
    let notched =
        vec![0.0, 0.0, 6.0, 0.0, 6.0, 4.0, 4.0, 4.0, 4.0, 2.0, 2.0, 2.0, 2.0, 4.0, 0.0, 4.0];
    let arrow = vec![0.0, 0.0, 4.0, 0.0, 4.0, 4.0, 2.0, 1.0, 0.0, 4.0];
    let wedge = vec![0.0, 0.0, 1.0, -1.5, 2.0, 0.0];
    vec![
        Case::of(&notched, &square(2.0), limited(200)),
        Case::of(&notched, &square(1.0), limited(100)),
        Case::of(&arrow, &wedge, limited(100)),
        Case::of(&comb(2), &tooth, limited(80)),
        Case::of(&comb(3), &square(0.25), limited(80)),
        Case::of(&disc(12, 2.0), &disc(8, 1.0), limited(60)),
        Case::of(&disc(8, 2.0), &disc(12, 1.0), limited(60)),
        Case::of(&disc(24, 3.0), &square(1.0), limited(40)),
        Case::of(&disc(32, 3.0), &disc(16, 2.0), limited(12)),
        Case::of(&star(5, 3.0, 1.25), &disc(8, 0.5), limited(60)),
        Case::of(&star(3, 3.0, 0.5), &star(4, 1.0, 0.25), limited(60)),
        Case::of(&disc(64, 10.0), &reversed(&disc(32, 4.0)), limited(3)),
        Case::of(&disc(256, 10.0), &wedge, limited(3)),
        Case::of(&wedge, &parabola(256), limited(2)),
        Case::of(&comb(63), &square(1.0), limited(2)),
        Case::of(&disc(256, 10.0), &disc(256, 7.0), limited(0)),
    ]
}

/// Small pairs to try settings on.
fn pairs() -> [[Vec<f64>; 2]; 5] {
    let triangle = vec![0.0, 0.0, 4.0, 0.0, 0.0, 3.0];
    let corner = vec![0.0, 0.0, 4.0, 0.0, 4.0, 2.0, 2.0, 2.0, 1.0, 4.0, 0.0, 4.0];
    [
        [square(4.0), square(2.0)],
        [square(2.0), triangle.clone()],
        [triangle.clone(), reversed(&square(1.0))],
        [corner, placed(&triangle, 0.25, 0.1, 0.3)],
        [placed(&triangle, 1.0 / 3.0, 0.2, 0.1), placed(&triangle, -0.5, 7.0, 7.0)],
    ]
}

/// Tolerances, smallest moves and pass limits on their bounds and between.
fn settings() -> Vec<Case> {
    let tolerances = [1e-12, 1e-9, 1e-4, 0.01, 0.1, 0.25, 0.5, 1.0, 5e-324];
    let moves = [0.0, -0.0, 5e-324, 1e-3, 0.5, 2.0, 3.0, 1000.0, 1e300, f64::MAX];
    let mut all = Vec::new();
    for [a, b] in pairs() {
        for (i, tolerance) in tolerances.into_iter().enumerate() {
            let smallest = [1e-8, 0.0, 0.25][i % 3];
            all.push(Case::of(
                &a,
                &b,
                Settings { max_iterations: 30, ..within(tolerance, smallest) },
            ));
        }
        all.extend(moves.map(|smallest| {
            Case::of(&a, &b, Settings { max_iterations: 20, ..within(1e-6, smallest) })
        }));
        all.extend([0, 1, 2, 3, 7, 8, 11].map(|limit| Case::of(&a, &b, limited(limit))));
    }
    all
}

/// Work rooms of one point, one short, exact and longer, result rooms equal and
/// longer; rooms that are odd, empty, or too short.
fn rooms() -> Vec<Case> {
    let mut all = Vec::new();
    let some = [0, 2, 4, 10, 17, 20];
    for (a, b, tolerance, smallest) in some.map(|place| eventful()[place].clone()) {
        let case = Case::of(&a, &b, within(tolerance, smallest));
        let exact = case.rooms[0];
        for work in [2, exact - 2, exact, exact + 2, exact + 8] {
            all.push(case.lent([work, work]));
        }
        all.extend([1, 2, 5].map(|more| case.lent([exact, exact + more])));
        all.extend([1, 2].map(|less| case.lent([exact, exact - less])));
        all.extend(
            [[2, 3], [2, 2], [4, 4], [6, 7], [2, 1], [1, 1], [0, 0], [3, 9]]
                .map(|rooms| case.lent(rooms)),
        );
        all.extend([exact - 1, exact + 1].map(|odd| case.lent([odd, exact + 2])));
    }
    all
}

/// A trace of polygons of these lengths, the second of two with wrong settings and
/// rooms besides.
fn of_lengths((place, lengths): (usize, &Lengths<2>)) -> Case {
    let [stationary, orbiting] = lengths.lists([&square(4.0), &square(2.0)]);
    let (settings, rooms) = if place.is_multiple_of(2) {
        (limited(2), [8, 8])
    } else {
        (Settings { contact_tolerance: 0.0, ..FEW }, [7, 3])
    };
    Case { stationary, orbiting, settings, rooms }
}

/// Polygons about the bounds of their length, in every two ways and one by one.
fn about_bounds() -> Vec<Case> {
    let pairs = [lengths::ways(), lengths::bounds()].concat();
    pairs.iter().enumerate().map(of_lengths).collect()
}

/// The case with this place among polygons of all lengths, for a long run; nothing
/// past the last.
pub fn swept(place: u64) -> Option<Case> {
    static ALL: LazyLock<Vec<Lengths<2>>> =
        LazyLock::new(|| [lengths::ways(), lengths::lengths()].concat());
    let place = place as usize;
    ALL.get(place).map(|lengths| of_lengths((place, lengths)))
}

/// Wrong settings, and the numbers of polygons on their bounds and past them.
fn faults() -> Vec<Case> {
    let (s, q) = (square(4.0), square(2.0));
    let wrong = [
        Settings { contact_tolerance: 0.0, ..FEW },
        Settings { contact_tolerance: -0.0, ..FEW },
        Settings { contact_tolerance: 1.0_f64.next_up(), ..FEW },
        Settings { contact_tolerance: f64::NAN, ..FEW },
        Settings { contact_tolerance: f64::INFINITY, ..FEW },
        Settings { contact_tolerance: -5e-324, ..FEW },
        Settings { min_translation: -5e-324, ..FEW },
        Settings { min_translation: -1.0, ..FEW },
        Settings { min_translation: f64::NAN, ..FEW },
        Settings { min_translation: f64::INFINITY, ..FEW },
        Settings { min_translation: f64::NEG_INFINITY, ..FEW },
        Settings { max_iterations: 10_001, ..FEW },
        Settings { max_iterations: 1 << 32, ..FEW },
        Settings { max_iterations: u64::MAX, ..FEW },
    ];
    let mut all = Vec::new();
    let mut lend = |a: &[f64], b: &[f64], settings: Settings, rooms: [usize; 2]| {
        all.push(Case { stationary: a.to_vec(), orbiting: b.to_vec(), settings, rooms });
    };
    for settings in wrong {
        lend(&s, &q, settings, [8, 8]);
        lend(&s, &q, settings, [1, 0]);
        lend(&with(&s, 7, 1e6_f64.next_up()), &q, settings, [8, 8]);
    }
    for (i, number) in EDGES.into_iter().enumerate() {
        lend(&with(&s, i % 8, number), &q, limited(12), [26, 26]);
        lend(&s, &with(&q, (i + 3) % 8, number), limited(12), [26, 26]);
    }
    all
}

/// Traces that stop for want of contact, and such that just do not.
fn losing() -> Vec<Case> {
    let seeded = &mut Seeded::new(0x105e);
    let mut all = Vec::new();
    while all.len() < 24 {
        let Some(([a, b], gap)) = lost(seeded) else { continue };
        let tolerances = [gap.next_down(), gap, gap.next_up()];
        all.extend(tolerances.map(|tolerance| {
            Case::of(&a, &b, Settings { max_iterations: 24, ..within(tolerance, 1e-8) })
        }));
    }
    all
}

/// Seeded small polygons on whole coordinates and fractions.
fn small() -> Vec<Case> {
    let seeded = &mut Seeded::new(0x7ace5);
    let one = |i: usize| {
        let mut ring = |most: usize| -> Vec<f64> {
            let n = 3 + seeded.below(most);
            let number = |_| if i.is_multiple_of(3) { seeded.spread(3.0) } else { seeded.whole(3) };
            (0..2 * n).map(number).collect()
        };
        let (a, b) = (ring(4), ring(3));
        let tolerance = seeded.pick(&[1e-6, 1e-6, 1e-9, 0.01, 0.125, 0.25, 0.5, 1.0]);
        let smallest = seeded.pick(&[1e-8, 1e-8, 0.0, 0.1, 0.5]);
        Case::of(&a, &b, Settings { max_iterations: 30, ..within(tolerance, smallest) })
    };
    (0..640).map(one).collect()
}

/// All the passes there may be: a standstill, recoveries over and over, a
/// path that never ends and so fills its room; one closes long before.
fn endless() -> Vec<Case> {
    let all = eventful();
    let mut cases: Vec<_> = [0, 1, 19, 23, 25]
        .map(|place| {
            let (a, b, tolerance, smallest) = &all[place];
            let settings = Settings { max_iterations: 10_000, ..within(*tolerance, *smallest) };
            let points = path_of(a, b, &settings).len().min(40);
            Case { stationary: a.clone(), orbiting: b.clone(), settings, rooms: [2 * points; 2] }
        })
        .to_vec();
    let (a, b) = (vec![0.0, 0.0, -1.0, 0.0, -1.0, 1.0], vec![4.0, 3.0, 0.0, -1.0, -3.0, -3.0]);
    cases.push(Case {
        stationary: a.clone(),
        orbiting: b.clone(),
        settings: DEFAULT,
        rooms: [400, 401],
    });
    cases.push(Case::of(&a, &b, limited(300)));
    cases
}

/// All traces of the list.
pub fn cases() -> Vec<Case> {
    let mut all = events();
    all.extend(shaped());
    all.extend(curved());
    all.extend(settings());
    all.extend(rooms());
    all.extend(faults());
    all.extend(about_bounds());
    all.extend(losing());
    all.extend(small());
    all.extend(endless());
    all
}
