//! The list `grid`. A record is six words of header: n, the units, rn, the refusal
//! number, its place and how many points were written, 0 where refused; then the n
//! numbers lent as floats, and the room of rn integers at entry and at exit.

use super::{once, refused, List, EDGES};
use crate::grid::{is_on_grid, is_tie, nearest, to_grid, MOST_UNITS};
use crate::refusals::{LARGEST, MOST_POINTS};
use crate::seeded::Seeded;

/// Words of the header.
pub const HEADER: usize = 6;

/// The list with both its forms.
pub const LIST: List = List { stored: records, long, counted };

/// Most numbers of a list, and most integers of a room, in a record.
pub const MOST: usize = 20_100;

/// Units that are tried, at both ends of their bounds.
const UNITS: [u32; 16] = [
    1,
    2,
    3,
    7,
    10,
    11,
    1000,
    1024,
    4096,
    999_983,
    MOST_UNITS - 1,
    MOST_UNITS,
    0,
    MOST_UNITS + 1,
    1 << 31,
    u32::MAX,
];

/// What the call is lent; of the room only the length.
struct Case {
    points: Vec<f64>,
    units: u32,
    room: usize,
}

/// A room of this length whose every integer can be told from a number of the grid.
fn room(length: usize) -> Vec<i32> {
    (0..length as i32).map(|i| i32::MAX - 3 * i).collect()
}

/// Integers as words.
fn words(integers: &[i32]) -> Vec<u64> {
    integers.iter().map(|&z| i64::from(z) as u64).collect()
}

/// A record: what is lent and both states of the room.
fn record(Case { points, units, room: rn }: &Case) -> Vec<u64> {
    let before = room(*rn);
    let mut after = before.clone();
    let answer = to_grid(points, *units, &mut after);
    let [number, place] = refused(answer.err());
    let count = answer.unwrap_or(0) as u64;
    let header = [points.len() as u64, u64::from(*units), *rn as u64, number, place, count];
    let list: Vec<u64> = points.iter().map(|x| x.to_bits()).collect();
    [&header[..], &list, &words(&before), &words(&after)].concat()
}

/// The float nearest to this many units, and those around it.
fn around(units: u32, whole: f64) -> Vec<f64> {
    let x = whole / f64::from(units.max(1));
    let (mut up, mut down, mut all) = (x, x, vec![x]);
    for _ in 0..3 {
        (up, down) = (up.next_up(), down.next_down());
        all.extend([up, down]);
    }
    all
}

/// Numbers at which something changes on this grid: wholes and halves, small and
/// large, and the floats around each, of both signs; and those of no grid.
fn turning(units: u32) -> Vec<f64> {
    let wholes =
        [0.0, 0.5, 1.0, 1.5, 2.5, 4095.5, 123_456.5, 524_288.5, 999_999.5, 1e6, 1_000_000.5];
    let near = wholes.iter().flat_map(|&whole| around(units, whole));
    let all: Vec<f64> =
        near.chain(EDGES).filter(|x| x.abs() <= LARGEST || !x.is_finite()).collect();
    all.iter().flat_map(|&x| [x, -x]).collect()
}

/// Each of these numbers by itself, in a point beside 0.25, with a room that is longer.
fn single() -> impl Iterator<Item = Case> {
    UNITS.iter().flat_map(|&units| {
        turning(units).into_iter().map(move |x| Case { points: vec![x, 0.25], units, room: 3 })
    })
}

/// Numbers of a few bits at exponents up to beyond the bounds.
fn every_exponent() -> impl Iterator<Item = Case> {
    (0..1046_u64).step_by(3).flat_map(|exponent| {
        [0, 1, 0x000f_ffff_ffff_ffff, 0x0008_0000_0000_0001].map(|low| {
            let x = f64::from_bits(exponent << 52 | low);
            let units = if x < 1.0 { MOST_UNITS } else { 1 };
            Case { points: vec![-x, x.min(0.5)], units, room: 2 }
        })
    })
}

/// So many numbers, none twice, all on this grid.
fn many(count: usize, units: u32) -> Vec<f64> {
    (0..count).map(|i| (i as f64 - 700.25) / f64::from(units)).collect()
}

/// Lists and rooms of every kind of length.
fn lengths() -> impl Iterator<Item = Case> {
    let short = (0..=9).flat_map(|n| (0..=n + 2).map(move |room| (n, room)));
    let short = short.map(|(n, room)| Case { points: many(n, 8), units: 8, room });
    let most = 2 * MOST_POINTS;
    let long = [(most, most), (most, 0), (most - 1, 0), (most + 1, 0), (most + 2, 0)];
    short.chain(long.map(|(n, room)| Case { points: many(n, 1000), units: 1000, room }))
}

/// Each refusal beside those that come after it.
fn beside_each_other() -> impl Iterator<Item = Case> {
    let wrong = [
        vec![f64::NAN],
        vec![f64::NAN, 2e6],
        vec![2e6, 0.0],
        vec![f64::INFINITY, 1e6],
        vec![1e6, 1e6],
        vec![0.5, -0.5],
    ];
    wrong.into_iter().flat_map(|points| {
        [0, 1, 2, MOST_UNITS, MOST_UNITS + 1]
            .into_iter()
            .flat_map(move |units| [0, 1, 2].map(|room| (units, room)))
            .map(move |(units, room)| Case { points: points.clone(), units, room })
            .collect::<Vec<_>>()
    })
}

/// The list, record by record, none twice.
pub fn records() -> Vec<Vec<u64>> {
    let all = single().chain(every_exponent()).chain(lengths()).chain(beside_each_other());
    once(all.map(|case| record(&case)).collect())
}

/// A number that is on this grid mostly: somewhere, near a whole or half number of units,
/// or of any exponent.
fn number(seeded: &mut Seeded, units: u32) -> f64 {
    let most = LARGEST / f64::from(units.clamp(1, MOST_UNITS));
    let sign = if seeded.below(2) == 0 { 1.0 } else { -1.0 };
    let somewhere = (seeded.bits() >> 11) as f64 / (1_u64 << 53) as f64;
    let x = match seeded.below(8) {
        0..3 => most * somewhere,
        3..5 => most * somewhere * somewhere * somewhere * somewhere,
        5..7 => {
            let halves = (2.0 * LARGEST * somewhere).floor();
            let x = halves / 2.0 / f64::from(units.max(1));
            f64::from_bits((x.to_bits() + seeded.below(7) as u64).saturating_sub(3))
        }
        _ => f64::from_bits(seeded.bits() >> 2),
    };
    if x > most && seeded.below(64) != 0 {
        return sign * most;
    }
    sign * x
}

/// The last floats of a grid, and the first beyond.
fn at_the_end(seeded: &mut Seeded, units: u32) -> f64 {
    let last = LARGEST / f64::from(units.clamp(1, MOST_UNITS));
    f64::from_bits(last.to_bits() - 2 + seeded.below(5) as u64)
}

/// A record of a long run: a number within its bounds mostly, and rooms near what is
/// needed.
fn long(seeded: &mut Seeded, _place: u64) -> Vec<u64> {
    let units = match seeded.below(8) {
        0 => seeded.pick(&UNITS),
        1..4 => seeded.pick(&[1, 10, 100, 1000, 10_000, 100_000, MOST_UNITS]),
        _ => 1 + seeded.below(MOST_UNITS as usize) as u32,
    };
    let n = match seeded.below(32) {
        0 => 1 + 2 * seeded.below(8),
        _ => 2 * seeded.below(33),
    };
    let points = (0..n).map(|_| match seeded.below(400) {
        0 => seeded.pick(&EDGES),
        1 => at_the_end(seeded, units),
        _ => number(seeded, units),
    });
    let points: Vec<f64> = points.collect();
    let room = match seeded.below(16) {
        0 => seeded.below(n + 1),
        _ => n + seeded.below(4),
    };
    record(&Case { points, units, room })
}

/// The refusal number; of an answer, whether a tie was met, and of a refusal 14 whether
/// the number nearest to what is off the grid is on it.
fn counted(record: &[u64]) -> Vec<String> {
    let number = record[3];
    let mut all = vec!["to_grid: all".to_string(), format!("to_grid: refusal {number}")];
    let (units, n) = (record[1] as u32, record[0] as usize);
    let list = record[HEADER..HEADER + n].iter().map(|&bits| f64::from_bits(bits));
    if number == 0 {
        if list.clone().any(|x| is_tie(units, x)) {
            all.push("to_grid: a tie".to_string());
        }
    } else if number == 14 {
        let off = |x: &f64| !is_on_grid(units, *x);
        if list.filter(off).all(|x| nearest(units, x).unsigned_abs() == 1_000_000) {
            all.push("to_grid: off the grid by less than half".to_string());
        }
    }
    all
}
