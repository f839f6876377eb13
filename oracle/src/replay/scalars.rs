//! The list `scalars`. A record is five words: the operation (0 absolute value,
//! 1 smaller, 2 larger, 3 clamp, 4 square root), the bits of up to three
//! operands (0 where unused) and the bits of the answer.

use super::{answer_bits, List, NANS};
use crate::calls;
use crate::seeded::Seeded;

pub const ABS: u64 = 0;
pub const SMALLER: u64 = 1;
pub const LARGER: u64 = 2;
pub const CLAMP: u64 = 3;
pub const SQRT: u64 = 4;

/// The names of the operations, by their number.
const NAMES: [&str; 5] = ["abs", "smaller", "larger", "clamp", "sqrt"];

/// The list with both its forms.
pub const LIST: List = List { stored: records, long, counted };

/// An operation and the bits of its operands.
type Case = (u64, [u64; 3]);

/// Numbers at the edges of the format, and a few ordinary ones.
const EDGES: [u64; 15] = [
    0x7ff8_0000_0000_0000, // NaN
    0x0000_0000_0000_0000, // 0
    0x8000_0000_0000_0000, // -0
    0x7ff0_0000_0000_0000, // infinity
    0xfff0_0000_0000_0000, // -infinity
    0x0000_0000_0000_0001, // least subnormal
    0x8000_0000_0000_0001,
    0x0010_0000_0000_0000, // least normal
    0x8010_0000_0000_0000,
    0x7fef_ffff_ffff_ffff, // largest
    0xffef_ffff_ffff_ffff,
    0x3ff0_0000_0000_0000, // 1
    0xbff0_0000_0000_0000,
    0x412e_8480_0000_0000, // 1e6
    0xc12e_8480_0000_0000,
];

/// More numbers whose root, sign or order is easy to get wrong.
const AWKWARD: [u64; 12] = [
    0x000f_ffff_ffff_ffff, // largest subnormal
    0x800f_ffff_ffff_ffff,
    0x0000_0000_0000_0002,
    0x0000_0000_0000_0003,
    0x0010_0000_0000_0001,
    0x7fef_ffff_ffff_fffe,
    0x3fef_ffff_ffff_ffff, // just below 1
    0x3ff0_0000_0000_0001, // just above 1
    0x3fd0_0000_0000_0000, // 0.25
    0x4010_0000_0000_0000, // 4
    0x8008_0000_0000_0000,
    0xbfef_ffff_ffff_ffff,
];

/// The power of two with this exponent, from -1074 to 1023.
fn power(exponent: i32) -> u64 {
    if exponent < -1022 {
        1 << (exponent + 1074)
    } else {
        ((exponent + 1023) as u64) << 52
    }
}

/// The pattern and the two next to it.
fn with_neighbours(bits: u64) -> [u64; 3] {
    [bits - 1, bits, bits + 1]
}

/// A seeded positive normal number with an exponent in this range.
fn positive(seeded: &mut Seeded, least: i32, most: i32) -> f64 {
    let exponent = least + seeded.below((most - least) as usize) as i32;
    f64::from_bits(power(exponent) | seeded.bits() >> 12)
}

/// A number whose square is c modulo 2^s, for c one more than a multiple of 8;
/// it, its negative, and both moved by half the modulus are all of them.
fn root_modulo(c: i128, s: u32) -> i128 {
    let mut m: i128 = 1;
    for k in 3..s {
        if (m * m - c) % (1 << (k + 1)) != 0 {
            m += 1 << (k - 1);
        }
    }
    m % (1 << s)
}

/// The significand x for which x * 2^s is m * m - c, if m is an odd number of 54
/// bits, that is the midpoint of two significands, and x has 53 bits.
fn near_midpoint(m: i128, c: i128, s: u32) -> Option<u64> {
    let x = (m * m - c) >> s;
    let fits = m >> 53 == 1 && x >> 52 == 1;
    fits.then_some(x as u64)
}

/// Numbers whose root lies as close to the midpoint of two floats as can be:
/// its square misses a midpoint's square by a small whole number.
fn midpoint_neighbours(seeded: &mut Seeded) -> Vec<u64> {
    let mut found = Vec::new();
    for c in (-80..80).map(|j: i128| 8 * j + 1) {
        for s in [54, 55] {
            let (m, half, all) = (root_modulo(c, s), 1 << (s - 1), 1_i128 << s);
            for root in [m, all - m, (m + half) % all, (all - m + half) % all] {
                let Some(x) = near_midpoint(root, c, s) else { continue };
                // Any power with s's parity keeps the root beside a midpoint.
                let biased = 2 * seeded.below(1023) as u64 + u64::from(s % 2) + 1;
                found.push((biased << 52) + (x - (1 << 52)));
            }
        }
    }
    found
}

/// The square of a seeded midpoint, rounded down.
fn midpoint_square(seeded: &mut Seeded) -> u64 {
    let m = (u128::from(seeded.bits()) >> 11 | 1 << 52) * 2 + 1;
    let square = m * m;
    let s = 128 - square.leading_zeros() - 53;
    let biased = 2 * seeded.below(1000) as u64 + u64::from(s % 2) + 21;
    (biased << 52) + ((square >> s) as u64 - (1 << 52))
}

/// Squares of midpoints, rounded down, and the next number up.
fn midpoint_squares(seeded: &mut Seeded) -> Vec<u64> {
    let mut found = Vec::new();
    for _ in 0..120 {
        let x = midpoint_square(seeded);
        found.extend([x, x + 1]);
    }
    found
}

/// Squares of seeded numbers, exact and rounded, with their neighbours.
fn squares(seeded: &mut Seeded) -> Vec<u64> {
    let mut found = Vec::new();
    for i in 0..360 {
        let mut root = positive(seeded, -536, 511);
        if i % 3 == 0 {
            root = f64::from_bits(root.to_bits() >> 27 << 27); // 25 digits: exact
        }
        found.extend(with_neighbours((root * root).to_bits()));
    }
    found
}

/// Operands for the square root.
fn roots(seeded: &mut Seeded) -> Vec<u64> {
    let mut found: Vec<u64> = (-1074..=1023).map(power).collect();
    found.extend(EDGES);
    found.extend(NANS);
    found.extend(AWKWARD);
    found.extend(squares(seeded));
    found.extend(midpoint_neighbours(seeded));
    found.extend(midpoint_squares(seeded));
    found.extend((0..150).map(|i| (seeded.bits() >> 12 >> (i % 50)) + 1));
    found.extend((0..150).map(|_| positive(seeded, -1022, 1024).to_bits()));
    found.extend((0..100).map(|_| seeded.bits()));
    found.extend((1..100).map(|whole| f64::from(whole).to_bits()));
    found
}

/// Operands for the absolute value.
fn lone(seeded: &mut Seeded) -> Vec<u64> {
    let mut found: Vec<u64> = EDGES.iter().chain(&NANS).chain(&AWKWARD).copied().collect();
    found.extend((0..250).map(|_| seeded.bits()));
    found
}

/// Pairs for smaller and larger.
fn pairs(seeded: &mut Seeded) -> Vec<[u64; 2]> {
    let mut found = Vec::new();
    for x in EDGES {
        found.extend(EDGES.map(|y| [x, y]));
        found.extend(NANS.map(|y| [x, y]));
        found.push([NANS[seeded.below(8)], x]);
    }
    for _ in 0..60 {
        let x = seeded.spread(10.0).to_bits();
        found.extend([[x, x], [x, x ^ 1 << 63], [x, x + 1], [x + 1, x]]);
        found.push([seeded.bits(), seeded.bits()]);
    }
    found
}

/// Triples for clamp: the number and the two bounds, in either order.
fn triples(seeded: &mut Seeded) -> Vec<[u64; 3]> {
    let few = [EDGES[0], EDGES[1], EDGES[2], EDGES[3], EDGES[4], EDGES[5], EDGES[11], EDGES[12]];
    let mut found = Vec::new();
    for x in few {
        for lo in few {
            found.extend(few.map(|hi| [x, lo, hi]));
        }
    }
    let (zero, one) = (0.0_f64.to_bits(), 1.0_f64.to_bits());
    found.extend(EDGES.iter().chain(&NANS).chain(&AWKWARD).map(|&x| [x, zero, one]));
    for _ in 0..100 {
        let three = [seeded.spread(2.0), seeded.spread(2.0), seeded.spread(2.0)];
        found.push(three.map(f64::to_bits));
        found.push([seeded.bits(), seeded.bits(), seeded.bits()]);
        found.push([seeded.spread(2.0).to_bits(), zero, one]);
    }
    found
}

/// All cases, in the order of the list.
fn cases() -> Vec<Case> {
    let seeded = &mut Seeded::new(0x5ca1a25);
    let mut all: Vec<Case> = Vec::new();
    all.extend(lone(seeded).into_iter().map(|x| (ABS, [x, 0, 0])));
    for [x, y] in pairs(seeded) {
        all.extend([(SMALLER, [x, y, 0]), (LARGER, [x, y, 0])]);
    }
    all.extend(triples(seeded).into_iter().map(|three| (CLAMP, three)));
    all.extend(roots(seeded).into_iter().map(|x| (SQRT, [x, 0, 0])));
    all
}

/// The answer to one case.
fn answer((operation, operands): Case) -> f64 {
    let [x, y, z] = operands.map(f64::from_bits);
    match operation {
        ABS => calls::abs(x),
        SMALLER => calls::smaller(x, y),
        LARGER => calls::larger(x, y),
        CLAMP => calls::clamp(x, y, z),
        SQRT => calls::sqrt(x),
        _ => unreachable!("there are five operations"),
    }
}

/// The record of a case.
fn record(case: Case) -> Vec<u64> {
    let (operation, [x, y, z]) = case;
    vec![operation, x, y, z, answer_bits(answer(case))]
}

/// The list, record by record.
pub fn records() -> Vec<Vec<u64>> {
    cases().into_iter().map(record).collect()
}

/// A seeded operand: at an edge, awkward, a square or beside one, of ordinary
/// size, or any bits at all.
fn operand(seeded: &mut Seeded) -> u64 {
    match seeded.below(12) {
        0 => seeded.pick(&EDGES),
        1 => seeded.pick(&AWKWARD),
        2 => seeded.pick(&NANS),
        3 => seeded.whole(4).to_bits(),
        4 | 5 => seeded.spread(1e3).to_bits(),
        6..9 => {
            let root = positive(seeded, -536, 511);
            seeded.pick(&with_neighbours((root * root).to_bits()))
        }
        9 => (seeded.bits() >> 12 >> seeded.below(52)) + 1,
        _ => seeded.bits(),
    }
}

/// The record of a seeded root: of a power of two, a subnormal number, a whole
/// square, the square of a float or of a midpoint, or a number beside one of these,
/// and of any bits at all.
pub fn seeded_root(seeded: &mut Seeded) -> Vec<u64> {
    let x = match seeded.below(8) {
        0 => power(seeded.below(2098) as i32 - 1074),
        1 => (seeded.bits() >> 12 >> seeded.below(52)) + 1,
        2 => {
            let whole = (seeded.bits() >> 38 >> seeded.below(26)) + 1;
            ((whole * whole) as f64).to_bits()
        }
        3 => {
            let root = positive(seeded, -536, 511);
            (root * root).to_bits()
        }
        4 => midpoint_square(seeded),
        5 => seeded.bits(),
        _ => seeded.bits() >> 1,
    };
    let beside = [x, x.saturating_sub(1), x.saturating_add(1)];
    record((SQRT, [seeded.pick(&beside), 0, 0]))
}

/// Operands, of which a later one is at times the first, its negative, or the
/// float beside it.
fn operands(seeded: &mut Seeded) -> [u64; 3] {
    let first = operand(seeded);
    let mut other = |_| match seeded.below(8) {
        0 => first,
        1 => first ^ 1 << 63,
        2 => first.wrapping_add(1),
        _ => operand(seeded),
    };
    [first, other(1), other(2)]
}

/// A record of a long run: the operations by turns.
fn long(seeded: &mut Seeded, place: u64) -> Vec<u64> {
    let operation = place % NAMES.len() as u64;
    let [x, y, z] = operands(seeded);
    record(match operation {
        SMALLER | LARGER => (operation, [x, y, 0]),
        CLAMP => (operation, [x, y, z]),
        _ => (operation, [x, 0, 0]),
    })
}

/// The operation.
fn counted(record: &[u64]) -> Vec<String> {
    vec![NAMES[record[0] as usize].to_string()]
}
