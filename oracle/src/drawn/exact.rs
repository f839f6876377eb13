//! How deep a drawn edge truly reaches into a drawn polygon that moves, apart from the
//! rules: of the floats' exact values, without a grid, without a parting line and without
//! a position that is rounded, in whole numbers of 512 bits.
//!
//! Of the orbiting polygon the hull is meant. A point of it lies deeper than D if its four
//! neighbours at some distance above D lie in the hull. For an edge of the hull, with the
//! inside on its left, `cross(edge, p - start)` is at least 0 on its side; a neighbour at
//! the distance E changes it by at most E times the larger size of the edge's x and y, and
//! one of the four by just that. So p lies deeper than D exactly if for each edge
//! `cross(edge, p - start)` is above D times that size: the deep points are what lies
//! inside a convex polygon, its rim not included.
//!
//! Seen from the orbiting polygon, an edge of the ring sweeps a parallelogram: its ends
//! less the first position and less the last. A convex polygon without its rim and a
//! parallelogram have no point in common exactly if a line parts them that is parallel to
//! a side of either one, or if there are no deep points at all.

use crate::answers::Point;
use std::cmp::Ordering;
use std::ops::{Add, Mul, Sub};

/// Largest size of a coordinate, and of a position, in the unit in which all that is asked
/// about is whole. With it the largest number here is below 2^440.
const MOST: i128 = 1 << 88;

/// By how many bits that unit is finer than it need be.
const FINER: i32 = 12;

// ---------------------------------------------------------------------------
// Whole numbers of 512 bits
// ---------------------------------------------------------------------------

/// A whole number, two's complement, lowest bits first.
#[derive(Clone, Copy, PartialEq, Eq, Debug)]
pub struct Whole([u64; 8]);

impl From<i128> for Whole {
    fn from(x: i128) -> Self {
        let above = if x < 0 { u64::MAX } else { 0 };
        let mut limbs = [above; 8];
        (limbs[0], limbs[1]) = (x as u64, (x >> 64) as u64);
        Self(limbs)
    }
}

impl Add for Whole {
    type Output = Self;
    fn add(self, other: Self) -> Self {
        let (mut limbs, mut carry) = ([0; 8], 0);
        for (i, limb) in limbs.iter_mut().enumerate() {
            let sum = u128::from(self.0[i]) + u128::from(other.0[i]) + carry;
            (*limb, carry) = (sum as u64, sum >> 64);
        }
        Self(limbs)
    }
}

impl Sub for Whole {
    type Output = Self;
    fn sub(self, other: Self) -> Self {
        self + Self(other.0.map(|limb| !limb)) + Self::from(1)
    }
}

impl Mul for Whole {
    type Output = Self;
    fn mul(self, other: Self) -> Self {
        let mut limbs = [0; 8];
        for i in 0..8 {
            let mut carry = 0;
            for j in 0..8 - i {
                let product = u128::from(self.0[i]) * u128::from(other.0[j]);
                let sum = product + u128::from(limbs[i + j]) + carry;
                (limbs[i + j], carry) = (sum as u64, sum >> 64);
            }
        }
        Self(limbs)
    }
}

impl Whole {
    /// Above, at or below 0.
    pub fn sign(self) -> Ordering {
        match self.0 {
            [.., top] if top >> 63 == 1 => Ordering::Less,
            [0, 0, 0, 0, 0, 0, 0, 0] => Ordering::Equal,
            _ => Ordering::Greater,
        }
    }

    /// Whether it is above 0.
    fn above(self) -> bool {
        self.sign().is_gt()
    }
}

// ---------------------------------------------------------------------------
// The drawing in whole numbers
// ---------------------------------------------------------------------------

/// A point in the unit in which all is whole.
type Spot = (i128, i128);

/// A float as a significand and a power of two.
fn parted(x: f64) -> (i128, i32) {
    let bits = x.to_bits();
    let (exponent, low) = ((bits >> 52 & 0x7ff) as i32, i128::from(bits & ((1 << 52) - 1)));
    let (size, power) = if exponent == 0 { (low, -1074) } else { (low | 1 << 52, exponent - 1075) };
    let zeros = if size == 0 { 0 } else { size.trailing_zeros() };
    (if x < 0.0 { -size >> zeros } else { size >> zeros }, power + zeros as i32)
}

/// The power of two of which all these numbers are multiples, if it is 2^-80 or above, made
/// finer, so that there are whole points among the deep ones.
fn common(numbers: impl Iterator<Item = f64>) -> i32 {
    let powers = numbers.map(parted).filter(|part| part.0 != 0).map(|part| part.1);
    powers.min().unwrap_or(0).clamp(-80, 0) - FINER
}

/// A float in units of this power of two; nothing where it is no whole number of them, or
/// too large.
fn in_units(x: f64, power: i32) -> Option<i128> {
    let (significand, own) = parted(x);
    match own - power {
        _ if significand == 0 => Some(0),
        shift @ 0..75 => Some(significand << shift).filter(|whole| whole.abs() <= MOST),
        _ => None,
    }
}

/// The points of a list in units of this power of two.
fn spots(list: &[f64], power: i32) -> Vec<Spot> {
    let whole = |x: f64| in_units(x, power).expect("the numbers are not too unlike");
    list.chunks_exact(2).map(|v| (whole(v[0]), whole(v[1]))).collect()
}

/// Whether the numbers of a move, all finite, are near enough in their digits for `truth`.
pub fn is_told_of(pair: [&[f64]; 2], from: Point, to: Point) -> bool {
    let all = [pair[0], pair[1], &[from.0, from.1, to.0, to.1]].concat();
    let power = common(all.iter().copied());
    all.iter().all(|x| x.is_finite() && in_units(*x, power).is_some())
}

/// The way from one point to another.
fn way(a: Spot, b: Spot) -> Spot {
    (b.0 - a.0, b.1 - a.1)
}

/// The cross product of two ways.
fn cross(d: Spot, e: Spot) -> Whole {
    let [a, b, c, f] = [d.0, d.1, e.0, e.1].map(Whole::from);
    a * f - b * c
}

/// The hull of the points, counter-clockwise, without corners in line; of points that are
/// all in line nothing.
fn hull(points: &[Spot]) -> Option<Vec<Spot>> {
    let mut sorted = points.to_vec();
    sorted.sort_unstable();
    let chain = |points: &mut dyn Iterator<Item = Spot>| {
        let mut kept: Vec<Spot> = Vec::new();
        for p in points {
            while let [.., a, b] = kept[..] {
                if cross(way(a, b), way(a, p)).above() {
                    break;
                }
                kept.pop();
            }
            kept.push(p);
        }
        kept.pop();
        kept
    };
    let lower = chain(&mut sorted.iter().copied());
    let upper = chain(&mut sorted.iter().rev().copied());
    let corners = [lower, upper].concat();
    (corners.len() >= 3).then_some(corners)
}

// ---------------------------------------------------------------------------
// The deep points
// ---------------------------------------------------------------------------

/// `a + b*x + c*y` of a point, above 0 on the deep side of a line.
type Side = [Whole; 3];

/// A point as fractions over one denominator, which is above 0 and comes first.
type Fraction = [Whole; 3];

/// What this is at a point, times its denominator.
fn at(f: &Side, p: &Fraction) -> Whole {
    f[0] * p[0] + f[1] * p[1] + f[2] * p[2]
}

/// A point as a fraction over 1.
fn over_one(p: Spot) -> Fraction {
    [Whole::from(1), Whole::from(p.0), Whole::from(p.1)]
}

/// How two lines turn, and where they meet if they are not parallel.
fn meeting(f: &Side, g: &Side) -> (Ordering, Fraction) {
    let minor = |i: usize, j: usize| f[i] * g[j] - f[j] * g[i];
    let turn = minor(1, 2);
    let (over, x, y) = (turn, minor(2, 0), minor(0, 1));
    let zero = Whole::from(0);
    let met = if turn.above() { [over, x, y] } else { [over, x, y].map(|z| zero - z) };
    (turn.sign(), met)
}

/// The deep points of a polygon: inside all of these, with the corners of what they bound.
struct Deep {
    sides: Vec<Side>,
    corners: Vec<Fraction>,
}

impl Deep {
    /// The points of the hull that lie deeper than so many parts of a unit, of which this
    /// many make one; nothing where there are none.
    fn of(hull: &[Spot], depth: i128, parts: i128) -> Option<Self> {
        let side = |(a, b): (Spot, Spot)| {
            let (dx, dy) = way(a, b);
            let [parts, x, y, ax, ay] = [parts, dx, dy, a.0, a.1].map(Whole::from);
            let in_by = Whole::from(depth) * Whole::from(dx.abs().max(dy.abs()));
            let zero = Whole::from(0);
            [parts * (y * ax - x * ay) - in_by, zero - parts * y, parts * x]
        };
        let next = hull.iter().cycle().skip(1);
        let sides: Vec<Side> = hull.iter().copied().zip(next.copied()).map(side).collect();
        let corners: Vec<Fraction> = (0..sides.len()).filter_map(|j| ahead(&sides, j)).collect();
        let deep = |f: &Side| corners.iter().any(|p| at(f, p).above());
        sides.iter().all(deep).then_some(Self { sides, corners })
    }

    /// Whether a point is one of them.
    fn has(&self, p: Spot) -> bool {
        self.sides.iter().all(|f| at(f, &over_one(p)).above())
    }

    /// Whether a line that is parallel to a side of them leaves these corners out.
    fn left_out(&self, corners: &[Fraction]) -> bool {
        self.sides.iter().any(|f| corners.iter().all(|p| !at(f, p).above()))
    }

    /// Whether a line along this way leaves these corners out.
    fn beside(&self, along: Spot, corners: &[Fraction]) -> bool {
        let [x, y] = [along.0, along.1].map(Whole::from);
        let level = |p: &Fraction| x * p[2] - y * p[1];
        let below = |p: &Fraction, q: &Fraction| !(level(p) * q[0] - level(q) * p[0]).above();
        let all = |test: &dyn Fn(&Fraction, &Fraction) -> bool| {
            corners.iter().all(|p| self.corners.iter().all(|q| test(p, q)))
        };
        along != (0, 0) && (all(&below) || all(&|p, q| below(q, p)))
    }

    /// Whether one of them lies in the parallelogram that an edge sweeps.
    fn meets(&self, edge: [Spot; 2], [from, to]: [Spot; 2]) -> bool {
        let corners = edge.map(|end| [from, to].map(|at| over_one(way(at, end)))).concat();
        let sides = [way(edge[0], edge[1]), way(from, to)];
        !self.left_out(&corners) && !sides.iter().any(|&along| self.beside(along, &corners))
    }

    /// A whole point among them, near their middle; nothing where none is found.
    fn some(&self) -> Option<Spot> {
        let float = |z: Whole| {
            let size = if z.sign().is_lt() { Whole::from(0) - z } else { z };
            let value = size
                .0
                .iter()
                .rev()
                .fold(0.0, |sum, &limb| sum * 18_446_744_073_709_551_616.0 + limb as f64);
            if z.sign().is_lt() {
                -value
            } else {
                value
            }
        };
        let count = self.corners.len() as f64;
        let middle = |i: usize| {
            let sum: f64 = self.corners.iter().map(|p| float(p[i]) / float(p[0])).sum();
            (sum / count) as i128
        };
        let middle = (middle(1), middle(2));
        self.has(middle).then_some(middle)
    }
}

/// Where the line of side j leaves what all sides bound, if it runs along it.
fn ahead(sides: &[Side], j: usize) -> Option<Fraction> {
    let mut last: Option<Fraction> = None;
    for other in sides {
        let (turn, met) = meeting(&sides[j], other);
        let nearer = |last: &Fraction| at(other, last).sign().is_lt();
        if turn.is_gt() && last.as_ref().is_none_or(nearer) {
            last = Some(met);
        }
    }
    last.filter(|p| sides.iter().all(|f| !at(f, p).sign().is_lt()))
}

// ---------------------------------------------------------------------------
// What is so of a move
// ---------------------------------------------------------------------------

/// What is so of a move of a drawing.
#[derive(Debug, Clone, Copy, PartialEq, Eq)]
pub enum Truth {
    /// There are no points so deep.
    Shallow,
    /// At some time a point of this edge lies deeper: the first such.
    Reached(usize),
    /// None ever does, and what lies deeper is outside the ring, at every time.
    Outside,
    /// None ever does, and what lies deeper is not outside the ring, at any time.
    Inside,
    /// None ever does; no point was found that tells which of the two it is.
    Apart,
}

/// How often the ring goes round a point, counter-clockwise.
fn winding(ring: &[Spot], point: Spot) -> i64 {
    let next = ring.iter().cycle().skip(1);
    let count = |(&a, &b): (&Spot, &Spot)| {
        let turn = cross(way(a, b), way(a, point)).sign();
        let up = a.1 <= point.1 && point.1 < b.1 && turn.is_gt();
        let down = b.1 <= point.1 && point.1 < a.1 && turn.is_lt();
        i64::from(up) - i64::from(down)
    };
    ring.iter().zip(next).map(count).sum()
}

/// What is so of the move of the orbiting polygon's hull, lent as drawn, from one position
/// to the other: whether a point of a stationary edge ever lies deeper in it than so many
/// units of the grid, of which so many make 1. Nothing where the hull has no area.
pub fn truth(pair: [&[f64]; 2], from: Point, to: Point, units: u32, depth: u32) -> Option<Truth> {
    let positions = [from.0, from.1, to.0, to.1];
    let all = pair.concat().into_iter().chain(positions);
    let power = common(all);
    let [ring, disc, ends] = [pair[0], pair[1], &positions].map(|list| spots(list, power));
    let ends = [ends[0], ends[1]];
    let unit = 1_i128 << -power;
    let Some(deep) = Deep::of(&hull(&disc)?, i128::from(depth) * unit, i128::from(units)) else {
        return Some(Truth::Shallow);
    };
    let next = ring.iter().cycle().skip(1);
    let mut swept = ring.iter().zip(next).map(|(&a, &b)| deep.meets([a, b], ends));
    if let Some(edge) = swept.position(|meets| meets) {
        return Some(Truth::Reached(edge));
    }
    Some(match deep.some() {
        Some((x, y)) if winding(&ring, (x + ends[0].0, y + ends[0].1)) == 0 => Truth::Outside,
        Some(_) => Truth::Inside,
        None => Truth::Apart,
    })
}
