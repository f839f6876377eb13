//! Inputs to compare on: every small ring, then shapes, then a seeded sample.

use oracle::answers::Point;
use oracle::calls::points_of;
use oracle::fixed::polygon_ops::is_simple_polygon;
use oracle::seeded::Seeded;
use oracle::shapes::{seeded_ring, whole_shapes};

/// What a function is tried on; each takes what it needs.
#[derive(Clone)]
pub struct Input {
    pub a: Vec<Point>,
    pub b: Vec<Point>,
    pub point: Point,
    pub tolerance: f64,
}

impl Input {
    /// What makes one input smaller than another: whole numbers come first, then
    /// the vertices count, then whether a ring crosses itself, then all sizes.
    pub fn size(&self) -> (bool, usize, bool, f64) {
        let rings = [&self.a, &self.b];
        let crossed = rings.iter().any(|r| !r.is_empty() && !is_simple_polygon(r));
        let points = [&self.a[..], &self.b, &[self.point]].concat();
        let broken = points.iter().any(|p| p.0.fract() != 0.0 || p.1.fract() != 0.0);
        let sizes = points.iter().map(|p| p.0.abs() + p.1.abs());
        (broken, self.a.len() + self.b.len(), crossed, sizes.sum())
    }
}

/// An input with the usual tolerance.
fn input(a: &[Point], b: &[Point], point: Point) -> Input {
    Input { a: a.to_vec(), b: b.to_vec(), point, tolerance: 1e-6 }
}

/// Every list of n of these numbers as x, y alternating, last number fastest.
pub fn all_rings(n: usize, numbers: &[f64]) -> Vec<Vec<Point>> {
    let k = numbers.len();
    let digit = |code: usize, place: usize| numbers[code / k.pow(place as u32) % k];
    let corner = |code: usize, i: usize| {
        let last = 2 * n - 1;
        (digit(code, last - 2 * i), digit(code, last - 2 * i - 1))
    };
    let ring = |code: usize| (0..n).map(|i| corner(code, i)).collect();
    (0..k.pow(2 * n as u32)).map(ring).collect()
}

/// Pairs of numbers: zeros, NaN, infinities, ordinary ones.
pub fn numbers() -> Vec<Input> {
    let signalling = f64::from_bits(0x7ff0_0000_0000_0001);
    let infinite = [f64::INFINITY, f64::NEG_INFINITY];
    let edges = [0.0, -0.0, 1.0, -1.0, f64::NAN, signalling, infinite[0], infinite[1], 5e-324];
    let mut found = Vec::new();
    for x in edges {
        found.extend(edges.map(|y| input(&[], &[], (x, y))));
    }
    let seeded = &mut Seeded::new(1);
    found.extend((0..2000).map(|_| {
        let point = (f64::from_bits(seeded.bits()), f64::from_bits(seeded.bits()));
        input(&[], &[], point)
    }));
    found
}

/// Every ring of n vertices whose coordinates are 0, 1, -1 or -0.0.
pub fn small_rings(n: usize) -> Vec<Vec<Point>> {
    all_rings(n, &[0.0, 1.0, -1.0, -0.0])
}

/// Single rings: all small ones of up to four vertices, then shapes and seeded
/// rings.
pub fn rings() -> Vec<Input> {
    let mut found = Vec::new();
    for n in 0..=4 {
        found.extend(small_rings(n).iter().map(|ring| input(ring, &[], (1.0, 0.0))));
    }
    found.extend(whole_shapes().iter().map(|ring| input(&points_of(ring), &[], (0.0, 0.0))));
    let seeded = &mut Seeded::new(2);
    for _ in 0..3000 {
        let n = 3 + seeded.below(10);
        let ring = points_of(&seeded_ring(seeded, n));
        found.push(input(&ring, &[], (seeded.spread(5.0), seeded.spread(5.0))));
    }
    found
}

/// Two triangles and two squares to set against every small ring.
fn partners() -> Vec<Vec<Point>> {
    vec![
        vec![(0.0, 0.0), (1.0, 0.0), (0.0, 1.0)],
        vec![(0.0, 0.0), (2.0, 0.0), (1.0, 1.0)],
        vec![(0.0, 0.0), (1.0, 0.0), (1.0, 1.0), (0.0, 1.0)],
        vec![(-0.0, 0.0), (0.0, -0.0), (-1.0, 1.0), (-0.0, -1.0)],
    ]
}

/// Pairs of rings: every triangle and quadrilateral of a small grid with each
/// partner, both ways round, then shapes and seeded rings.
pub fn pairs() -> Vec<Input> {
    let mut found = Vec::new();
    let small = [all_rings(3, &[0.0, 1.0, 2.0]), all_rings(4, &[0.0, 1.0, 2.0])].concat();
    for ring in &small {
        for partner in partners() {
            found.push(input(ring, &partner, (3.0, 0.0)));
            found.push(input(&partner, ring, (0.0, -3.0)));
        }
    }
    let shapes: Vec<_> = whole_shapes().iter().map(|shape| points_of(shape)).collect();
    for a in &shapes {
        let places = [(9.0, -2.0), (-0.0, 0.0), (0.5, -8.25)];
        found.extend(shapes.iter().flat_map(|b| places.map(|place| input(a, b, place))));
    }
    let seeded = &mut Seeded::new(3);
    for _ in 0..2000 {
        let [n, m] = [3 + seeded.below(5), 3 + seeded.below(5)];
        let [a, b] = [n, m].map(|n| points_of(&seeded_ring(seeded, n)));
        found.push(input(&a, &b, (seeded.spread(20.0), seeded.spread(20.0))));
    }
    found
}
