//! What Rust's library and the text are seen to do, on inputs worth knowing.

use crate::inputs::{self, Input};
use oracle::answers::{Error, Point, Trace};
use oracle::calls::points_of;
use oracle::fixed::helpers::orient2d_filtered;
use oracle::fixed::nfp_sliding::{self as sliding, SlidingNfpConfig};
use oracle::fixed::polygon_ops::is_simple_polygon;
use oracle::seeded::Seeded;
use oracle::shapes::{placed, square, whole_shapes};
use oracle::{fixed, repository};
use std::hint::black_box;

/// Prints all findings.
pub fn print() {
    library();
    empty_sums();
    squares();
    reasons();
    lost_contact();
    steps_to_interlock();
    closing();
    crossed();
    through();
    recoveries();
    overlap();
    interlocking();
    turned_round();
}

/// The smallest example met so far: fewest points, then smallest numbers.
#[derive(Default)]
struct Smallest {
    met: usize,
    size: (usize, f64),
    text: String,
}

impl Smallest {
    /// Counts the pair, and keeps what is told of it if it is the smallest with
    /// its path.
    fn meet(&mut self, a: &[Point], b: &[Point], path: &[Point], told: String) {
        let numbers = a.iter().chain(b).map(|p| p.0.abs() + p.1.abs()).sum();
        let size = (a.len() + b.len() + path.len(), numbers);
        if self.met == 0 || size < self.size {
            self.size = size;
            self.text = format!("{a:?}, {b:?}: {told}");
        }
        self.met += 1;
    }
}

/// Rust's own minimum, maximum and sum where IEEE 754 or docs/SCOPE.md fix more.
fn library() {
    let signalling = f64::from_bits(0x7ff0_0000_0000_0001);
    let pairs = [(0.0, -0.0), (-0.0, 0.0), (1.0, f64::NAN), (1.0, signalling), (signalling, 1.0)];
    for (a, b) in pairs.map(black_box) {
        let bits = [a, b].map(f64::to_bits);
        println!("f64::min, f64::max of {bits:x?}: {:?}, {:?}", a.min(b), a.max(b));
    }
    let nothing: Vec<f64> = black_box(Vec::new());
    println!("sum of no f64: {:?}", nothing.iter().sum::<f64>());
}

/// Twice the area over the fixed helpers and over the repository's.
fn areas(ring: &[Point]) -> [f64; 2] {
    [fixed::polygon_ops::signed_area2(ring), repository::polygon_ops::signed_area2(ring)]
}

/// `signed_area2` where the start of the sum shows: three rings, and how many
/// of the small ones, by their number of vertices.
fn empty_sums() {
    let zeros = vec![(0.0, 0.0), (0.0, -0.0), (-0.0, -0.0), (-0.0, 0.0)];
    let ones = vec![(0.0, 1.0), (0.0, -1.0), (-0.0, -1.0), (-0.0, 1.0)];
    for ring in [vec![], zeros, ones] {
        let [one, other] = areas(&ring);
        println!("signed_area2 of {ring:?}: fixed {one:?}, repository {other:?}");
    }
    let minus = |x: f64| x.to_bits() == (-0.0_f64).to_bits();
    let (mut differing, mut without) = ([0; 5], 0);
    for ring in (0..=4).flat_map(inputs::small_rings) {
        let [one, other] = areas(&ring).map(f64::to_bits);
        if one != other {
            differing[ring.len()] += 1;
            without += usize::from(!ring.iter().any(|p| minus(p.0) || minus(p.1)));
        }
    }
    println!("small rings of 0 to 4 vertices: {differing:?} differ, {without} have no -0.0");
}

/// A trace over the fixed helpers with room for every point, and the points of
/// its answer, 0 if the path was too short.
fn run(stationary: &[Point], orbiting: &[Point], config: &SlidingNfpConfig) -> (Trace, usize) {
    let room = config.max_iterations + 1;
    match sliding::compute_nfp_sliding(stationary, orbiting, config, room) {
        Ok(nfp) => (nfp.trace, nfp.polygon.len()),
        Err(Error::Short(trace) | Error::Full(trace)) => (trace, 0),
        Err(Error::InvalidGeometry(message)) => unreachable!("{message}"),
    }
}

/// The default settings with this pass limit.
fn passes(max_iterations: usize) -> SlidingNfpConfig {
    SlidingNfpConfig { max_iterations, ..Default::default() }
}

/// docs/SCOPE.md's two squares, each round the other, and S round itself, with
/// the default settings; the least pass limit that leaves the same path.
fn squares() {
    let (s, q) = (points_of(&square(4.0)), points_of(&square(2.0)));
    let pairs = [("S", "Q", &s, &q), ("Q", "S", &q, &s), ("S", "S", &s, &s)];
    for (stationary, orbiting, a, b) in pairs {
        let (trace, points) = run(a, b, &passes(10_000));
        let stored = |limit: &usize| run(a, b, &passes(*limit)).0.path == trace.path;
        let last = (0..=10_000).find(stored).expect("the last limit leaves it");
        let (stop, begun) = (trace.stop, trace.passes);
        println!("stationary {stationary}, orbiting {orbiting}: reason {stop}, {begun} passes");
        println!("  {points} points; the path, stored after {last} passes: {:?}", trace.path);
    }
}

/// How the traces of all pairs of shapes end after at most 2000 passes.
fn closing() {
    let shapes: Vec<_> = whole_shapes().iter().map(|shape| points_of(shape)).collect();
    let mut ends = [0; 6];
    for a in &shapes {
        for b in &shapes {
            ends[run(a, b, &passes(2_000)).0.stop as usize] += 1;
        }
    }
    let pairs = shapes.len().pow(2);
    println!("{pairs} pairs of shapes, 2000 passes: reasons 1 to 5 {:?}", &ends[1..]);
}

/// How small seeded triangles end, with a first pair for each reason.
fn reasons() {
    let seeded = &mut Seeded::new(5);
    let mut met = [0; 6];
    for _ in 0..20_000 {
        let mut triangle = || [0; 3].map(|_| (seeded.whole(2), seeded.whole(2)));
        let [a, b] = [triangle(), triangle()];
        let config = SlidingNfpConfig {
            contact_tolerance: seeded.pick(&[1e-6, 0.25, 0.5, 1.0]),
            min_translation: seeded.pick(&[0.0, 1e-8, 0.5, 2.0]),
            max_iterations: 40,
        };
        let Trace { passes, stop, .. } = run(&a, &b, &config).0;
        met[stop as usize] += 1;
        if met[stop as usize] == 1 {
            println!("reason {stop} after {passes} passes: {a:?}, {b:?}, {config:?}");
        }
    }
    println!("20000 pairs of triangles, 40 passes: reasons 1 to 5 {:?}", &met[1..]);
}

/// Of the recoveries among the pairs, how many the two centroids answer alike:
/// first those of an orbiting triangle, then the others.
fn recoveries() {
    let (mut all, mut differing) = ([0; 2], [0; 2]);
    for Input { a, b, point, tolerance } in inputs::pairs() {
        let moved: Vec<Point> = b.iter().map(|p| (p.0 + point.0, p.1 + point.1)).collect();
        let one = sliding::recover_contact(&a, &moved, point, tolerance);
        let other = repository::nfp_sliding::recover_contact(&a, &moved, point, tolerance);
        let group = usize::from(b.len() > 3);
        all[group] += usize::from(one.is_some());
        differing[group] += usize::from(one != other);
    }
    println!("recoveries of triangles, of others: {all:?}, of these {differing:?} differ");
}

/// Whether squares that touch, or have a gap, count as overlapping.
fn overlap() {
    let s = points_of(&square(4.0));
    for gap in [0.0, 0.5e-6, 1e-6, 2e-6] {
        let other = points_of(&placed(&square(2.0), 1.0, 4.0 + gap, 0.0));
        let overlaps = sliding::polygons_overlap(&s, &other);
        println!("polygons_overlap with a gap of {gap:e}: {overlaps}");
    }
}

/// Whether a concave corner qualifies: an L with a right angle, the same corner
/// opened, and an orbiting triangle that is small.
fn interlocking() {
    let right = vec![(0.0, 0.0), (4.0, 0.0), (4.0, 2.0), (2.0, 2.0), (2.0, 4.0), (0.0, 4.0)];
    let open = vec![(0.0, 0.0), (4.0, 0.0), (4.0, 2.0), (2.0, 2.0), (1.0, 4.0), (0.0, 4.0)];
    let small = vec![(0.0, 0.0), (0.5, 0.0), (0.0, 0.5)];
    for (name, shape) in [("right", right), ("open", open)] {
        for place in [(9.0, 9.0), (2.0, 2.0), (-3.0, 1.0)] {
            let found = sliding::detect_interlocking_opportunity(&shape, &small, place, 1e-6);
            println!("interlocking, {name} corner, at {place:?}: {found:?}");
        }
    }
}

/// A trace that stops for want of contact: the start's rounding leaves the two
/// vertices apart by exactly the tolerance.
fn lost_contact() {
    let stationary = [(0.7, 0.0), (1.0, 1.0), (0.95, 1.0)];
    let orbiting = [(1e6, 0.0), (999_999.0, -1.0), (999_999.5, -1.0)];
    let gap: f64 = 0.7 - (1e6 + (0.7 - 1e6));
    for tolerance in [gap.next_down(), gap, gap.next_up()] {
        let config = SlidingNfpConfig { contact_tolerance: tolerance, ..Default::default() };
        let trace = run(&stationary, &orbiting, &config).0;
        let (stop, passes) = (trace.stop, trace.passes);
        println!("{stationary:?}, {orbiting:?}, {tolerance:e}: reason {stop}, {passes} passes");
    }
}

/// Traces that stop for want of contact on whole coordinates: how many of small
/// seeded polygons are refused and how many succeed, with a smallest of either.
fn steps_to_interlock() {
    let seeded = &mut Seeded::new(11);
    let mut found = [Smallest::default(), Smallest::default()];
    for _ in 0..200_000 {
        let mut ring = |least: usize, more: usize| -> Vec<Point> {
            let n = least + seeded.below(more);
            (0..n).map(|_| (seeded.whole(2), seeded.whole(2))).collect()
        };
        let (a, b) = (ring(4, 2), ring(3, 2));
        let config = SlidingNfpConfig {
            contact_tolerance: seeded.pick(&[0.25, 0.5, 1.0]),
            min_translation: 0.0,
            max_iterations: 40,
        };
        let Trace { path, passes, stop } = run(&a, &b, &config).0;
        if stop == 1 {
            let tolerance = config.contact_tolerance;
            let told = format!("tolerance {tolerance}, {passes} passes, {path:?}");
            found[usize::from(path.len() > 2)].meet(&a, &b, &path, told);
        }
    }
    for (end, Smallest { met, text, .. }) in ["refused", "succeed"].iter().zip(&found) {
        println!("200000 pairs of small rings: reason 1 and {end}: {met}, as {text}");
    }
}

/// Whether a ring has all its corners to the left, none in line, and goes round
/// once.
fn convex(ring: &[Point]) -> bool {
    let n = ring.len();
    let left = |i: usize| {
        let turn = orient2d_filtered(ring[i], ring[(i + 1) % n], ring[(i + 2) % n]);
        !turn.is_cw() && !turn.is_collinear()
    };
    (0..n).all(left) && is_simple_polygon(ring)
}

/// How deep convex rings lie in each other: the least overlap along the normals
/// of their edges, negative if they are apart.
fn depth(a: &[Point], b: &[Point]) -> f64 {
    let mut least = f64::INFINITY;
    for ring in [a, b] {
        for (i, p) in ring.iter().enumerate() {
            let q = ring[(i + 1) % ring.len()];
            let length = (q.0 - p.0).hypot(q.1 - p.1);
            let axis = ((p.1 - q.1) / length, (q.0 - p.0) / length);
            let [x, y] = [a, b].map(|ring| sliding::project_polygon_on_axis(ring, axis));
            least = least.min(x.1 - y.0).min(y.1 - x.0);
        }
    }
    least
}

/// The greatest depth at a point of the path.
fn deepest(a: &[Point], b: &[Point], path: &[Point]) -> f64 {
    let moved = |at: &Point| b.iter().map(|p| (p.0 + at.0, p.1 + at.1)).collect::<Vec<_>>();
    path.iter().map(|at| depth(a, &moved(at))).fold(f64::NEG_INFINITY, f64::max)
}

/// How many traces of convex triangles have a point at which these lie in each
/// other by more than a hundredth, by reason, with a smallest that closes.
fn through() {
    let seeded = &mut Seeded::new(13);
    let (mut all, mut deep, mut closing) = ([0; 6], [0; 6], Smallest::default());
    for _ in 0..40_000 {
        let mut triangle = || [0; 3].map(|_| (seeded.whole(4), seeded.whole(4)));
        let [a, b] = [triangle(), triangle()];
        if !convex(&a) || !convex(&b) {
            continue;
        }
        let Trace { path, stop, .. } = run(&a, &b, &passes(100)).0;
        all[stop as usize] += 1;
        if deepest(&a, &b, &path) > 0.01 {
            deep[stop as usize] += 1;
            if stop == 4 {
                let depths: Vec<f64> = path.iter().map(|at| deepest(&a, &b, &[*at])).collect();
                closing.meet(&a, &b, &path, format!("path {path:?}, depths {depths:?}"));
            }
        }
    }
    println!("convex triangles, 100 passes: reasons 1 to 5 {:?}", &all[1..]);
    println!("  of these lead through the stationary one: {:?}", &deep[1..]);
    println!("  as {}", closing.text);
}

/// How many of the answers for simple shapes with an area cross or touch
/// themselves, by reason, with a smallest.
fn crossed() {
    let plain = |shape: &Vec<Point>| is_simple_polygon(shape) && areas(shape)[0] != 0.0;
    let shapes: Vec<_> = whole_shapes().iter().map(|shape| points_of(shape)).collect();
    let simple: Vec<_> = shapes.into_iter().filter(plain).collect();
    let (mut all, mut met, mut found) = ([0; 6], [0; 6], Smallest::default());
    for a in &simple {
        for b in &simple {
            let Ok(nfp) = sliding::compute_nfp_sliding(a, b, &passes(500), 501) else { continue };
            let stop = nfp.trace.stop as usize;
            all[stop] += 1;
            if !is_simple_polygon(&nfp.polygon) {
                met[stop] += 1;
                found.meet(a, b, &nfp.polygon, format!("{:?}", nfp.polygon));
            }
        }
    }
    println!("answers for {} simple shapes, 500 passes: {:?}", simple.len(), &all[1..]);
    println!("  of these are not simple themselves: {:?}, as {}", &met[1..], found.text);
}

/// Segments whose meeting depends on the way one of them runs: tenths, the
/// second segment beginning on the first, up to rounding.
fn turned_round() {
    let seeded = &mut Seeded::new(7);
    let meet = fixed::polygon_ops::segments_intersect;
    for size in [10, 100, 1000, 10_000, 100_000] {
        for _ in 0..20_000 {
            let mut tenths = || seeded.whole(size);
            let [x, y, dx, dy] = [tenths(), tenths(), tenths(), tenths()];
            let on = |k: f64| ((x + k * dx) / 10.0, (y + k * dy) / 10.0);
            let [a, b, c, d] = [on(0.0), on(3.0), on(1.0), (tenths() / 10.0, tenths() / 10.0)];
            if meet(a, b, c, d) != meet(b, a, c, d) {
                println!("{a:?}-{b:?} and {c:?}-{d:?} meet: {}", meet(a, b, c, d));
                println!("{b:?}-{a:?} and {c:?}-{d:?} meet: {}", meet(b, a, c, d));
                return;
            }
        }
    }
}
