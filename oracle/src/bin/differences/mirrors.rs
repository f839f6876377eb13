//! What mirroring leaves as it was, and what it does not: the smallest inputs met.

use crate::inputs;
use oracle::answers::{Error, Point, Trace};
use oracle::book::write_book;
use oracle::calls::points_of;
use oracle::fixed::nfp_sliding::{self as sliding, SlidingNfpConfig};
use oracle::fixed::polygon_ops::{
    is_simple_polygon, mirror_polygon, segments_intersect, signed_area2,
};
use oracle::seeded::Seeded;
use oracle::shapes::seeded_ring;

/// Passes that a trace may take here.
const PASSES: usize = 60;

/// Prints all findings.
pub fn print() {
    segments();
    areas();
    traces();
}

/// The point with its x negated.
fn across(p: &Point) -> Point {
    (-p.0, p.1)
}

/// Rings with every x negated, the order kept.
fn negated(ring: &[Point]) -> Vec<Point> {
    ring.iter().map(across).collect()
}

/// Small rings, and so many seeded ones.
fn rings(count: usize) -> Vec<Vec<Point>> {
    let mut found: Vec<_> = (0..=4).flat_map(inputs::small_rings).collect();
    let seeded = &mut Seeded::new(17);
    for _ in 0..count {
        let n = 3 + seeded.below(10);
        found.push(points_of(&seeded_ring(seeded, n)));
    }
    found
}

/// `segments_intersect` of the first four vertices, mirrored.
fn segments() {
    let meet = |r: &[Point]| segments_intersect(r[0], r[1], r[2], r[3]);
    let four: Vec<_> = rings(100_000).into_iter().filter(|ring| ring.len() >= 4).collect();
    let differ = four.iter().filter(|ring| meet(ring) != meet(&negated(ring))).count();
    println!("segments_intersect, mirrored: {} tried, {differ} differ", four.len());
}

/// `signed_area2` of a ring with x negated, and of a mirrored ring.
fn areas() {
    let all = rings(100_000);
    let turned = |ring: &&Vec<Point>| signed_area2(ring) != -signed_area2(&negated(ring));
    println!(
        "signed_area2, x negated: {} tried, {} differ",
        all.len(),
        all.iter().filter(turned).count()
    );
    let other = |ring: &[Point]| {
        signed_area2(ring).to_bits() != signed_area2(&mirror_polygon(ring)).to_bits()
    };
    let whole = |ring: &[Point]| ring.iter().all(|p| p.0.fract() == 0.0 && p.1.fract() == 0.0);
    let (mut tried, mut differing, mut among) = ([0; 13], [0; 13], 0);
    for ring in &all {
        tried[ring.len()] += 1;
        if other(ring) {
            differing[ring.len()] += 1;
            among += usize::from(whole(ring));
        }
    }
    println!("signed_area2, mirrored: {tried:?} tried by vertices, {differing:?} differ");
    println!("  of these {among} have whole coordinates");
    let size = |ring: &Vec<Point>| ring.iter().map(|p| p.0 + p.1).sum::<f64>();
    let tenths = inputs::all_rings(4, &[0.0, 0.1, 0.2, 0.3]);
    let smallest = tenths.iter().filter(|ring| other(ring) && is_simple_polygon(ring));
    if let Some(ring) = smallest.min_by(|a, b| size(a).total_cmp(&size(b))) {
        let [one, other] = [signed_area2(ring), signed_area2(&mirror_polygon(ring))];
        println!("  {ring:?}: {one}, mirrored {other}");
    }
}

/// A trace of at most so many passes, and the points of its answer.
fn run(a: &[Point], b: &[Point], max_iterations: usize) -> (Trace, Vec<Point>) {
    let config = SlidingNfpConfig { max_iterations, ..Default::default() };
    match sliding::compute_nfp_sliding(a, b, &config, max_iterations + 1) {
        Ok(nfp) => (nfp.trace, nfp.polygon),
        Err(Error::Short(trace) | Error::Full(trace)) => (trace, Vec::new()),
        Err(Error::InvalidGeometry(message)) => unreachable!("{message}"),
    }
}

/// The book of a ring, nothing if it has none.
fn book(ring: &[Point]) -> Option<Vec<u8>> {
    let numbers: Vec<f64> = ring.iter().flat_map(|p| [p.0, p.1]).collect();
    let mut room = vec![0; 5000];
    let n = write_book(&numbers, &[ring.len() as u32], &[0], &mut room).ok()?;
    room.truncate(n);
    Some(room)
}

/// Whether three points turn counter-clockwise.
fn turns(t: &[Point]) -> bool {
    (t[1].0 - t[0].0) * (t[2].1 - t[0].1) - (t[1].1 - t[0].1) * (t[2].0 - t[0].0) > 0.0
}

/// What of a mirrored pair's trace is not that of the pair, mirrored: the path point by
/// point, the passes and the reason, and, where both close, the outline of the answer;
/// last, whether both close with one outline.
fn changes(a: &[Point], b: &[Point]) -> [bool; 4] {
    let (one, points) = run(a, b, PASSES);
    let (other, mirrored) = run(&mirror_polygon(a), &mirror_polygon(b), PASSES);
    let close = one.stop == 4 && other.stop == 4;
    let alike = book(&points) == book(&mirror_polygon(&mirrored));
    let path = one.path != mirror_polygon(&other.path);
    [path, (one.passes, one.stop) != (other.passes, other.stop), close && !alike, close && alike]
}

/// How many pairs were met, and the one with the smallest numbers.
#[derive(Default)]
struct Met {
    count: usize,
    smallest: Option<(f64, [Vec<Point>; 2])>,
}

impl Met {
    /// Counts the pair.
    fn add(&mut self, a: &[Point], b: &[Point]) {
        let size = a.iter().chain(b).map(|p| p.0.abs() + p.1.abs()).sum();
        self.count += 1;
        if self.smallest.as_ref().is_none_or(|(least, _)| size < *least) {
            self.smallest = Some((size, [a.to_vec(), b.to_vec()]));
        }
    }
}

/// The trace of a mirrored pair beside the mirrored trace: counter-clockwise triangles
/// with corners on small grids.
fn traces() {
    let triangles = |numbers: &[f64]| -> Vec<Vec<Point>> {
        inputs::all_rings(3, numbers).into_iter().filter(|t| turns(t)).collect()
    };
    let (stationary, orbiting) = (triangles(&[0.0, 1.0, 2.0]), triangles(&[0.0, 1.0]));
    let mut met: [Met; 4] = Default::default();
    for a in &stationary {
        for b in &orbiting {
            for (place, changed) in changes(a, b).into_iter().enumerate() {
                if changed {
                    met[place].add(a, b);
                }
            }
        }
    }
    let pairs = stationary.len() * orbiting.len();
    println!("traces, mirrored: {pairs} pairs of triangles, {PASSES} passes");
    let told = ["other points", "another end", "another closed outline", "one closed outline"];
    for (what, Met { count, smallest }) in told.iter().zip(met) {
        println!("  {count} have {what}");
        let Some((_, [a, b])) = smallest else { continue };
        println!("    {a:?}, {b:?}: {:?}", run(&a, &b, PASSES).0);
        println!("    mirrored: {:?}", run(&mirror_polygon(&a), &mirror_polygon(&b), PASSES).0);
    }
}
