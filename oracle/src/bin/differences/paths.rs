//! How many of the trace's own paths the check of a path accepts, what is wrong with
//! the others, and the smallest of them.

use crate::inputs;
use oracle::answers::Point;
use oracle::calls::Traced;
use oracle::calls::{check_translation_collision, compute_nfp_sliding, points_of, signed_area2};
use oracle::fixed::nfp_sliding::point_to_segment_distance;
use oracle::fixed::polygon_ops::is_simple_polygon;
use oracle::path::{check_path, Fault};
use oracle::refusals::Settings;
use oracle::seeded::Seeded;
use oracle::shapes::{disc, placed, reversed, whole_shapes};

/// What a path of ours comes to, by its place in a count.
const KINDS: [&str; 5] =
    ["of under three points", "accepted", "no contact at a point", "a leg", "the last leg"];

/// Two polygons, as lists of numbers.
type Pair = [Vec<f64>; 2];

/// The default settings with this pass limit.
fn limited(max_iterations: u64) -> Settings {
    Settings { contact_tolerance: 1e-6, min_translation: 1e-8, max_iterations }
}

/// The ring counter-clockwise, as the trace takes it.
fn turned(ring: Vec<f64>) -> Vec<f64> {
    if signed_area2(&ring).is_ok_and(|area| area < 0.0) {
        reversed(&ring)
    } else {
        ring
    }
}

/// The ring as a list of numbers.
fn flat(ring: &[Point]) -> Vec<f64> {
    ring.iter().flat_map(|p| [p.0, p.1]).collect()
}

/// The first fault of the pair's own path; nothing where that has under three points.
fn judged([a, b]: &Pair, settings: &Settings, path: &[Point]) -> Option<Option<Fault>> {
    let short = path.len() < 3;
    (!short).then(|| check_path(a, b, settings, &flat(path)).expect("all is within its bounds"))
}

/// The place of a verdict in a count.
fn kind(verdict: Option<Option<Fault>>, points: usize) -> usize {
    match verdict {
        None => 0,
        Some(None) => 1,
        Some(Some(Fault::Point(_))) => 2,
        Some(Some(Fault::Leg(i))) if i + 1 < points => 3,
        Some(Some(Fault::Leg(_))) => 4,
    }
}

/// The least distance of a vertex of one polygon to an edge of the other.
fn gap(a: &[Point], moved: &[Point]) -> f64 {
    let one_way = |ring: &[Point], other: &[Point]| {
        let edges = (0..other.len()).map(|i| (other[i], other[(i + 1) % other.len()]));
        let of = |&p: &Point| {
            edges.clone().map(move |(from, to)| point_to_segment_distance(p, from, to))
        };
        ring.iter().flat_map(of).fold(f64::INFINITY, f64::min)
    };
    one_way(a, moved).min(one_way(moved, a))
}

/// Why the path has this fault.
fn reason([a, b]: &Pair, settings: &Settings, path: &[Point], fault: Fault) -> String {
    let (Fault::Point(i) | Fault::Leg(i)) = fault;
    let (from, to) = (path[i], path[(i + 1) % path.len()]);
    let moved = placed(b, 1.0, from.0, from.1);
    if matches!(fault, Fault::Point(_)) {
        let gap = gap(&points_of(a), &points_of(&moved));
        return format!("{fault:?}: at {from:?} the gap is {gap:?}");
    }
    let by = (to.0 - from.0, to.1 - from.1);
    let hit = check_translation_collision(a, &moved, by, settings.contact_tolerance);
    format!("{fault:?}: from {from:?} by {by:?} there is {:?}", hit.expect("two polygons"))
}

/// What was met of one kind: how many, and the smallest with whole coordinates, by
/// vertices, then by the sizes of numbers, then by the points of the path.
#[derive(Default)]
struct Met {
    count: usize,
    smallest: Option<((usize, f64, usize), String)>,
}

impl Met {
    /// Counts the pair, and keeps what is told of it if it is the smallest.
    fn add(&mut self, pair: &Pair, points: usize, told: impl Fn() -> String) {
        self.count += 1;
        let all = || pair.iter().flatten();
        let size = (all().count(), all().map(|x| x.abs()).sum(), points);
        let smaller = self.smallest.as_ref().is_none_or(|(least, _)| size < *least);
        if smaller && all().all(|x| x.fract() == 0.0) {
            self.smallest = Some((size, told()));
        }
    }
}

/// The path of the pair's trace, none where that is refused, and whether it closes.
fn traced([a, b]: &Pair, settings: &Settings) -> (Vec<Point>, bool) {
    let room = 2 * (settings.max_iterations as usize + 1);
    let (mut work, mut result) = (vec![0.0; room], vec![0.0; room]);
    match compute_nfp_sliding(a, b, settings, &mut work, &mut result) {
        Traced::Done { stored, stop, .. } => (points_of(&work[..2 * stored as usize]), stop == 4),
        _ => (Vec::new(), false),
    }
}

/// Judges the paths of these pairs, and prints what they come to: first those that
/// close, then the others.
fn report(name: &str, pairs: Vec<Pair>, passes: u64) {
    let settings = limited(passes);
    let mut met: [[Met; 2]; KINDS.len()] = Default::default();
    let tried = pairs.len();
    for pair in pairs {
        let (path, closes) = traced(&pair, &settings);
        let verdict = judged(&pair, &settings, &path);
        let told = || {
            let why = verdict.flatten().map(|fault| reason(&pair, &settings, &path, fault));
            format!("{pair:?}: {:?} .. {}", &path[..path.len().min(12)], why.unwrap_or_default())
        };
        met[kind(verdict, path.len())][usize::from(!closes)].add(&pair, path.len(), told);
    }
    println!("own paths of {tried} pairs, {name}, {passes} passes: closed, others");
    for (what, met) in KINDS.iter().zip(met) {
        println!("  {what}: {}, {}", met[0].count, met[1].count);
        met.iter().flat_map(|m| &m.smallest).for_each(|(_, text)| println!("    {text}"));
    }
}

/// Counter-clockwise triangles with corners of these numbers.
fn triangles(numbers: &[f64]) -> Vec<Vec<f64>> {
    let rings = inputs::all_rings(3, numbers).into_iter().map(|ring| flat(&ring));
    rings.filter(|ring| signed_area2(ring).is_ok_and(|area| area > 0.0)).collect()
}

/// Every two of these.
fn pairs(of: &[Vec<f64>], with: &[Vec<f64>]) -> Vec<Pair> {
    of.iter().flat_map(|a| with.iter().map(|b| [a.clone(), b.clone()])).collect()
}

/// So many seeded pairs of simple polygons of 3 to 6 vertices with these numbers.
fn seeded(count: usize, number: fn(&mut Seeded) -> f64) -> Vec<Pair> {
    let seeded = &mut Seeded::new(19);
    let mut polygon = || loop {
        let n = 3 + seeded.below(4);
        let ring: Vec<f64> = (0..2 * n).map(|_| number(seeded)).collect();
        if is_simple_polygon(&points_of(&ring)) {
            return turned(ring);
        }
    };
    (0..count).map(|_| [polygon(), polygon()]).collect()
}

/// How often the first fault is another with one of two triangles turned round: seeded
/// ones, and three seeded points.
fn windings(count: usize) {
    let seeded = &mut Seeded::new(5);
    let mut differ = 0;
    for _ in 0..count {
        let mut triangle = || -> Vec<f64> { (0..6).map(|_| seeded.whole(3)).collect() };
        let [a, b] = [triangle(), triangle()];
        let contact_tolerance = seeded.pick(&[0.1, 0.25, 0.3, 0.5, 1.0, 1e-6]);
        let settings = Settings { contact_tolerance, ..limited(0) };
        let number = |_| seeded.whole(4) * seeded.pick(&[1.0, 0.5, 0.1]);
        let path: Vec<f64> = (0..6).map(number).collect();
        let told = |a: &[f64], b: &[f64]| check_path(a, b, &settings, &path);
        let own = told(&a, &b);
        differ += usize::from(own != told(&reversed(&a), &b) || own != told(&a, &reversed(&b)));
    }
    println!("{count} paths of three points: {differ} have another fault with a winding turned");
}

/// Prints all counts.
pub fn print() {
    windings(400_000);
    let (small, large) = (triangles(&[0.0, 1.0]), triangles(&[0.0, 1.0, 2.0]));
    report("triangles of a 2 by 2 grid", pairs(&small, &small), 60);
    report("triangles of a 3 by 3 and a 2 by 2 grid", pairs(&large, &small), 60);
    let shapes: Vec<_> = whole_shapes().into_iter().map(turned).collect();
    report("whole-coordinate shapes", pairs(&shapes, &shapes), 2_000);
    report("seeded, whole coordinates up to 4", seeded(20_000, |seeded| seeded.whole(4)), 200);
    report("seeded, fractions up to 4", seeded(20_000, |seeded| seeded.spread(4.0)), 200);
    let discs = [4, 8, 16, 32].map(|n| [disc(n, 10.0), disc(n, 4.0), disc(n, 1.0)]).concat();
    report("discs of 4 to 32 vertices", pairs(&discs, &discs), 2_000);
}
