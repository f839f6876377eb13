//! What the exact answer to whole moves tells of the rule: how many moves from contact
//! outside, and how many closed traces, lead through though the rule finds nothing, and
//! how many are clear though it finds a hit.

use oracle::calls::{check_translation_collision, compute_nfp_sliding, find_contacts, Traced};
use oracle::clear::clear_path;
use oracle::clear::exact::{is_clear, is_convex};
use oracle::refusals::Settings;
use oracle::seeded::Seeded;
use oracle::whole::{is_simple_polygon, signed_area2};

/// The usual settings, with the pass limit of these traces.
const SETTINGS: Settings =
    Settings { contact_tolerance: 1e-6, min_translation: 1e-8, max_iterations: 200 };

/// The numbers as floats.
fn floats(list: &[i32]) -> Vec<f64> {
    list.iter().map(|&x| f64::from(x)).collect()
}

/// The list with each point moved by this much.
fn placed(list: &[i32], by: (i32, i32)) -> Vec<i32> {
    list.chunks_exact(2).flat_map(|p| [p[0] + by.0, p[1] + by.1]).collect()
}

/// Points of this size, so many.
fn points(seeded: &mut Seeded, n: usize, size: usize) -> Vec<i32> {
    (0..2 * n).map(|_| seeded.whole(size) as i32).collect()
}

/// A simple polygon of 3 to 6 corners with coordinates up to 4, and a convex one of 3 or
/// 4 with coordinates up to 3.
fn pair(seeded: &mut Seeded) -> [Vec<i32>; 2] {
    let stationary = loop {
        let corners = 3 + seeded.below(4);
        let ring = points(seeded, corners, 4);
        if is_simple_polygon(&ring) == Ok(true) && signed_area2(&ring) != Ok(0) {
            break ring;
        }
    };
    let orbiting = loop {
        let corners = 3 + seeded.below(2);
        let ring = points(seeded, corners, 3);
        if is_convex(&ring) {
            break ring;
        }
    };
    [stationary, orbiting]
}

/// Whether the polygons touch, and nothing of one lies inside the other.
fn touch_outside(a: &[i32], b: &[i32]) -> bool {
    let (mut which, mut at) = ([0; 4 * 96], [0.0; 2 * 96]);
    let tolerance = SETTINGS.contact_tolerance;
    let contacts = find_contacts(&floats(a), &floats(b), tolerance, &mut which, &mut at);
    contacts.is_ok_and(|count| count > 0) && is_clear(a, b, (0, 0)) == Some(true)
}

/// How many were met of one kind, and the smallest, by corners and then by the sizes of
/// numbers.
#[derive(Default)]
struct Met {
    count: usize,
    smallest: Option<((usize, i32), String)>,
}

impl Met {
    /// Counts the lists, and keeps what is told of them if they are the smallest.
    fn add(&mut self, lists: [&[i32]; 3], told: impl Fn() -> String) {
        self.count += 1;
        let sum = lists.concat().iter().map(|x| x.abs()).sum();
        let size = (lists.concat().len(), sum);
        if self.smallest.as_ref().is_none_or(|(least, _)| size < *least) {
            self.smallest = Some((size, told()));
        }
    }

    /// Prints the smallest.
    fn print(&self) {
        self.smallest.iter().for_each(|(_, text)| println!("    smallest: {text}"));
    }
}

/// Of so many seeded moves from contact outside, what the rule says and what is so.
fn moves(count: usize) {
    let seeded = &mut Seeded::new(25);
    // By the rule, nothing or a hit, and by the exact answer, clear or not.
    let mut met: [[Met; 2]; 2] = Default::default();
    while met.as_flattened().iter().map(|met| met.count).sum::<usize>() < count {
        let [a, drawn] = pair(seeded);
        let at = points(seeded, 1, 7);
        let b = placed(&drawn, (at[0], at[1]));
        if !touch_outside(&a, &b) {
            continue;
        }
        let by = points(seeded, 1, 4);
        let by = if by == [0, 0] { (1, 0) } else { (by[0], by[1]) };
        let along = (f64::from(by.0), f64::from(by.1));
        let tolerance = SETTINGS.contact_tolerance;
        let hit = check_translation_collision(&floats(&a), &floats(&b), along, tolerance);
        let clear = is_clear(&a, &b, by).expect("the polygon has an area");
        let hit = hit.expect("two polygons");
        let told = || format!("{a:?}, {b:?} by {by:?}: {hit:?}");
        met[usize::from(hit.is_some())][usize::from(!clear)].add([&a, &b, &[by.0, by.1]], told);
    }
    let [[free, through], [clear, blocked]] = met;
    println!("{count} whole moves from contact outside:");
    let nothing = free.count + through.count;
    println!("  the rule says nothing: {nothing}, of which {} lead through", through.count);
    through.print();
    let hits = clear.count + blocked.count;
    println!("  the rule says hit: {hits}, of which {} are clear", clear.count);
    clear.print();
}

/// The simplified path of the pair's trace if it closes.
fn closed(a: &[i32], b: &[i32]) -> Option<Vec<f64>> {
    let room = 2 * (SETTINGS.max_iterations as usize + 1);
    let (mut work, mut result) = (vec![0.0; room], vec![0.0; room]);
    match compute_nfp_sliding(&floats(a), &floats(b), &SETTINGS, &mut work, &mut result) {
        Traced::Done { points, stop: 4, .. } => Some(result[..2 * points as usize].to_vec()),
        _ => None,
    }
}

/// The numbers as whole ones, if they are.
fn whole(list: &[f64]) -> Option<Vec<i32>> {
    let all = list.iter().all(|x| x.fract() == 0.0);
    all.then(|| list.iter().map(|&x| x as i32).collect())
}

/// The first leg of the path that leads through, if one does.
fn leads_through(a: &[i32], b: &[i32], path: &[i32]) -> Option<usize> {
    let points: Vec<(i32, i32)> = path.chunks_exact(2).map(|p| (p[0], p[1])).collect();
    let clear = |i: usize| {
        let (from, to) = (points[i], points[(i + 1) % points.len()]);
        is_clear(a, &placed(b, from), (to.0 - from.0, to.1 - from.1)) == Some(true)
    };
    let through = (0..points.len()).find(|&i| !clear(i));
    assert_eq!(clear_path(a, b, path).map(|first| first.map(|(leg, _)| leg)), Ok(through));
    through
}

/// The traces of pairs, and the smallest that leads through.
#[derive(Default)]
struct Traces {
    closed: usize,
    whole: usize,
    through: Met,
}

impl Traces {
    /// Traces a pair and counts it.
    fn add(&mut self, a: &[i32], b: &[i32]) {
        let Some(path) = closed(a, b) else { return };
        self.closed += 1;
        let Some(path) = whole(&path) else { return };
        self.whole += 1;
        let Some(leg) = leads_through(a, b, &path) else { return };
        self.through.add([a, b, &[]], || format!("{a:?}, {b:?}: {path:?}, leg {leg}"));
    }

    /// Prints what was counted.
    fn print(&self, name: &str, tried: usize) {
        let Self { closed, whole, through } = self;
        println!(
            "traces of {tried} pairs, {name}: {closed} close, {whole} of them at whole points"
        );
        println!("  of these {} lead through", through.count);
        through.print();
    }
}

/// Rectangles with their lowest corner at the origin, of sides up to this.
fn rectangles(most: i32) -> impl Iterator<Item = Vec<i32>> + Clone {
    let sides = (1..=most).flat_map(move |w| (1..=most).map(move |h| (w, h)));
    sides.map(|(w, h)| vec![0, 0, w, 0, w, h, 0, h])
}

/// Prints all counts.
pub fn print() {
    moves(40_000);
    let (mut traces, seeded) = (Traces::default(), &mut Seeded::new(26));
    for _ in 0..20_000 {
        let [a, b] = pair(seeded);
        traces.add(&a, &b);
    }
    traces.print("seeded", 20_000);
    let mut traces = Traces::default();
    for a in rectangles(4) {
        rectangles(4).for_each(|b| traces.add(&a, &b));
    }
    traces.print("rectangles of sides 1 to 4", 256);
}
