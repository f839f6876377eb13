//! What is said of two drawings.

use crate::answers::same::{distance, Pair, Sameness, Unlike};
use crate::plain;
use crate::told::Line;

/// How many pairs of corners that differ are told.
const PAIRS: usize = 8;

/// Whether two drawings are the same, and what they differ in.
pub fn told(same: &Sameness) -> Vec<Line> {
    let mut lines = vec![Line::plain(if same.is_well() { "the same" } else { "not the same" })];
    for (at, pair) in same.pairs.iter().enumerate() {
        lines.extend(pair_told(at, pair, &same.names));
    }
    let [has, other] = same.counts;
    let longer = &same.names[usize::from(has < other)];
    for (at, corners) in same.alone.iter().enumerate() {
        let (at, corners) = (at + same.pairs.len(), plain::corners(*corners));
        lines.push(Line::plain(format!("ring {at} is in {longer} alone: {corners}")));
    }
    if has != other {
        let [has, other] = same.counts.map(|n| plain::count(n, "ring", "rings"));
        let [a, b] = &same.names;
        lines.push(Line::plain(format!("{a} has {has}, {b} has {other}")));
    }
    lines
}

/// What two rings of one place differ in.
fn pair_told(at: usize, pair: &Pair, names: &[String; 2]) -> Vec<Line> {
    if pair.is_same() {
        let corners = plain::corners(pair.corners);
        return vec![Line::plain(format!("ring {at} is the same: {corners}"))];
    }
    let mut differences = Vec::new();
    if let Some([a, b]) = pair.parts {
        differences.push(format!("part {a} and part {b}"));
    }
    let (outlines, corners) = pair.outlines.as_ref().map_or((None, Vec::new()), |unlike| {
        let (words, corners) = unlike_told(unlike, pair.at, names);
        (Some(words), corners)
    });
    differences.extend(outlines);
    if pair.mirrored {
        differences.push("mirrored: the mirror of one about x = 0 is the other".into());
    }
    let first = Line::plain(format!("ring {at} differs: {}", differences.join("; ")));
    [first].into_iter().chain(corners.into_iter().map(Line::detail)).collect()
}

/// How two outlines differ, and which corners do.
fn unlike_told(unlike: &Unlike, at: [usize; 2], names: &[String; 2]) -> (String, Vec<String>) {
    let corner = |which: usize, (corner, point): (usize, _)| {
        let ring = match at[which] {
            0 => String::new(),
            ring => format!("ring {ring} of "),
        };
        format!("corner {corner} of {ring}{}, {}", names[which], plain::point(point))
    };
    match unlike {
        Unlike::Counts([a, b], lone) => {
            let told = |(which, lone): (usize, &Option<_>)| {
                let lone = (*lone)?;
                Some(format!("{}, is no corner of the other", corner(which, lone)))
            };
            let lone = lone.iter().enumerate().filter_map(told).collect();
            (format!("{} and {b}", plain::corners(*a)), lone)
        }
        Unlike::Corners(all, pairs) => {
            let far = pairs.iter().map(|[(_, a), (_, b)]| distance(*a, *b)).fold(0.0, f64::max);
            let told = |[a, b]: &[_; 2]| format!("{}, and {}", corner(0, *a), corner(1, *b));
            let more = (pairs.len() > PAIRS).then(|| format!("and {} more", pairs.len() - PAIRS));
            let (count, far) = (plain::corners(pairs.len()), plain::size(far));
            let verb = if pairs.len() == 1 { "differs" } else { "differ" };
            let words = format!("{count} of {all} {verb}, at most by about {far}");
            (words, pairs.iter().take(PAIRS).map(told).chain(more).collect())
        }
    }
}
