//! Pictures of a whole move, as SVG: a disc slides 31 mm along a carrier's edge to its
//! neighbour, with the lines that part the way from both; and the same slide with an
//! outline in between, with the edge that is told. All numbers are micrometres, and no
//! colour is needed to read them.

use crate::clear::exact::hull;
use crate::clear::{clear_move, Ground};
use crate::clear_move::{disc_at, TAB};
use crate::stored::Files;
use crate::whole::Spot;
use std::collections::BTreeSet;

/// The move.
const BY: Spot = (31_000, 0);

/// What is shown: the least x and y, the width and the height.
const VIEW: [i32; 4] = [-22_000, -12_000, 112_000, 56_000];

/// A point in the picture, whose heights grow downwards.
fn shown(x: i32, y: i32) -> String {
    format!("{x},{}", -y)
}

/// The disc's corners, in whole numbers.
fn disc(x: i32, y: i32) -> Vec<i32> {
    disc_at(f64::from(x), f64::from(y)).iter().map(|&x| x as i32).collect()
}

/// The ring as a polygon of this class.
fn ring(corners: &[i32], class: &str) -> String {
    let points: Vec<String> = corners.chunks_exact(2).map(|p| shown(p[0], p[1])).collect();
    format!("<polygon class=\"{class}\" points=\"{}\"/>\n", points.join(" "))
}

/// A segment of this class.
fn segment(a: Spot, b: Spot, class: &str) -> String {
    let path = format!("M{} L{}", shown(a.0, a.1), shown(b.0, b.1));
    format!("<path class=\"{class}\" d=\"{path}\"/>\n")
}

/// Words that begin here.
fn words((x, y): Spot, text: &str) -> String {
    format!("<text x=\"{x}\" y=\"{}\">{text}</text>\n", -y)
}

/// The corners of the ring moved by this much.
fn moved(corners: &[i32], by: Spot) -> Vec<i32> {
    corners.chunks_exact(2).flat_map(|p| [p[0] + by.0, p[1] + by.1]).collect()
}

/// The line through these points, as far as the picture goes.
fn line(n: &[i32]) -> String {
    let [x, y, width, height] = VIEW.map(f64::from);
    let [px, py, qx, qy] = [n[0], n[1], n[2], n[3]].map(f64::from);
    // Where the line comes to the frame's sides, counted from p in steps to q.
    let (mut first, mut last) = (f64::NEG_INFINITY, f64::INFINITY);
    for (from, step, low, size) in [(px, qx - px, x, width), (py, qy - py, y, height)] {
        if step != 0.0 {
            let [a, b] = [(low - from) / step, (low + size - from) / step];
            (first, last) = (first.max(a.min(b)), last.min(a.max(b)));
        }
    }
    let end = |t: f64| ((px + t * (qx - px)).round() as i32, (py + t * (qy - py)).round() as i32);
    segment(end(first), end(last), "line")
}

/// The lines of the reason that parts the way from this ring, no two alike.
fn lines(stationary: &[i32], orbiting: &[i32]) -> String {
    let mut reason = vec![0; 2 * stationary.len()];
    let ground = clear_move(stationary, orbiting, BY, &mut reason);
    assert_eq!(ground, Ok(Ground::Clear));
    let all: BTreeSet<String> = reason.chunks_exact(4).map(line).collect();
    all.into_iter().collect()
}

/// The edge of this ring that is told.
fn told(stationary: &[i32], orbiting: &[i32]) -> usize {
    match clear_move(stationary, orbiting, BY, &mut []) {
        Ok(Ground::Edge(edge)) => edge,
        other => panic!("{other:?}"),
    }
}

/// What the orbiting disc takes up: at the start, at the end and in between.
fn way(start: &[i32]) -> String {
    let end = moved(start, BY);
    let places = |list: &[i32]| -> Vec<(i64, i64)> {
        list.chunks_exact(2).map(|p| (i64::from(p[0]), i64::from(p[1]))).collect()
    };
    let swept = hull(&[places(start), places(&end)].concat()).expect("a disc has an area");
    let swept: Vec<i32> = swept.iter().flat_map(|p| [p.0 as i32, p.1 as i32]).collect();
    [ring(&swept, "swept"), ring(start, "start"), ring(&end, "end")].concat()
}

/// The move as an arrow from the middle of the disc.
fn arrow(from: Spot) -> String {
    let to = (from.0 + BY.0, from.1 + BY.1);
    let tip = |dy: i32| (to.0 - 1_600, to.1 + dy);
    [segment(from, to, "way"), segment(tip(800), to, "way"), segment(tip(-800), to, "way")].concat()
}

/// How the parts of a picture are drawn.
const STYLE: &str = "<style>\
    polygon, path { fill: none; stroke: #000; stroke-width: 250; stroke-linejoin: round }\
    .still { fill: #ccc }\
    .swept { fill: #fff; stroke-width: 120 }\
    .start { stroke-width: 450 }\
    .end { stroke-width: 450; stroke-dasharray: 1200 800 }\
    .line { stroke-width: 90; stroke-dasharray: 500 350 }\
    .told { stroke-width: 1100; stroke-linecap: round }\
    text { font: 2400px sans-serif; paint-order: stroke; stroke: #fff; stroke-width: 500 }\
    </style>\n";

/// A picture with this title and these parts.
fn picture(title: &str, parts: &[String]) -> String {
    let [x, y, width, height] = VIEW;
    let top = -y - height;
    let size = format!("width=\"{}\" height=\"{}\"", width / 112, height / 112);
    let open = format!(
        "<svg xmlns=\"http://www.w3.org/2000/svg\" viewBox=\"{x} {top} {width} {height}\" {size}>\n\
         <title>{title}</title>\n"
    );
    let paper = format!(
        "<rect x=\"{x}\" y=\"{top}\" width=\"{width}\" height=\"{height}\" fill=\"#fff\"/>\n"
    );
    [&open, STYLE, &paper, &parts.concat(), "</svg>\n"].concat()
}

/// Both pictures, by their places in `docs`.
pub fn files() -> Files {
    let carrier = [-40_000, -30_000, 120_000, -30_000, 120_000, 0, -40_000, 0];
    let [start, neighbour] = [disc(0, 15_000), disc(62_000, 15_000)];
    let tab = TAB.map(|x| x as i32);
    let still = [ring(&carrier, "still"), ring(&neighbour, "still")].concat();
    let names = [
        words((-20_000, -7_000), "carrier"),
        words((56_500, 14_300), "neighbour"),
        words((-3_000, 22_000), "start"),
        words((28_500, 22_000), "end"),
        words((4_500, 16_000), "31 mm"),
        arrow((0, 15_000)),
    ]
    .concat();
    let reasons = [lines(&carrier, &start), lines(&neighbour, &start)].concat();
    let clear = [
        still.clone(),
        way(&start),
        reasons,
        names.clone(),
        words(
            (-20_000, 39_000),
            "clear: each line has the way on one side, and edges on the other",
        ),
    ];
    let edge = told(&tab, &start);
    let corner = |i: usize| (tab[2 * (i % 4)], tab[2 * (i % 4) + 1]);
    let between = [
        still,
        way(&start),
        ring(&tab, "still"),
        segment(corner(edge), corner(edge + 1), "told"),
        names,
        words((23_500, 1_500), "tab"),
        words((12_600, 2_000), &format!("edge {edge}")),
        words((-20_000, 39_000), &format!("edge {edge}: no line parts it from the way")),
    ];
    let file = |name: &str, text: String| (name.to_string(), text.into_bytes());
    vec![
        file("slide_clear.svg", picture("A slide that is clear, with its parting lines", &clear)),
        file("slide_between.svg", picture("The same slide with a tab in between", &between)),
    ]
}
