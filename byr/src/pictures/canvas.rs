//! Pictures as SVG, all in one style that needs no colour: rings that stay are grey, the
//! moved one is drawn heavy where it starts and dashed where it ends, paths are thin with
//! arrows, parting lines thin and dashed, and what is told is heaviest. Each picture says
//! its captions in text as well, and below itself what is drawn how.

use crate::told::Line;
use byrlygent::Point;

/// The width of a picture, the most height of what is shown, and the margin round it.
const WIDTH: f64 = 1000.0;
const MOST_HEIGHT: f64 = 640.0;
const MARGIN: f64 = 44.0;

/// The height of a line of the captions.
const LINE: f64 = 27.0;

/// The least distance of two corners that both have their numbers.
const APART: f64 = 27.0;

/// The most letters of a line of the captions, of one that is heavy, and of the legend.
const LETTERS: usize = 98;
const HEAVY_LETTERS: usize = 82;
const SMALL_LETTERS: usize = 116;

/// How the parts of a picture are drawn.
const STYLE: &str = "<style>\
    polygon, path, circle { fill: none; stroke: #000; stroke-width: 2; stroke-linejoin: round }\
    .still { fill: #ccc }\
    .drawn { fill: #bbb; fill-opacity: .5 }\
    .swept { fill: #fff; stroke-width: 1 }\
    .start { stroke-width: 4 }\
    .end { stroke-width: 4; stroke-dasharray: 11 7 }\
    .path { stroke-width: 2.5 }\
    .head { fill: #000; stroke-width: 1 }\
    .line { stroke-width: .9; stroke-dasharray: 5 3.5 }\
    .told { stroke: #777; stroke-width: 11; stroke-linecap: round }\
    .dot { fill: #000; stroke: none }\
    .touch { fill: #fff; stroke-width: 2.5 }\
    text { font: 19px sans-serif; paint-order: stroke; stroke: #fff; stroke-width: 5 }\
    .number { font-size: 16px; stroke-width: 3 }\
    .grey { stroke: #ccc }\
    .pale { stroke: #ddd; font-size: 21px }\
    .warning { font-weight: bold }\
    </style>\n";

/// What a picture says in words.
pub struct Captions<'a> {
    /// What it is of.
    pub title: &'a str,
    /// What it shows: of these lines those that are not one of many.
    pub lines: &'a [Line],
    /// What is drawn how.
    pub legend: String,
    /// Whether title and lines stand above it; else they stand beside it already.
    pub above: bool,
}

/// A label: where its middle is, and half its width.
type Label = (Point, f64);

/// A picture in the making.
pub struct Picture {
    title: String,
    /// What is said of it, in one line.
    told: String,
    /// The lines above, and whether each is heavy.
    captions: Vec<(bool, String)>,
    /// The lines below.
    legend: Vec<String>,
    low: Point,
    scale: f64,
    left: f64,
    top: f64,
    height: f64,
    parts: String,
    /// The words, which lie over all parts, and where they are.
    words: String,
    labels: Vec<Label>,
    /// Lines that no number of a corner may hide.
    arrows: Vec<(Point, Point)>,
}

impl Picture {
    /// A picture in which all these points can be seen, with these captions.
    pub fn over(points: &[Point], said: &Captions) -> Self {
        let least = |of: fn(&Point) -> f64| points.iter().map(of).fold(f64::INFINITY, f64::min);
        let most = |of: fn(&Point) -> f64| points.iter().map(of).fold(f64::NEG_INFINITY, f64::max);
        let (low, high) = ((least(|p| p.0), least(|p| p.1)), (most(|p| p.0), most(|p| p.1)));
        let [wide, tall] = [high.0 - low.0, high.1 - low.1].map(|side| side.max(1e-300));
        let room = WIDTH - 2.0 * MARGIN;
        let scale = (room / wide).min(MOST_HEIGHT / tall);
        let captions = said.shown();
        let above = if captions.is_empty() { 0.0 } else { 18.0 + LINE * captions.len() as f64 };
        let height = above + MARGIN + (high.1 - low.1) * scale + MARGIN;
        Self {
            title: said.title.to_string(),
            told: said.main().map(Line::to_string).collect::<Vec<String>>().join(" "),
            captions,
            legend: broken(&said.legend, SMALL_LETTERS),
            low,
            scale,
            left: MARGIN + (room - (high.0 - low.0) * scale) / 2.0,
            top: above + MARGIN,
            height,
            parts: String::new(),
            words: String::new(),
            labels: Vec::new(),
            arrows: Vec::new(),
        }
    }

    /// Where a point lies in the picture, whose heights grow downwards.
    fn shown(&self, (x, y): Point) -> Point {
        let bottom = self.height - MARGIN;
        (self.left + (x - self.low.0) * self.scale, bottom - (y - self.low.1) * self.scale)
    }

    /// A ring of this class.
    pub fn ring(&mut self, ring: &[Point], class: &str) {
        let points: Vec<String> = ring.iter().map(|&p| pair(self.shown(p))).collect();
        self.parts += &format!("<polygon class=\"{class}\" points=\"{}\"/>\n", points.join(" "));
    }

    /// A segment of this class.
    pub fn segment(&mut self, a: Point, b: Point, class: &str) {
        let (a, b) = (self.shown(a), self.shown(b));
        self.stroke(&[a, b], class);
    }

    /// A line through points of the picture.
    fn stroke(&mut self, points: &[Point], class: &str) {
        let points: Vec<String> = points.iter().map(|&p| pair(p)).collect();
        self.parts += &format!("<path class=\"{class}\" d=\"M{}\"/>\n", points.join(" L"));
    }

    /// A straight line through two points, as far as the picture goes.
    pub fn line(&mut self, p: Point, q: Point) {
        let (p, q) = (self.shown(p), self.shown(q));
        let frame = [(8.0, WIDTH - 8.0), (self.top - MARGIN + 6.0, self.height - 8.0)];
        if let Some((a, b)) = clipped(p, q, frame) {
            self.stroke(&[a, b], "line");
        }
    }

    /// A path: its legs, with an arrow where there is room for one, and its points.
    pub fn path(&mut self, points: &[Point], closed: bool) {
        let shown: Vec<Point> = points.iter().map(|&p| self.shown(p)).collect();
        let n = shown.len();
        let legs = if closed { n } else { n - 1 };
        let mut line = shown.clone();
        line.extend(closed.then(|| shown[0]));
        self.stroke(&line, "path");
        for at in 0..legs {
            self.head(shown[at], shown[(at + 1) % n], 0.55);
        }
        if n <= 80 {
            shown.iter().for_each(|&p| self.circle(p, 3.5, "dot"));
        }
    }

    /// A move, as an arrow.
    pub fn arrow(&mut self, from: Point, by: Point) {
        let to = (from.0 + by.0, from.1 + by.1);
        self.segment(from, to, "path");
        let (from, to) = (self.shown(from), self.shown(to));
        self.head(from, to, 1.0);
        self.arrows.push((from, to));
    }

    /// The head of an arrow so far along a leg, if the leg is long enough to carry it.
    fn head(&mut self, a: Point, b: Point, along: f64) {
        let (dx, dy) = (b.0 - a.0, b.1 - a.1);
        let length = dx.hypot(dy);
        if length < 30.0 {
            return;
        }
        let (ux, uy) = (dx / length, dy / length);
        let tip = (a.0 + dx * along, a.1 + dy * along);
        let side = |s: f64| (tip.0 - 15.0 * ux - s * uy, tip.1 - 15.0 * uy + s * ux);
        let points = [tip, side(6.0), side(-6.0)].map(pair).join(" ");
        self.parts += &format!("<polygon class=\"head\" points=\"{points}\"/>\n");
    }

    /// A circle about a point of the picture.
    fn circle(&mut self, (x, y): Point, radius: f64, class: &str) {
        let (x, y) = (digits(x), digits(y));
        self.parts +=
            &format!("<circle class=\"{class}\" cx=\"{x}\" cy=\"{y}\" r=\"{radius}\"/>\n");
    }

    /// A place where the rings touch.
    pub fn touch(&mut self, point: Point) {
        let point = self.shown(point);
        self.circle(point, 6.0, "touch");
    }

    /// The numbers of a ring's corners, inside of it, each where it is clear of all labels so
    /// far: where corners are near each other, of every second or fourth alone, and so on.
    pub fn corner_numbers(&mut self, ring: &[Point], ground: &str) {
        let edges = self.edges(ring);
        let n = edges.len();
        let mean = edges.iter().map(|edge| edge.length).sum::<f64>() / n as f64;
        let Some(step) = (0..9).map(|k| 1 << k).find(|&step| step as f64 * mean >= APART) else {
            return;
        };
        for at in (0..n).step_by(step) {
            let (from, to) = (&edges[(at + n - 1) % n], &edges[at]);
            let (x, y) = (from.inside.0 + to.inside.0, from.inside.1 + to.inside.1);
            let half = (x.hypot(y) / 2.0).max(0.4);
            // So far from both edges that the digits fit, and not too far from the corner.
            let digits = at.to_string();
            let wide = if ground == "pale" { 4.5 } else { 3.5 };
            let off = (10.0 + wide * digits.len() as f64) / (2.0 * half * half);
            let place = (to.from.0 + x * off, to.from.1 + y * off);
            if !self.arrows.iter().any(|&arrow| apart(place, arrow) < 9.0) {
                self.label(place, &digits, &format!("number {ground}"));
            }
        }
    }

    /// The name of a ring, inside of its longest edge.
    pub fn name_ring(&mut self, ring: &[Point], name: &str) {
        let edges = self.edges(ring);
        let longest = edges.iter().max_by(|a, b| a.length.total_cmp(&b.length));
        if let Some(edge) = longest {
            let place = edge.beside(26.0, 26.0);
            self.label(place, name, "name pale");
        }
    }

    /// The edges of a ring as they are shown.
    fn edges(&self, ring: &[Point]) -> Vec<Edge> {
        let shown: Vec<Point> = ring.iter().map(|&p| self.shown(p)).collect();
        let n = shown.len();
        let ends: Vec<(Point, Point)> = (0..n).map(|at| (shown[at], shown[(at + 1) % n])).collect();
        let area: f64 = ends.iter().map(|(a, b)| a.0 * b.1 - b.0 * a.1).sum();
        ends.into_iter().map(|(a, b)| Edge::between(a, b, area.signum())).collect()
    }

    /// An edge that is told, with its number outside of the ring.
    pub fn told(&mut self, ring: &[Point], edge: usize) {
        self.segment(ring[edge], ring[(edge + 1) % ring.len()], "told");
        let place = self.edges(ring)[edge].beside(-48.0, -26.0);
        self.label(place, &format!("edge {edge}"), "name");
    }

    /// A name beside a point, where it is clear of all labels so far.
    pub fn name(&mut self, at: Point, off: Point, name: &str) {
        let (x, y) = self.shown(at);
        self.label((x + off.0, y + off.1), name, "name");
    }

    /// Words about a place of the picture, unless another label is too near.
    fn label(&mut self, place: Point, words: &str, class: &str) {
        let wide = match class {
            class if class.ends_with("pale") => 6.2,
            "name" => 5.5,
            _ => 4.8,
        };
        let half = words.chars().count() as f64 * wide;
        let near = |&((x, y), other): &Label| {
            (x - place.0).abs() < half + other + 3.0 && (y - place.1).abs() < 16.0
        };
        if self.labels.iter().any(near) {
            return;
        }
        self.labels.push((place, half));
        let (x, y) = (digits(place.0), digits(place.1 + 5.5));
        let words = escaped(words);
        self.words += &format!(
            "<text class=\"{class}\" x=\"{x}\" y=\"{y}\" text-anchor=\"middle\">{words}</text>\n"
        );
    }

    /// The whole file.
    pub fn finished(&self) -> String {
        let (title, told) = (escaped(&self.title), escaped(&self.told));
        let mut captions = String::new();
        for (at, (heavy, text)) in self.captions.iter().enumerate() {
            let class = if *heavy { " class=\"warning\"" } else { "" };
            let (y, text) = (digits(18.0 + LINE * (at as f64 + 0.5)), escaped(text));
            captions += &format!("<text{class} x=\"24\" y=\"{y}\">{text}</text>\n");
        }
        for (at, text) in self.legend.iter().enumerate() {
            let (y, text) = (digits(self.height + 22.0 * (at as f64 + 0.5)), escaped(text));
            captions += &format!("<text class=\"number\" x=\"24\" y=\"{y}\">{text}</text>\n");
        }
        let below =
            if self.legend.is_empty() { 0.0 } else { 22.0 * self.legend.len() as f64 + 8.0 };
        let (width, height) = (WIDTH, digits(self.height + below));
        format!(
            "<svg xmlns=\"http://www.w3.org/2000/svg\" viewBox=\"0 0 {width} {height}\" \
             width=\"{width}\" height=\"{height}\" role=\"img\">\n<title>{title}</title>\n\
             <desc>{told}</desc>\n{STYLE}<rect width=\"{width}\" height=\"{height}\" \
             fill=\"#fff\"/>\n{}{}{captions}</svg>\n",
            self.parts, self.words
        )
    }
}

impl Captions<'_> {
    /// The lines that a picture has.
    fn main(&self) -> impl Iterator<Item = &Line> {
        self.lines.iter().filter(|line| line.is_main())
    }

    /// The lines above a picture, and whether each is heavy, as the title is.
    fn shown(&self) -> Vec<(bool, String)> {
        if !self.above {
            return Vec::new();
        }
        let set = |heavy: bool, text: &str| -> Vec<(bool, String)> {
            let letters = if heavy { HEAVY_LETTERS } else { LETTERS };
            broken(text, letters).into_iter().map(|line| (heavy, line)).collect()
        };
        let line = |line: &Line| set(line.warns(), &line.to_string());
        set(true, self.title).into_iter().chain(self.main().flat_map(line)).collect()
    }
}

/// An edge of a ring as it is shown.
struct Edge {
    from: Point,
    to: Point,
    length: f64,
    /// The way from it into the ring, of length 1.
    inside: Point,
}

impl Edge {
    /// The edge between two points, of a ring that goes this way round.
    fn between(from: Point, to: Point, way: f64) -> Self {
        let (dx, dy) = (to.0 - from.0, to.1 - from.1);
        let length = dx.hypot(dy);
        let unit = way / length.max(1e-9);
        Self { from, to, length, inside: (-dy * unit, dx * unit) }
    }

    /// The place so far inside of its middle, across and along the heights.
    fn beside(&self, across: f64, along: f64) -> Point {
        let middle = ((self.from.0 + self.to.0) / 2.0, (self.from.1 + self.to.1) / 2.0);
        (middle.0 + self.inside.0 * across, middle.1 + self.inside.1 * along)
    }
}

/// A number of the picture: no more than two digits of it can be seen.
fn digits(x: f64) -> String {
    let text = format!("{x:.2}");
    let text = text.trim_end_matches('0').trim_end_matches('.');
    if text == "-0" {
        "0".into()
    } else {
        text.to_string()
    }
}

/// A point of the picture.
fn pair((x, y): Point) -> String {
    format!("{},{}", digits(x), digits(y))
}

/// How far a point of the picture is from a segment.
fn apart((x, y): Point, (a, b): (Point, Point)) -> f64 {
    let (dx, dy) = (b.0 - a.0, b.1 - a.1);
    let along = ((x - a.0) * dx + (y - a.1) * dy) / (dx * dx + dy * dy).max(1e-9);
    let along = along.clamp(0.0, 1.0);
    (x - a.0 - along * dx).hypot(y - a.1 - along * dy)
}

/// The part of the line through two points that lies in a frame, its ranges of x and y.
fn clipped(p: Point, q: Point, frame: [(f64, f64); 2]) -> Option<(Point, Point)> {
    let (mut first, mut last) = (f64::NEG_INFINITY, f64::INFINITY);
    let (dx, dy) = (q.0 - p.0, q.1 - p.1);
    for (from, by, (low, high)) in [(p.0, dx, frame[0]), (p.1, dy, frame[1])] {
        if by == 0.0 {
            if from < low || from > high {
                return None;
            }
            continue;
        }
        let (a, b) = ((low - from) / by, (high - from) / by);
        first = first.max(a.min(b));
        last = last.min(a.max(b));
    }
    let at = |t: f64| (p.0 + t * dx, p.1 + t * dy);
    (first < last && first.is_finite() && last.is_finite()).then(|| (at(first), at(last)))
}

/// A text in lines that have no more letters than fit: of no text there is no line, and a
/// word that is too long is broken.
fn broken(text: &str, most: usize) -> Vec<String> {
    let mut lines: Vec<String> = Vec::new();
    for word in text.split_whitespace() {
        let letters: Vec<char> = word.chars().collect();
        for part in letters.chunks(most).map(|part| part.iter().collect::<String>()) {
            match lines.last_mut() {
                Some(line) if line.chars().count() + part.chars().count() < most => {
                    line.push(' ');
                    line.push_str(&part);
                }
                _ => lines.push(part),
            }
        }
    }
    lines
}

/// Words as XML holds them.
pub fn escaped(words: &str) -> String {
    let letter = |c: char| match c {
        '&' => "&amp;".to_string(),
        '<' => "&lt;".to_string(),
        '>' => "&gt;".to_string(),
        '"' => "&quot;".to_string(),
        c if c.is_control() => " ".to_string(),
        c => c.to_string(),
    };
    words.chars().map(letter).collect()
}
