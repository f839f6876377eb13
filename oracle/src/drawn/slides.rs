//! Slides of drawings in floats, at random angles: along an edge, along an edge of a ring
//! of any shape, and into slots. Every coordinate is a multiple of 2^-40, so that `exact`
//! can judge it; and no sine is in it, so that it is the same on every machine.

use crate::answers::Point;
use crate::discs::make_disc;
use crate::seeded::Seeded;
use crate::shapes::round;

/// A drawing and a move of it.
#[derive(Debug, Clone)]
pub struct Slide {
    pub stationary: Vec<f64>,
    pub orbiting: Vec<f64>,
    pub from: Point,
    pub to: Point,
}

/// The shapes that slide, all convex.
pub const SHAPES: [&str; 7] =
    ["disc", "turned disc", "triangle", "rectangle", "thin quadrilateral", "hexagon", "lozenge"];

/// A float as a multiple of 2^-40.
fn rounded(x: f64) -> f64 {
    (x * (1_u64 << 40) as f64).round() / (1_u64 << 40) as f64
}

/// A place, and the way there that counts as straight on.
struct Frame {
    at: Point,
    along: Point,
}

impl Frame {
    /// The frame at this place that is turned by this part of a circle.
    fn new(at: Point, part: f64) -> Self {
        let [x, y] = round(part);
        Self { at, along: (x, y) }
    }

    /// The frame at a point that leads to another, and how far it is.
    fn to(at: Point, to: Point) -> (Self, f64) {
        let (x, y) = (to.0 - at.0, to.1 - at.1);
        let far = (x * x + y * y).sqrt();
        (Self { at, along: (x / far, y / far) }, far)
    }

    /// The point so far straight on and so far to the left.
    fn point(&self, (on, left): Point) -> Point {
        let (x, y) = self.along;
        let to = (self.at.0 + on * x - left * y, self.at.1 + on * y + left * x);
        (rounded(to.0), rounded(to.1))
    }

    /// The list with these points.
    fn list(&self, points: &[Point]) -> Vec<f64> {
        points.iter().flat_map(|&point| [self.point(point).0, self.point(point).1]).collect()
    }

    /// The least and the greatest that the points of a list lie to the left, and straight
    /// on, whatever the frame's place.
    fn extent(&self, list: &[f64]) -> [Point; 2] {
        let (x, y) = self.along;
        let ends = |level: &dyn Fn(&[f64]) -> f64| {
            list.chunks_exact(2)
                .map(level)
                .fold((f64::MAX, f64::MIN), |(least, most), z| (least.min(z), most.max(z)))
        };
        [ends(&|p| p[1] * x - p[0] * y), ends(&|p| p[0] * x + p[1] * y)]
    }
}

/// A polygon of so many corners on a circle of this radius.
fn on_circle(corners: usize, radius: f64) -> Vec<Point> {
    let corner = |i: usize| round(i as f64 / corners as f64).map(|x| radius * x);
    (0..corners).map(corner).map(|[x, y]| (x, y)).collect()
}

/// A shape of this name, some units of length wide, about (0, 0).
pub fn shape(seeded: &mut Seeded, name: &str, most: usize) -> Vec<f64> {
    let size = 2.0 + 8.0 * seeded.unit();
    let (frame, corners) = (Frame::new((0.0, 0.0), seeded.unit()), 8 + seeded.below(most - 7));
    let other = size * (0.2 + seeded.unit());
    let flat = match name {
        "disc" => {
            let quarters =
                (1..=6).map(|i| 1 << i).filter(|m| 4 * m <= most as u64).collect::<Vec<u64>>();
            let (mut room, m) = (vec![0.0; 512], seeded.pick(&quarters));
            let count = make_disc((0.0, 0.0), size, m, &mut room).expect("a disc within bounds");
            return room[..2 * count].iter().map(|&x| rounded(x)).collect();
        }
        "turned disc" => on_circle(corners, size),
        "triangle" => vec![(0.0, 0.0), (size, 0.0), (size * seeded.unit(), other)],
        "rectangle" => vec![(0.0, 0.0), (size, 0.0), (size, other), (0.0, other)],
        "thin quadrilateral" => {
            let thin = 0.05 + 0.4 * seeded.unit();
            vec![(0.0, 0.0), (size, 0.0), (size * (0.7 + 0.4 * seeded.unit()), thin), (0.1, thin)]
        }
        "hexagon" => on_circle(6, size),
        _ => vec![(0.0, 0.0), (size, 0.0), (size + other, other), (other, other)],
    };
    frame.list(&flat)
}

/// A frame somewhere, at a random angle.
fn somewhere(seeded: &mut Seeded) -> Frame {
    Frame::new((seeded.spread(100.0), seeded.spread(100.0)), seeded.unit())
}

/// The shape slides along a block's edge, so far inside it; 0 is contact.
pub fn along(seeded: &mut Seeded, shape: &[f64], inside: f64) -> Slide {
    let frame = somewhere(seeded);
    let [(low, _), _] = frame.extent(shape);
    let long = 10.0 + 30.0 * seeded.unit();
    let block = [(0.0, 0.0), (long, 0.0), (long, -20.0), (0.0, -20.0)];
    let [start, end] = [seeded.spread(20.0), long + seeded.spread(20.0)];
    let position = |on| frame.point((on, -low - inside));
    Slide {
        stationary: frame.list(&block),
        orbiting: shape.to_vec(),
        from: position(start),
        to: position(end),
    }
}

/// The shape slides straight into a slot that is so much narrower than it is; 0 is
/// contact on both sides.
pub fn slot(seeded: &mut Seeded, shape: &[f64], narrower: f64) -> Slide {
    let frame = somewhere(seeded);
    let [(low, high), (back, front)] = frame.extent(shape);
    let (high, long) = (high - narrower, front - back + 10.0 * seeded.unit());
    let [outer, inner] = [(low - 5.0, high + 5.0), (low, high)];
    let block = [
        (0.0, outer.0),
        (0.0, inner.0),
        (long, inner.0),
        (long, inner.1),
        (0.0, inner.1),
        (0.0, outer.1),
        (long + 5.0, outer.1),
        (long + 5.0, outer.0),
    ];
    let position = |on| frame.point((on, 0.0));
    Slide {
        stationary: frame.list(&block),
        orbiting: shape.to_vec(),
        from: position(-front - 3.0 * seeded.unit()),
        to: position((long - front) * seeded.unit()),
    }
}

/// A ring of so many corners about a point, each as far off as it happens to be, so that
/// it has notches.
pub fn ring(seeded: &mut Seeded, corners: usize) -> Vec<f64> {
    let frame = somewhere(seeded);
    let rough = seeded.unit() * seeded.unit();
    let mut corner = |i: usize| {
        let far = 20.0 * (1.0 - rough * seeded.unit());
        round(i as f64 / corners as f64).map(|x| far * x)
    };
    let points: Vec<Point> = (0..corners).map(&mut corner).map(|[x, y]| (x, y)).collect();
    frame.list(&points)
}

/// The shape slides along an edge of this ring, so far inside it.
pub fn beside(seeded: &mut Seeded, shape: &[f64], ring: &[f64], inside: f64) -> Slide {
    let corner = |i: usize| (ring[2 * i % ring.len()], ring[(2 * i + 1) % ring.len()]);
    let i = seeded.below(ring.len() / 2);
    let (frame, long) = Frame::to(corner(i + 1), corner(i));
    let [(low, _), _] = frame.extent(shape);
    let position = |on| frame.point((on, -low - inside));
    Slide {
        stationary: ring.to_vec(),
        orbiting: shape.to_vec(),
        from: position(long * seeded.unit()),
        to: position(long * seeded.unit() + 0.1),
    }
}
