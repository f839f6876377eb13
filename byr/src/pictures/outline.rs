//! The picture of a drawing's outlines.

use super::canvas::{Captions, Picture};
use crate::drawing::{Drawing, Kind};
use crate::told::Line;
use byrlygent::Point;

/// The picture of all rings, with these lines; they stand above it where that is asked for.
pub fn drawn(drawing: &Drawing, lines: &[Line], above: bool) -> String {
    let all: Vec<Point> = drawing.rings.iter().flat_map(|(_, ring)| ring.points.clone()).collect();
    let name = if drawing.kind == Kind::Book { "Book" } else { "Drawing" };
    let title = format!("{name} {}", drawing.name);
    let captions = Captions { title: &title, lines, legend: String::new(), above };
    let mut picture = Picture::over(&all, &captions);
    for (_, ring) in &drawing.rings {
        picture.ring(&ring.points, "drawn");
    }
    if drawing.rings.len() > 1 {
        for (at, ring) in &drawing.rings {
            picture.name_ring(&ring.points, &format!("ring {at}"));
        }
    }
    drawing.rings.iter().for_each(|(_, ring)| picture.corner_numbers(&ring.points, "pale"));
    picture.finished()
}
