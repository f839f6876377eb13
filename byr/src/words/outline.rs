//! What is said of an outline.

use crate::answers::outline::Outline;
use crate::drawing::{Drawing, Ring};
use crate::plain;
use crate::told::Line;
use byrlygent::Point;

/// What a drawing is.
pub fn drawing(drawing: &Drawing) -> Line {
    let count = plain::count(drawing.rings.len(), "ring", "rings");
    Line::plain(format!("{}: {}, {count}", drawing.name, drawing.kind))
}

/// How a ring is measured.
pub fn ring(at: usize, ring: &Ring, outline: &Outline) -> Line {
    let part = ring.part.map_or(String::new(), |part| format!(", part {part}"));
    let closed = if ring.opened { ", closed in the file" } else { "" };
    let corners = plain::corners(ring.points.len());
    Line::plain(format!("ring {at}{part}: {corners}, {}{closed}", measured(outline)))
}

/// Which way round an outline goes, and its area: three digits of it, where so many are known.
fn measured(outline: &Outline) -> String {
    let Outline { area, off, .. } = *outline;
    let way = match area {
        _ if area.abs() <= off && off > 0.0 => {
            return format!("no area that its digits tell, at most {}", plain::at_most(2.0 * off))
        }
        _ if area > 0.0 => "counter-clockwise",
        _ if area < 0.0 => "clockwise",
        _ => "neither way round",
    };
    let (area, told) = (area.abs(), plain::size(area.abs()));
    match off {
        _ if off == 0.0 && told.parse() == Ok(area) => format!("{way}, area {told}"),
        _ if 2000.0 * off < area => format!("{way}, area about {told}"),
        _ => format!("{way}, area at most {}", plain::at_most(area + off)),
    }
}

/// What is to be mended of a ring, by the file that it is in.
pub fn warning(which: &str, name: &str, outline: &Outline) -> Option<Line> {
    if outline.collapsed {
        return Some(Line::warning(format!(
            "{which} is a point or a line: fewer than three of its points differ from their \
             neighbours"
        )));
    }
    if outline.repeats > 0 {
        let points = plain::count(outline.repeats, "point", "points");
        let (repeat, drops) = match outline.repeats {
            1 => ("repeats its", "it"),
            _ => ("repeat their", "them"),
        };
        return Some(Line::warning(format!(
            "{which} has {points} that {repeat} neighbour: byr mend {name} OUT drops {drops}"
        )));
    }
    outline.crosses.then(|| {
        Line::warning(format!(
            "{which} touches or crosses itself, or comes as near as 1e-9: byr show {name} --svg \
             OUT.svg shows it"
        ))
    })
}

/// The corners, one a line, the numbers below each other.
pub fn table(points: &[Point]) -> Vec<String> {
    let rows: Vec<[String; 3]> = points
        .iter()
        .enumerate()
        .map(|(at, (x, y))| [at.to_string(), plain::number(*x), plain::number(*y)])
        .collect();
    let width = |column: usize| rows.iter().map(|row| row[column].len()).max().unwrap_or(0);
    let [a, b, c] = [0, 1, 2].map(width);
    rows.iter().map(|[at, x, y]| format!("{at:>w$}  {x:>b$}  {y:>c$}", w = a.max(4))).collect()
}
