//! The picture of a slide.

use super::canvas::{Captions, Picture};
use crate::answers::moved;
use crate::answers::slide::Slide;
use crate::told::Line;
use byrlygent::nfp_sliding::find_contacts;
use byrlygent::Point;

/// The title.
const TITLE: &str = "A disc slides round its carrier";

/// The leg that is told, by its points, and the edge.
type Blocked = ((usize, usize), Option<usize>);

/// The leg that is not clear on the grid, if one is not.
fn blocked(slide: &Slide) -> Option<Blocked> {
    let legs = slide.legs.as_ref().ok()?;
    Some((legs.told()?, legs.verdict.edge()))
}

/// What is drawn how.
fn legend(slide: &Slide) -> String {
    let end = if slide.is_closed() { "" } else { ", dashed: at the end" };
    let touched = if slide.is_closed() { "start" } else { "end" };
    let thick = match blocked(slide) {
        Some((_, Some(_))) => "; thick: the edge that is told, and its leg",
        Some((_, None)) => "; thick: the leg that is told",
        None => "",
    };
    format!(
        "grey: the carrier; heavy: the disc at the start{end}; arrows: the path; small rings: \
         contacts at the {touched}{thick}"
    )
}

/// Carrier and path, with the disc where it starts and where it ends; the lines of text stand
/// above it where that is asked for.
pub fn drawn(slide: &Slide, lines: &[Line], above: bool) -> String {
    let (path, carrier, closed) = (slide.path(), &slide.carrier, slide.is_closed());
    let (first, last) = (path[0], path[path.len() - 1]);
    let [start, end] = [first, last].map(|at| moved(&slide.disc, at));
    let swept = path.iter().flat_map(|&at| moved(&slide.disc, at));
    let seen: Vec<Point> = carrier.iter().copied().chain(swept).collect();
    let captions = Captions { lines, legend: legend(slide), title: TITLE, above };
    let mut picture = Picture::over(&seen, &captions);
    picture.ring(carrier, "still");
    if let Some(((from, to), edge)) = blocked(slide) {
        picture.segment(path[from], path[to], "told");
        edge.into_iter().for_each(|edge| picture.told(carrier, edge));
    }
    picture.ring(&start, "start");
    if !closed {
        picture.ring(&end, "end");
    }
    picture.path(path, closed);
    let stop = if closed { &start } else { &end };
    // Where the disc ends its corners may be past the bounds: then none is shown.
    let contacts = find_contacts(carrier, stop, slide.settings.contact_tolerance);
    contacts.iter().flatten().for_each(|contact| picture.touch(contact.point));
    picture.name(first, (0.0, 22.0), "start");
    if !closed {
        picture.name(last, (28.0, 4.0), "end");
    }
    picture.corner_numbers(carrier, "grey");
    picture.finished()
}
