//! Puts drawings into a book.

use super::Job;
use crate::answers::outline::Outline;
use crate::asked::Asked;
use crate::drawing::{least_reading, written, Kind, Ring};
use crate::files::{self, Form, Out};
use crate::shelf::Shelf;
use crate::told::{Line, Told};
use crate::{plain, words, Fault, Result};

pub const JOB: Job = Job {
    name: "book",
    usage: "OUT.book IN.. [--part N,..]",
    what: "put drawings into a book",
    more: "Each ring is kept in its least reading, so the same outline is the same bytes wherever it was\n\
           begun. --part gives the parts, one for each ring; without it a drawing has part 0, and a ring\n\
           of a book keeps its own. A ring that is to be mended is kept as it is, with a WARNING.",
    example: "byr book monday.book carrier.wkb disc.txt --part 7,8",
    valued: &["part"],
    flags: &[],
    call: called,
};

/// A ring with the name that it was asked for by.
type Named = (String, Ring);

/// Puts the drawings that the words name into a book, and tells each ring.
fn called(asked: &Asked) -> Result<Told> {
    let [out, drawings @ ..] = asked.all_files() else {
        return Err(asked.fault("takes OUT and the drawings to put into it, and was given nothing"));
    };
    if drawings.is_empty() {
        return Err(asked.fault("takes the drawings behind OUT, and was given none"));
    }
    let names: Vec<&str> = drawings.iter().map(String::as_str).collect();
    asked.apart(&names, &[out])?;
    let out = Out::of(out, Form::Drawing(Kind::Book))?;
    let (mut shelf, mut rings) = (Shelf::default(), Vec::new());
    for name in names {
        rings.extend(of_file(&mut shelf, name)?);
    }
    with_parts(asked, &mut rings)?;
    let all: Vec<Ring> = rings.iter().map(|(_, ring)| ring.clone()).collect();
    let book = written(Kind::Book, &all).map_err(|words| Fault::of(out.name(), words))?;
    let mut lines = Vec::new();
    for (at, ring) in rings.iter().enumerate() {
        lines.extend(told(at, ring)?);
    }
    files::write(&out, &book)?;
    let (name, count) = (out.name(), plain::count(all.len(), "ring", "rings"));
    lines.insert(0, Line::plain(format!("{name}: a book of {count}, {} bytes", book.len())));
    Ok(Told::of(lines))
}

/// The rings of a drawing.
fn of_file(shelf: &mut Shelf, name: &str) -> Result<Vec<Named>> {
    let drawing = shelf.drawing(name)?;
    let several = drawing.rings.len() > 1;
    let named = |(at, ring)| (if several { format!("{name}#{at}") } else { name.into() }, ring);
    Ok(drawing.rings.into_iter().map(named).collect())
}

/// Gives the rings the parts that are asked for, one for each.
fn with_parts(asked: &Asked, rings: &mut [Named]) -> Result<()> {
    let Some(parts) = asked.value("part") else { return Ok(()) };
    let number = |part: &str| part.trim().parse::<u32>().map(Some);
    let wrong = |_| asked.fault(format!("--part \"{parts}\" is no list of numbers, as 7,8 is"));
    let parts: Vec<Option<u32>> =
        parts.split(',').map(number).collect::<std::result::Result<_, _>>().map_err(wrong)?;
    if parts.len() != rings.len() {
        let (has, wants) = (parts.len(), plain::count(rings.len(), "ring", "rings"));
        return Err(asked.fault(format!("--part has {has} for {wants}: one is for each")));
    }
    rings.iter_mut().zip(parts).for_each(|((_, ring), part)| ring.part = part);
    Ok(())
}

/// What is said of a ring.
fn told(at: usize, (name, ring): &Named) -> Result<Vec<Line>> {
    let part = ring.part.unwrap_or(0);
    let begins = plain::point(least_reading(&ring.points)?[0]);
    let opened = if ring.opened { ", opened: it was closed" } else { "" };
    let corners = plain::corners(ring.points.len());
    let first = format!("ring {at}, part {part}: {corners}, begins at {begins}{opened} ({name})");
    let which = format!("ring {at}");
    let warning = words::outline::warning(&which, name, &Outline::of(&ring.points)?);
    Ok([Line::plain(first)].into_iter().chain(warning).collect())
}
