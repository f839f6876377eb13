//! Shows what a drawing holds: a table, and a picture.

use super::Job;
use crate::answers::outline::Outline;
use crate::asked::Asked;
use crate::drawing::{Drawing, Ring};
use crate::files::{self, Form};
use crate::shelf::Shelf;
use crate::told::{Line, Told};
use crate::{pictures, words, Result};

pub const JOB: Job = Job {
    name: "show",
    usage: "F [--svg OUT.svg]",
    what: "look at a drawing: table and picture",
    more: "The decimals read back to the same bits. A ring that is to be mended is a WARNING.",
    example: "byr show monday.book --svg monday.svg",
    valued: &["svg"],
    flags: &[],
    call: called,
};

/// What is said of a ring before its table: how it is measured, and what is to be mended.
pub fn measured(drawing: &Drawing) -> Result<Vec<Vec<Line>>> {
    let ring = |(at, ring): &(usize, Ring)| {
        let outline = Outline::of(&ring.points)?;
        let which = format!("ring {at}");
        let warning = words::outline::warning(&which, &drawing.name, &outline);
        Ok([words::outline::ring(*at, ring, &outline)].into_iter().chain(warning).collect())
    };
    drawing.rings.iter().map(ring).collect()
}

/// The table of the drawing that the words name, and its picture if it is asked for.
fn called(asked: &Asked) -> Result<Told> {
    let [name] = asked.files(["F"])?;
    let svg: Vec<&str> = asked.value("svg").into_iter().collect();
    asked.apart(&[name], &svg)?;
    let svg = asked.out("svg", Form::Picture)?;
    let drawing = Shelf::default().drawing(name)?;
    let measured = measured(&drawing)?;
    let mut lines = vec![words::outline::drawing(&drawing)];
    for (told, (_, ring)) in measured.iter().zip(&drawing.rings) {
        lines.extend(told.clone());
        lines.extend(words::outline::table(&ring.points).into_iter().map(Line::plain));
    }
    if let Some(out) = svg {
        let picture = pictures::outline::drawn(&drawing, &measured.concat(), true);
        files::write(&out, picture.as_bytes())?;
        lines.push(Line::plain(format!("picture: {}", out.name())));
    }
    Ok(Told::of(lines))
}
