//! Drops the repeated points of a drawing.

use super::Job;
use crate::asked::Asked;
use crate::drawing::{written, Kind, Ring};
use crate::files::{self, Out};
use crate::shelf::Shelf;
use crate::told::{Line, Told};
use crate::{plain, Fault, Result};
use byrlygent::polygon_ops::{mend_ring, Dropped, Why};

pub const JOB: Job = Job {
    name: "mend",
    usage: "IN OUT",
    what: "drop the repeated points of a drawing",
    more: "Each point that is dropped is told, and why. IN stays as it is.",
    example: "byr mend drawn.txt mended.wkb",
    valued: &[],
    flags: &[],
    call: called,
};

/// Mends the drawing that the words name, and tells each point that goes.
fn called(asked: &Asked) -> Result<Told> {
    let [name, out] = asked.files(["IN", "OUT"])?;
    asked.apart(&[name], &[out])?;
    let out = Out::drawing(out)?;
    let drawing = Shelf::default().as_drawn(name)?;
    let several = drawing.rings.len() > 1;
    let (mut lines, mut mended) = (Vec::new(), Vec::new());
    for (at, ring) in drawing.rings {
        let which = if several { format!("ring {at}: ") } else { String::new() };
        let done = mend_ring(&ring.points).map_err(|refusal| Fault::of(name, refusal))?;
        let [dropped, remain] = [done.dropped.len(), done.ring.len()];
        let dropped = plain::count(dropped, "point", "points");
        lines.push(format!("{which}{dropped} dropped, {} remain", plain::corners(remain)));
        lines.extend(done.dropped.iter().map(|gone| format!("{which}{}", told(gone))));
        mended.push(Ring { points: done.ring, ..ring });
    }
    let kind = out.kind().unwrap_or(Kind::Text);
    let bytes = written(kind, &mended).map_err(|words| Fault::of(out.name(), words))?;
    files::write(&out, &bytes)?;
    let begins = if kind == Kind::Book { ", of each ring the least reading" } else { "" };
    lines.push(format!("{}: {kind}, {} bytes{begins}", out.name(), bytes.len()));
    Ok(Told::of(lines.into_iter().map(Line::plain).collect()))
}

/// What is said of a dropped point.
fn told(gone: &Dropped) -> String {
    let why = match gone.why {
        Why::Run => "it repeats the point before it",
        Why::Trailing => "it stands at the end and repeats the first",
    };
    format!("point {} {} dropped: {why}", gone.index, plain::point(gone.point))
}
