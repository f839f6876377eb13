//! Slides a disc round its carrier.

use super::Job;
use crate::answers::slide::Slide;
use crate::asked::Asked;
use crate::drawing::Ring;
use crate::files::{self, Form};
use crate::shelf::Shelf;
use crate::told::{Line, Told};
use crate::words::moved::Telling;
use crate::{pictures, plain, words, Fault, Result};
use byrlygent::nfp_sliding::{compute_nfp_sliding, Nfp, SlidingNfpConfig};
use byrlygent::Refusal;

pub const JOB: Job = Job {
    name: "slide",
    usage: "CARRIER DISC [--path OUT.txt] [--svg OUT.svg] [--grid U] [--moved]\n\
            \x20      [--tolerance T] [--passes N] [--least-move L]",
    what: "slide a disc round its carrier",
    more: "A point of the path is how far the disc, as drawn, is moved. Each leg is then asked on the\n\
           grid of U, 1 or a part of it, whether nothing lies in between; without --grid that is the\n\
           grid of 1 if all is whole, and else the finest of a power of ten that fits. Of the drawing\n\
           that is proved only where nothing moved to get there. How far corners moved is told: with\n\
           --grid of each corner of a ring of up to 64, with --moved of all corners and points, and\n\
           else of the farthest. Status 0: it comes round, and nothing lies in between, 1: not, or\n\
           that is not known.",
    example: "byr slide carrier.wkt disc.wkb --path path.txt --svg slide.svg",
    valued: &["path", "svg", "grid", "tolerance", "passes", "least-move"],
    flags: &["moved"],
    call: called,
};

/// The trace of a disc round its carrier, or why it is too short to be one.
pub fn traced(carrier: &Ring, disc: &Ring, settings: &SlidingNfpConfig) -> Result<Result<Nfp>> {
    match compute_nfp_sliding(&carrier.points, &disc.points, settings) {
        Ok(nfp) => Ok(Ok(nfp)),
        Err(Refusal::ShortPath { passes, stop }) => {
            Ok(Err(Fault::new(words::slide::too_short(passes, stop, settings))))
        }
        Err(refusal) => Err(refusal.into()),
    }
}

/// Slides the disc that the words name round its carrier.
fn called(asked: &Asked) -> Result<Told> {
    let [carrier, disc] = asked.files(["CARRIER", "DISC"])?;
    let written: Vec<&str> = asked.value("path").into_iter().chain(asked.value("svg")).collect();
    asked.apart(&[carrier, disc], &written)?;
    let (path, svg) = (asked.out("path", Form::Path)?, asked.out("svg", Form::Picture)?);
    let mut shelf = Shelf::default();
    let (carrier, disc) = (shelf.ring(carrier)?, shelf.ring(disc)?);
    let (settings, grid) = (asked.settings()?, asked.grid()?);
    let slide = Slide::of(&carrier, &disc, settings, traced(&carrier, &disc, &settings)??, grid)?;
    let mut lines = words::slide::told(&slide, Telling::asked(asked));
    let mut files = Vec::new();
    if let Some(out) = path {
        let points = plain::count(slide.path().len(), "point", "points");
        lines.push(Line::hint(format!("path: {}, {points}", out.name())));
        files.push((out, words::slide::path_file(&slide).into_bytes()));
    }
    if let Some(out) = svg {
        let picture = pictures::slide::drawn(&slide, &lines, true);
        lines.push(Line::hint(format!("picture: {}", out.name())));
        files.push((out, picture.into_bytes()));
    }
    files::write_all(&files)?;
    Ok(Told { lines, well: slide.is_well() })
}
