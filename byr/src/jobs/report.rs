//! Writes the auditor's file: what an auditor asks about, in one page that prints.

use super::slide::traced;
use super::{inspect, show, why, Job};
use crate::answers::same::Sameness;
use crate::answers::shift::Plan;
use crate::answers::slide::Slide;
use crate::asked::Asked;
use crate::drawing::{Drawing, Ring};
use crate::files::{self, Form, Out};
use crate::page::report::{Report, Shown};
use crate::shelf::Shelf;
use crate::told::{Line, Told};
use crate::words::moved::Telling;
use crate::Result;
use byrlygent::Point;

pub const JOB: Job = Job {
    name: "report",
    usage: "OUT.html CARRIER DISC [--same OTHER] [--by DX,DY [--at X,Y]] [--slide]\n\
            \x20      [--per-shift K [--state FILE]] [--grid U] [--moved] [--tolerance T] [--passes N]\n\
            \x20      [--least-move L]",
    what: "write the auditor's file",
    more: "One page that prints, with nothing loaded from outside: the outlines, whether the carrier is\n\
           the same as OTHER, and else OTHER's outline, the slide, why the move is clear or not with\n\
           every line and how to check it by hand, the inspection plan and what was given out so far,\n\
           versions and refusals. With --by the slide is left out, unless --slide or one of its\n\
           options asks for it. Each corner that moved to the grid is told, with --moved each point\n\
           of the path too. Status 1: there is a WARNING in it, or the move is not known to be clear.",
    example: "byr report audit.html carrier.wkt disc.wkb --same thursday.txt --at 20,38 --by 10,0",
    valued: &[
        "same", "at", "by", "grid", "per-shift", "state", "tolerance", "passes", "least-move",
    ],
    flags: &["slide", "moved"],
    call: called,
};

/// Writes the auditor's file for the carrier and the disc that the words name.
fn called(asked: &Asked) -> Result<Told> {
    let [out, carrier, disc] = asked.files(["OUT.html", "CARRIER", "DISC"])?;
    let read = [carrier, disc].into_iter().chain(asked.value("same")).chain(asked.value("state"));
    asked.apart(&read.collect::<Vec<&str>>(), &[out])?;
    if asked.has("at") && !asked.has("by") {
        return Err(asked.fault("--at is for a move, and --by is missing"));
    }
    if asked.has("state") && !asked.has("per-shift") {
        return Err(asked.fault("--state is for an inspection, and --per-shift is missing"));
    }
    let out = Out::of(out, Form::Page)?;
    let report = answered(asked, carrier, disc)?;
    let page = report.page(Telling::each_corner(asked));
    files::write(&out, page.as_bytes())?;
    let mut lines = report.findings();
    lines.push(Line::plain(format!("{}: the report, {} bytes", out.name(), page.len())));
    Ok(Told { lines, well: report.is_well() })
}

/// What comes of all that is asked about.
fn answered(asked: &Asked, carrier: &str, disc: &str) -> Result<Report> {
    let mut shelf = Shelf::default();
    let rings = (shelf.ring(carrier)?, shelf.ring(disc)?);
    let slide = asks_slide(asked).then(|| slide(asked, &rings.0, &rings.1)).transpose()?;
    let path = slide.as_ref().and_then(|slide| slide.as_ref().ok()).map(Slide::path);
    let plan = asked.has("per-shift").then(|| plan(asked, path)).transpose()?;
    let one_move = || why::one_move(asked, &rings.0, &rings.1);
    let one_move = asked.has("by").then(one_move).transpose()?;
    let drawn = shelf.drawing(carrier)?;
    let same = match asked.value("same") {
        None => None,
        Some(other) => {
            let other = shelf.drawing(other)?;
            let same = Sameness::of(&drawn, &other)?;
            Some((shown(other)?, same))
        }
    };
    let disc = shown(shelf.drawing(disc)?)?;
    Ok(Report { carrier: shown(drawn)?, disc, same, slide, one_move, plan })
}

/// Whether the slide is asked about: always, unless a move alone is.
fn asks_slide(asked: &Asked) -> bool {
    let options = ["slide", "per-shift", "passes", "least-move"];
    !asked.has("by") || options.into_iter().any(|option| asked.has(option))
}

/// A drawing with what is said of its rings.
fn shown(drawing: Drawing) -> Result<Shown> {
    Ok(Shown { measured: show::measured(&drawing)?, drawing })
}

/// The slide, or why there is none: the trace may be too short.
fn slide(asked: &Asked, carrier: &Ring, disc: &Ring) -> Result<Result<Slide>> {
    let (settings, grid) = (asked.settings()?, asked.grid()?);
    match traced(carrier, disc, &settings)? {
        Ok(nfp) => Ok(Ok(Slide::of(carrier, disc, settings, nfp, grid)?)),
        Err(short) => Ok(Err(short)),
    }
}

/// The inspection of a path.
fn plan(asked: &Asked, path: Option<&[Point]>) -> Result<Plan> {
    let Some(path) = path else {
        return Err(asked.fault("--per-shift is for the places of a slide, and there is no slide"));
    };
    let per_shift = asked.count("per-shift")?;
    let state =
        asked.value("state").map(|file| inspect::kept(file, path, per_shift)).transpose()?;
    Plan::of(path.len() as u64, per_shift, state)
        .map_err(|refusal| asked.fault(refusal.to_string()))
}
