//! Why is a move clear, or not?

use super::Job;
use crate::answers::one_move::{OneMove, Way};
use crate::asked::Asked;
use crate::drawing::{Numbers, Ring};
use crate::files::{self, Form};
use crate::shelf::Shelf;
use crate::told::{Line, Told};
use crate::words::moved::Telling;
use crate::{pictures, words, Result};

pub const JOB: Job = Job {
    name: "why",
    usage: "CARRIER DISC --by DX,DY [--at X,Y] [--grid U] [--svg OUT.svg] [--lines] [--moved]\n\
            \x20      [--tolerance T]",
    what: "why is a move clear, or not?",
    more: "The disc, as drawn, is moved to X,Y and goes on from there by DX,DY. First comes what is so\n\
           on the grid of U, and whether it is proved of the drawing, then the rule's answer with its\n\
           ground and counts. --lines prints the reason: each line once, with the edges that it parts\n\
           from the way. How far corners moved to the grid is told as for slide (byr help slide).\n\
           Status 0: it is proved that nothing lies in between, and the rule says clear, 1: not.",
    example: "byr why carrier.wkt disc.wkb --at 10,12 --by 0,-2.5 --grid 0.001 --svg why.svg",
    valued: &["at", "by", "grid", "svg", "tolerance"],
    flags: &["lines", "moved"],
    call: called,
};

/// Why the move that the words ask for is clear, or not.
fn called(asked: &Asked) -> Result<Told> {
    let [carrier, disc] = asked.files(["CARRIER", "DISC"])?;
    let svg: Vec<&str> = asked.value("svg").into_iter().collect();
    asked.apart(&[carrier, disc], &svg)?;
    let svg = asked.out("svg", Form::Picture)?;
    let mut shelf = Shelf::default();
    let answer = one_move(asked, &shelf.ring(carrier)?, &shelf.ring(disc)?)?;
    let mut lines = words::one_move::told(&answer, Telling::asked(asked), asked.has("lines"));
    if let Some(out) = svg {
        files::write(&out, pictures::one_move::drawn(&answer, &lines, true).as_bytes())?;
        lines.push(Line::hint(format!("picture: {}", out.name())));
    }
    Ok(Told { lines, well: answer.is_well() })
}

/// What comes of the move that the words ask for.
pub fn one_move(asked: &Asked, carrier: &Ring, disc: &Ring) -> Result<OneMove> {
    let (at, by) = (asked.point_or_origin("at")?, asked.point("by")?);
    let numbers = Numbers::of_text(asked.is_shown("at") && asked.is_shown("by"));
    let way = Way { at, by, numbers };
    OneMove::of(carrier, disc, way, asked.number_or("tolerance", 1e-6)?, asked.grid()?)
}
