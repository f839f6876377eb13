//! Are two drawings the same outlines?

use super::Job;
use crate::answers::same::Sameness;
use crate::asked::Asked;
use crate::shelf::Shelf;
use crate::told::Told;
use crate::{words, Result};

pub const JOB: Job = Job {
    name: "same",
    usage: "A B",
    what: "are two drawings the same outlines?",
    more: "Rings are compared place by place, wherever they were begun and whichever way round they go;\n\
           parts where both files tell them. Corners that differ are paired so that the fewest do, each\n\
           by its number in its own file. Status 0: the same, 1: not, 2: no answer.",
    example: "byr same monday.book thursday.book",
    valued: &[],
    flags: &[],
    call: called,
};

/// Whether the two drawings that the words name are the same outlines.
fn called(asked: &Asked) -> Result<Told> {
    let [a, b] = asked.files(["A", "B"])?;
    let mut shelf = Shelf::default();
    let same = Sameness::of(&shelf.drawing(a)?, &shelf.drawing(b)?)?;
    Ok(Told { lines: words::same::told(&same), well: same.is_well() })
}
