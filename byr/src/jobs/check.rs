//! Checks a path that another program traced.

use super::Job;
use crate::answers::check::Check;
use crate::asked::Asked;
use crate::shelf::Shelf;
use crate::told::Told;
use crate::words::moved::Telling;
use crate::{words, Fault, Result};
use byrlygent::nfp_sliding::check_path;

pub const JOB: Job = Job {
    name: "check",
    usage: "CARRIER DISC PATH [--grid U] [--moved] [--tolerance T]",
    what: "check a path that another program traced",
    more: "Tells the first fault by the rule, and the first leg that is not clear on the grid of U. How\n\
           far corners moved to the grid is told as for slide (byr help slide). Status 0: accepted, and\n\
           it is proved that nothing lies in between, 1: not.",
    example: "byr check carrier.wkt disc.wkb path.txt --grid 0.001",
    valued: &["grid", "tolerance"],
    flags: &["moved"],
    call: called,
};

/// The first fault of the path that the words name, and its first leg that is not clear.
fn called(asked: &Asked) -> Result<Told> {
    let [carrier, disc, name] = asked.files(["CARRIER", "DISC", "PATH"])?;
    let mut shelf = Shelf::default();
    let (carrier, disc, path) = (shelf.ring(carrier)?, shelf.ring(disc)?, shelf.path(name)?);
    let fault = check_path(&carrier.points, &disc.points, &asked.settings()?, &path.points)
        .map_err(|refusal| Fault::of(name, refusal))?;
    let check = Check::of(&carrier, &disc, path, fault, asked.grid()?)?;
    Ok(Told { lines: words::check::told(&check, Telling::asked(asked)), well: check.is_well() })
}
