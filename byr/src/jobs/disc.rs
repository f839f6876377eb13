//! Makes a disc.

use super::Job;
use crate::answers::outline::Outline;
use crate::asked::Asked;
use crate::drawing::{written, Kind, Numbers, Ring};
use crate::files::{self, Out};
use crate::told::{Line, Told};
use crate::{plain, Fault, Result};
use byrlygent::discs::make_disc;

pub const JOB: Job = Job {
    name: "disc",
    usage: "OUT --centre X,Y --radius R --corners N [--part N]",
    what: "make a disc",
    more: "It has 4, 8, 16, 32, 64, 128 or 256 corners, with the same bits in every office.",
    example: "byr disc disc.wkb --centre 0,0 --radius 1.5 --corners 32",
    valued: &["centre", "radius", "corners", "part"],
    flags: &[],
    call: called,
};

/// Makes the disc that the words ask for.
fn called(asked: &Asked) -> Result<Told> {
    let [out] = asked.files(["OUT"])?;
    let (centre, radius) = (asked.point("centre")?, asked.number("radius")?);
    let corners = asked.count("corners")?;
    if !(corners.is_power_of_two() && (4..=256).contains(&corners)) {
        let may = "4, 8, 16, 32, 64, 128 or 256";
        return Err(asked.fault(format!("a disc cannot have {corners} corners: it may have {may}")));
    }
    if radius <= 0.0 {
        return Err(asked.fault(format!("--radius {radius}: a radius is above 0, as 4.5 is")));
    }
    let points = make_disc(centre, radius, corners / 4)
        .map_err(|refusal| asked.fault(refusal.to_string()))?;
    let out = Out::drawing(out)?;
    let kind = out.kind().unwrap_or(Kind::Text);
    if asked.has("part") && kind != Kind::Book {
        let name = out.name();
        return Err(asked.fault(format!("--part is for a .book, and \"{name}\" is none")));
    }
    let part = asked.value("part").map(|_| asked.count("part")).transpose()?;
    let large = |_| asked.fault("--part is at most 4294967295");
    let part = part.map(u32::try_from).transpose().map_err(large)?;
    let second = plain::point(points[1]);
    let together = Outline::of(&points)?.warns();
    let rings = [Ring { points, part, opened: false, numbers: Numbers::Floats }];
    let bytes = written(kind, &rings).map_err(|words| Fault::of(out.name(), words))?;
    files::write(&out, &bytes)?;
    let (centre, radius) = (plain::point(centre), plain::number(radius));
    let lines = [
        format!("a disc of {corners} corners, radius {radius} about {centre}, its second corner at {second}"),
        format!("{}: {kind}, {} bytes", out.name(), bytes.len()),
    ];
    let warning = together.then(|| {
        Line::warning(
            "its corners fall together or cross: the radius is too small so far from (0, 0)",
        )
    });
    Ok(Told::of(lines.map(Line::plain).into_iter().chain(warning).collect()))
}
