//! What is said of a slide.

use super::legs::{basis, sentence};
use super::moved::{self, Telling};
use crate::answers::slide::{Slide, MOST_PASSES};
use crate::drawing::PATH_MARK;
use crate::plain;
use crate::told::Line;
use byrlygent::nfp_sliding::{SlidingNfpConfig, StopReason};

/// Whether it comes round and is clear, and behind it what was traced and what moved to the
/// grid.
pub fn told(slide: &Slide, telling: Telling) -> Vec<Line> {
    let mut told = verdict(slide);
    if let Ok(legs) = &slide.legs {
        told.extend(basis(&legs.walk, legs.verdict));
    }
    told.extend(traced(slide));
    if let Ok(legs) = &slide.legs {
        told.extend(moved::path(&legs.walk, telling));
    }
    told
}

/// Whether it comes round, and what is known of its legs.
pub fn verdict(slide: &Slide) -> Vec<Line> {
    let known = sentence(&slide.legs, &slide.carrier);
    if slide.goes_round {
        return vec![Line::weighed(!slide.is_well(), format!("comes round: {known}"))];
    }
    let clear = slide.legs.as_ref().is_ok_and(|legs| legs.verdict.is_clear());
    vec![
        Line::warning(format!("does not come round: {}", stopped(slide))),
        Line::weighed(!clear, known),
    ]
}

/// Why a trace did not come round, where, and what to do.
fn stopped(slide: &Slide) -> String {
    let path = slide.path();
    let last = path.len() - 1;
    let place = plain::point(path[last]);
    let limit = slide.settings.max_iterations;
    match slide.nfp.stop {
        StopReason::Closed => "it ended back at its start, and its path does not lead round the \
                               carrier: another --tolerance may lead round"
            .into(),
        StopReason::Passes if slide.stands => format!(
            "it came to a standstill at point {last}, {place}, and {} lead no farther: try another \
             --tolerance, or widen what it stands in",
            match limit < MOST_PASSES {
                true => "10000 passes",
                false => "the last 5000 of its passes",
            }
        ),
        StopReason::Passes => format!(
            "all {limit} passes were used up on the way, at point {last}, {place}: {}",
            match limit < MOST_PASSES {
                true => "allow more by --passes, up to 10000",
                false => "no more can be allowed, but another --tolerance may lead round",
            }
        ),
        stop => format!(
            "the trace ended {stop}, at point {last}, {place}: another --tolerance or \
             --least-move may lead on"
        ),
    }
}

/// What was traced.
fn traced(slide: &Slide) -> Vec<Line> {
    let path = slide.path();
    let [first, last] = [path[0], path[path.len() - 1]].map(plain::point);
    let (disc, carrier) = (plain::corners(slide.disc.len()), plain::corners(slide.carrier.len()));
    let points = plain::count(path.len(), "point", "points");
    let passes = plain::count(slide.nfp.passes as usize, "pass", "passes");
    let (limit, stop) = (slide.settings.max_iterations, slide.nfp.stop);
    [
        format!("a disc of {disc}, slid along a carrier of {carrier} by the given rule"),
        format!("the path has {points}, from {first} to {last}"),
        format!("{passes} of at most {limit}, ended {stop}"),
    ]
    .map(Line::plain)
    .to_vec()
}

/// The path as text, with what warns in front.
pub fn path_file(slide: &Slide) -> String {
    let warnings = verdict(slide).into_iter().filter(Line::warns);
    let head: String = warnings.map(|warning| format!("# {warning}\n")).collect();
    format!("{head}{PATH_MARK}\n{}", plain::lines(slide.path()))
}

/// Why there is no slide: the trace was too short, and what to do about it.
pub fn too_short(passes: u64, stop: StopReason, settings: &SlidingNfpConfig) -> String {
    let more = match stop {
        StopReason::Passes if settings.max_iterations < MOST_PASSES => "more --passes",
        _ => "another --tolerance or --least-move",
    };
    let passes = plain::count(passes as usize, "pass", "passes");
    format!(
        "the trace stored fewer than three points in {passes} and ended {stop}: {more} may lead on"
    )
}
