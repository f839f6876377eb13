//! What is said of a path that another program traced.

use super::legs::{basis, sentence};
use super::moved::{self, Telling};
use crate::answers::check::Check;
use crate::plain;
use crate::told::Line;
use crate::walk::Verdict;
use byrlygent::nfp_sliding::Fault as First;

/// Whether it is accepted and clear, and behind it both answers and what moved to the grid.
pub fn told(check: &Check, telling: Telling) -> Vec<Line> {
    let known = sentence(&check.legs, &check.carrier);
    let clear = check.legs.as_ref().is_ok_and(|legs| legs.verdict.is_clear());
    let accepted = check.fault == First::None;
    let rule = if accepted { "accepted by the rule" } else { "not accepted by the rule" };
    let legs = match check.legs.as_ref().map(|legs| legs.verdict) {
        Ok(Verdict::Clear) => "clear: nothing lies in between",
        Ok(Verdict::ClearOnGrid(_)) => "clear on the grid alone",
        Ok(Verdict::InTheWay(_) | Verdict::Enclosed) => "not clear on the grid",
        Ok(Verdict::NotKnown(_)) | Err(_) => "not known to be clear",
    };
    let closing = if check.opened { ", its closing repeat left off" } else { "" };
    let points = plain::count(check.path.len(), "point", "points");
    let mut told = vec![
        Line::plain(format!("{rule}, and {legs}")),
        Line::plain(format!("by the rule: {}", by_rule(check))),
        Line::weighed(!clear, known),
    ];
    if let Ok(legs) = &check.legs {
        told.extend(basis(&legs.walk, legs.verdict));
    }
    told.push(Line::plain(format!("a path of {points}{closing}")));
    if let Ok(legs) = &check.legs {
        told.extend(moved::path(&legs.walk, telling));
    }
    told
}

/// The first fault by the rule, with where it is.
fn by_rule(check: &Check) -> String {
    let path = &check.path;
    match check.fault {
        First::None => "accepted: each point has a contact, and no leg runs into something; what \
                        touches or overlaps already the rule does not count"
            .into(),
        First::NoContact(at) => {
            format!("not accepted: at point {at}, {}, nothing is touched", plain::point(path[at]))
        }
        First::Blocked(at) => {
            let next = (at + 1) % path.len();
            let [from, to] = [path[at], path[next]].map(plain::point);
            let leg = format!("the leg from point {at}, {from}, to point {next}, {to},");
            format!("not accepted: {leg} runs into something")
        }
    }
}
