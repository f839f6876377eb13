//! What is said of shifts.

use crate::answers::shift::{Plan, Shift, State};
use crate::plain;
use crate::told::Line;
use byrlygent::Point;

/// So many places.
fn places(n: u64) -> String {
    plain::count(n as usize, "place", "places")
}

/// The places of a shift, and how far the inspection is.
pub fn given_out(shift: &Shift, path: &[Point], opened: bool) -> Vec<Line> {
    let after = &shift.after;
    let closing = if opened { ", its closing repeat left off" } else { "" };
    let (all, count) = (places(after.points), places(shift.places.len() as u64));
    let place = |&at: &u64| format!("place {at}: {}", plain::point(path[at as usize]));
    let so_far = match after.covered() {
        covered if covered == after.points => format!("so far all have been given out, {all}"),
        covered => {
            let wanted = after.points.div_ceil(after.per_shift);
            format!("so far {covered} of {all} have been given out; after shift {wanted} all have")
        }
    };
    let first = format!("shift {} inspects {count} of a path of {all}{closing}", after.shifts);
    let last = format!("the next shift starts at place {}", after.start);
    let each = shift.places.iter().map(place);
    [first].into_iter().chain(each).chain([so_far, last]).map(Line::plain).collect()
}

/// How far an inspection is.
pub fn so_far(state: Option<&State>) -> String {
    let Some(state) = state else {
        return "what was given out is not known, since no --state is named".into();
    };
    let shifts = plain::count(state.shifts as usize, "shift", "shifts");
    let (covered, all, start) = (state.covered(), places(state.points), state.start);
    format!("{shifts}, {covered} of {all} given out, the next starts at place {start}")
}

/// A plan in a sentence.
pub fn plan(plan: &Plan) -> String {
    format!(
        "The path has {}, and {} are inspected a shift: after {} every place has been, whatever \
         shift was the first. So far: {}.",
        places(plan.points),
        plan.per_shift,
        plain::count(plan.shifts.len(), "shift", "shifts"),
        so_far(plan.state.as_ref())
    )
}
