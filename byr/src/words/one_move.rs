//! What is said of one move.

use super::legs::{basis, verdict};
use super::moved::{self, Telling};
use crate::answers::one_move::OneMove;
use crate::plain;
use crate::told::Line;
use crate::walk::Verdict;
use byrlygent::nfp_sliding::{CollisionEvent, ContactType, Explanation, Ground};
use byrlygent::Point;

/// The verdict, and behind it what was asked, what the rule says and what moved to the grid;
/// the lines of the reason where they are asked for.
pub fn told(of: &OneMove, telling: Telling, lines: bool) -> Vec<Line> {
    let known = of.verdict();
    let mut told = vec![Line::plain(verdict(&of.walk, known, &of.carrier))];
    told.extend(
        (of.is_clear_by_rule() && known.is_blocked())
            .then(|| Line::warning("the rule says clear, and on the grid the move is not")),
    );
    told.extend(basis(&of.walk, known));
    let [at, by] = [of.at, of.by].map(plain::point);
    told.push(Line::plain(format!("the disc as drawn, moved to {at}, goes on by {by}")));
    told.push(Line::plain(format!("by the rule: {}", rule(of))));
    told.extend(moved::one_move(&of.walk, telling));
    told.extend(reason(of, lines));
    told
}

/// The lines of the reason, each once with the edges that it parts, or how to ask for them.
fn reason(of: &OneMove, lines: bool) -> Vec<Line> {
    let partings = of.partings();
    if partings.is_empty() {
        return Vec::new();
    }
    let count = plain::count(partings.len(), "line", "lines");
    let edges = plain::count(of.carrier.len(), "edge", "edges");
    let first = Line::plain(format!("the reason has {count} for {edges}"));
    if !lines {
        return vec![first, Line::hint("(--lines prints the reason)")];
    }
    let how = Line::hint(
        "of each line, from p to q, the disc's way lies left or on it, and these edges right or on \
         it (p.x p.y q.x q.y in units)",
    );
    [first, how]
        .into_iter()
        .chain(partings.iter().map(|shared| Line::detail(shared.to_string())))
        .collect()
}

/// What the rule says.
fn rule(of: &OneMove) -> String {
    let Explanation { ground, too_near, between, too_far } = of.rule;
    let counts = format!("hits: {too_near} too near, {between} between, {too_far} too far");
    match ground {
        Ground::Hit { hit, others } => {
            let (pair, distance) = (pair(of, &hit), plain::number(hit.distance));
            let others = match others {
                0 => "no other pair is hit there".to_string(),
                1 => "1 other pair is hit there".to_string(),
                _ => format!("{others} other pairs are hit there"),
            };
            format!("not clear: {pair} after {distance}; {others} ({counts})")
        }
        clear => format!(
            "clear by ground {}: {clear} ({counts}); what touches or overlaps already the rule does \
             not count",
            clear.number()
        ),
    }
}

/// The pair of a hit.
fn pair(of: &OneMove, hit: &CollisionEvent) -> String {
    let (carrier, disc) = (hit.stationary_idx, hit.orbiting_idx);
    let edge = |ring: &[Point], at: usize| {
        let [a, b] = [ring[at], ring[(at + 1) % ring.len()]].map(plain::point);
        format!("edge {at}, from {a} to {b},")
    };
    match hit.contact_type {
        ContactType::VertexEdge => {
            format!("the disc's corner {disc} meets the carrier's {}", edge(&of.carrier, carrier))
        }
        _ => {
            let at = plain::point(of.carrier[carrier]);
            format!("the disc's edge {disc} meets the carrier's corner {carrier}, {at},")
        }
    }
}

/// What was found, for the front of a page.
pub fn finding(of: &OneMove) -> Line {
    let [at, by] = [of.at, of.by].map(plain::point);
    let known = verdict(&of.walk, of.verdict(), &of.carrier);
    let rule = match (of.is_clear_by_rule(), of.verdict().is_clear()) {
        (false, true) => ", and the rule says that it is not clear",
        (true, false) if of.verdict().is_blocked() => ", and the rule says that it is clear",
        _ => "",
    };
    // What is not known of a hull's sake warns of nothing.
    let warns = !of.is_well() && !matches!(of.verdict(), Verdict::NotKnown(_));
    Line::weighed(warns, format!("The move by {by} from {at}: {known}{rule}."))
}
