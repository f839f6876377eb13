//! The picture of one move.

use super::canvas::{Captions, Picture};
use crate::answers::one_move::OneMove;
use crate::told::Line;
use crate::walk::Verdict;
use byrlygent::nfp_sliding::Ground;
use byrlygent::Point;

/// What is drawn how.
fn legend(of: &OneMove) -> String {
    let known = match of.verdict() {
        Verdict::Clear | Verdict::ClearOnGrid(_) => "; thin dashes: the parting lines",
        Verdict::InTheWay(_) => "; thick: the edge in the way",
        Verdict::NotKnown(_) => "; thick: the edge in the way of the disc's hull",
        Verdict::Enclosed => "",
    };
    let hit = if of.is_clear_by_rule() { "" } else { "; small ring: the first hit by the rule" };
    format!(
        "grey: the carrier; heavy: the disc at the start, dashed: at the end; thin: its way{known}{hit}"
    )
}

/// The move with its parting lines, each once, or with the edge that is told; the lines of text
/// stand above it where that is asked for.
pub fn drawn(of: &OneMove, lines: &[Line], above: bool) -> String {
    let (carrier, start, end) = (&of.carrier, &of.start, of.end());
    let all = [&carrier[..], start, &end].concat();
    let captions = Captions { title: "Is the move clear?", lines, legend: legend(of), above };
    let mut picture = Picture::over(&all, &captions);
    picture.ring(&hull(&[&start[..], &end].concat()), "swept");
    picture.ring(carrier, "still");
    if let Some(edge) = of.verdict().edge() {
        picture.told(carrier, edge);
    }
    picture.ring(start, "start");
    picture.ring(&end, "end");
    for parting in of.partings() {
        let [p, q] = [parting.line.p, parting.line.q].map(|spot| of.walk.grid.in_plane(spot));
        picture.line(p, q);
    }
    if let Ground::Hit { hit, .. } = of.rule.ground {
        picture.touch(of.met(&hit));
    }
    let middle = middle(start);
    picture.arrow(middle, of.by);
    picture.name(middle, (0.0, -14.0), "start");
    picture.name((middle.0 + of.by.0, middle.1 + of.by.1), (0.0, 24.0), "end");
    picture.corner_numbers(carrier, "grey");
    picture.corner_numbers(start, "");
    picture.finished()
}

/// The mean of a ring's corners.
fn middle(ring: &[Point]) -> Point {
    let n = ring.len() as f64;
    ring.iter().fold((0.0, 0.0), |m, p| (m.0 + p.0 / n, m.1 + p.1 / n))
}

/// The hull of some points, for a picture alone.
fn hull(points: &[Point]) -> Vec<Point> {
    let mut sorted = points.to_vec();
    sorted.sort_by(|a, b| a.0.total_cmp(&b.0).then(a.1.total_cmp(&b.1)));
    let half = |points: &mut dyn Iterator<Item = Point>| {
        let mut chain: Vec<Point> = Vec::new();
        for p in points {
            while let [.., a, b] = chain[..] {
                let turn = (b.0 - a.0) * (p.1 - a.1) - (b.1 - a.1) * (p.0 - a.0);
                if turn > 0.0 {
                    break;
                }
                chain.pop();
            }
            chain.push(p);
        }
        chain.pop();
        chain
    };
    let mut ring = half(&mut sorted.iter().copied());
    ring.extend(half(&mut sorted.iter().rev().copied()));
    ring
}
