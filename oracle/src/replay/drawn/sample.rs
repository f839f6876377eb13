//! Seeded moves of drawings, reasons and paths, for a long run.

use super::cases::{drawn, reversed, square};
use super::{Case, Drawing, CHECK_REASON, CLEAR_MOVE};
use crate::answers::Point;
use crate::drawn::slides::{along, beside, ring, shape, slot, SHAPES};
use crate::drawn::{Ground, MOST_HOW};
use crate::grid::MOST_UNITS;
use crate::replay::clear::spoilt;
use crate::replay::edge;
use crate::replay::lengths::RINGS;
use crate::replay::polygons::near;
use crate::seeded::Seeded;

/// A slide of any shape along an edge or into a slot, in contact or some units off.
fn slide(seeded: &mut Seeded) -> Drawing {
    let most = if seeded.below(200) == 0 { 256 } else { 9 + seeded.below(24) };
    let name = seeded.pick(&SHAPES);
    let shape = shape(seeded, name, most);
    let units = seeded.pick(&[1000, 1000, 100, 64, 999, 5000]);
    let by = seeded.pick(&[0.0, 0.0, 1.0, 2.0, 4.0, -1.0, 30.0]) * seeded.unit() / f64::from(units);
    let slide = match seeded.below(4) {
        0 => along(seeded, &shape, by),
        1 => slot(seeded, &shape, by),
        turn => {
            let corners = 3 + seeded.below(most - 2);
            let mut ring = ring(seeded, corners);
            if turn == 3 && seeded.below(2) == 0 {
                ring = reversed(&ring);
            }
            beside(seeded, &shape, &ring, by)
        }
    };
    drawn(slide, units)
}

/// So many points, some units of a grid in size.
fn anything(seeded: &mut Seeded, points: usize, size: usize, units: u32) -> Vec<f64> {
    let off = seeded.pick(&[0.0, 0.0, 0.5, 1.0]);
    let number = |_| (seeded.whole(size) + off * (seeded.unit() - 0.5)) / f64::from(units);
    (0..2 * points).map(number).collect()
}

/// Small polygons, of few units.
fn small(seeded: &mut Seeded) -> Drawing {
    let units = seeded.pick(&[1, 1, 7, 10, 1000, MOST_UNITS]);
    let (size, corners) = (seeded.pick(&[3, 6, 12]), 3 + seeded.below(3));
    let stationary = anything(seeded, corners, size, units);
    let corners = 3 + seeded.below(2);
    let orbiting = match seeded.below(4) {
        0 => square(2.0 / f64::from(units), 0.0, 0.0),
        _ => anything(seeded, corners, size, units),
    };
    let ends = anything(seeded, 2, size + 4, units);
    let (from, to) = ((ends[0], ends[1]), (ends[2], ends[3]));
    let to = if seeded.below(8) == 0 { from } else { to };
    Drawing { stationary, orbiting, from, to, units }
}

/// Polygons about the end of the grid.
fn at_the_end(seeded: &mut Seeded) -> Drawing {
    let units = seeded.pick(&[1, 10, 1000]);
    let mut drawing = small(seeded);
    let larger = |list: &mut Vec<f64>, times: f64| list.iter_mut().for_each(|x| *x *= times);
    let times = f64::from(drawing.units) / f64::from(units);
    larger(&mut drawing.stationary, times);
    larger(&mut drawing.orbiting, times);
    let far = |seeded: &mut Seeded, near: f64| {
        let end = seeded.pick(&[1e6, -1e6, 0.0]) / f64::from(units);
        end + near * times - seeded.whole(14) / f64::from(units)
    };
    let mut place = |(x, y): Point| (far(seeded, x), far(seeded, y));
    let (from, to) = (place(drawing.from), place(drawing.to));
    Drawing { from, to, units, ..drawing }
}

/// A polygon in a ring about it, which it may touch.
fn within(seeded: &mut Seeded) -> Drawing {
    let inner = small(seeded);
    let half = (10.0 + seeded.below(20) as f64) / f64::from(inner.units);
    let stationary = square(2.0 * half, -half, -half);
    Drawing { stationary, ..inner }
}

/// A drawing of any kind.
fn drawing(seeded: &mut Seeded) -> Drawing {
    match seeded.below(16) {
        0..6 => slide(seeded),
        6..8 => at_the_end(seeded),
        8 => within(seeded),
        _ => small(seeded),
    }
}

/// A reason for the move and how it is put: the lines of the search, which need not
/// balance, as they are, spoilt or put otherwise; or one line for all.
fn reason(seeded: &mut Seeded, drawing: &Drawing) -> (u32, Vec<i32>) {
    let how = seeded.below(MOST_HOW as usize + 1) as u32;
    match drawing.found() {
        Some((Ground::Clear { how: own } | Ground::Enclosed { how: own }, lines)) => {
            let all = spoilt(&lines);
            match seeded.below(4) {
                0 | 1 => (own, lines),
                2 => (own, all[seeded.below(all.len())].clone()),
                _ => (how, lines),
            }
        }
        _ => {
            let line: Vec<i32> = (0..4).map(|_| seeded.whole(9) as i32).collect();
            (how, line.repeat(drawing.stationary.len() / 2))
        }
    }
}

/// A path: the move and on, or round a box.
fn path(seeded: &mut Seeded, drawing: &Drawing) -> Vec<f64> {
    let Drawing { from, to, units, .. } = *drawing;
    let mut path = vec![from.0, from.1, to.0, to.1];
    for _ in 0..seeded.below(5) {
        let last = path.len() - 2;
        let mut near = |x: f64| x + seeded.whole(8) / f64::from(units);
        let (x, y) = (near(path[last]), near(path[last + 1]));
        path.extend([x, y]);
    }
    if seeded.below(500) == 0 {
        let n = seeded.pick(&[20_002, 20_003, 20_004]);
        return path.iter().cycle().take(n).copied().collect();
    }
    path
}

/// The list, of which one in so many has an edge number in one place, or another length.
fn damaged(seeded: &mut Seeded, mut list: Vec<f64>) -> Vec<f64> {
    if list.is_empty() || seeded.below(40) > 0 {
        return list;
    }
    let place = seeded.below(list.len());
    match seeded.below(4) {
        0 => {
            let length = seeded.pick(&RINGS);
            list.iter().cycle().take(length).copied().collect()
        }
        1 => list[..place].to_vec(),
        _ => {
            list[place] = edge(seeded);
            list
        }
    }
}

/// A seeded case of this call.
pub fn case(seeded: &mut Seeded, call: u64) -> Case {
    let fine = drawing(seeded);
    let needed = 4 * (fine.stationary.len() / 2);
    let units = match seeded.below(40) {
        0 => seeded.pick(&[0, MOST_UNITS, MOST_UNITS + 1, u32::MAX, 40_000]),
        _ => fine.units,
    };
    let mut lent = Drawing {
        stationary: damaged(seeded, fine.stationary.clone()),
        orbiting: damaged(seeded, fine.orbiting.clone()),
        units,
        ..fine.clone()
    };
    if seeded.below(40) == 0 {
        lent.to.1 = edge(seeded);
    }
    match call {
        CLEAR_MOVE => lent.search(near(seeded, needed)),
        CHECK_REASON => {
            let (mut how, mut lines) = reason(seeded, &fine);
            if seeded.below(40) == 0 {
                how = seeded.pick(&[MOST_HOW + 1, u32::MAX]);
            }
            if !lines.is_empty() && seeded.below(30) == 0 {
                let place = seeded.below(lines.len());
                match seeded.below(2) {
                    0 => lines.truncate(place),
                    _ => lines[place] = seeded.pick(&[1_000_001, -1_000_001, i32::MIN, 1_000_000]),
                }
            }
            lent.check(how, &lines)
        }
        _ => {
            let path = path(seeded, &fine);
            let path = damaged(seeded, path);
            lent.path(&path, seeded.pick(&[0, 0, 1, 1, u32::MAX]))
        }
    }
}
