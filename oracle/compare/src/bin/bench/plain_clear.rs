//! Whole moves and reasons in plain Rust: i64, no refusals, and a line is given up at the
//! first corner on its wrong side.

/// A point with whole coordinates.
pub type Spot = (i64, i64);

/// A line by two points.
pub type Line = [Spot; 2];

/// The orbiting polygon's corners at the start and at the end.
pub struct Way {
    pub start: Vec<Spot>,
    pub end: Vec<Spot>,
}

/// Which side of a line a point lies on: above 0 left.
fn side([p, q]: Line, v: Spot) -> i64 {
    (q.0 - p.0) * (v.1 - p.1) - (q.1 - p.1) * (v.0 - p.0)
}

/// Whether the line parts the edge from the way.
fn parts(way: &Way, edge: [Spot; 2], line: Line) -> bool {
    line[0] != line[1]
        && side(line, edge[0]) <= 0
        && side(line, edge[1]) <= 0
        && way.start.iter().zip(&way.end).all(|(&a, &b)| side(line, a) >= 0 && side(line, b) >= 0)
}

/// The line that parts an edge, if the line there or back does.
fn either(way: &Way, edge: [Spot; 2], [p, q]: Line) -> Option<Line> {
    [[p, q], [q, p]].into_iter().find(|&line| parts(way, edge, line))
}

/// The sides of the way's box, each with the way on its left.
fn sides(way: &Way) -> [Line; 4] {
    let (mut low, mut high) = (way.start[0], way.start[0]);
    for &(x, y) in way.start.iter().chain(&way.end) {
        low = (low.0.min(x), low.1.min(y));
        high = (high.0.max(x), high.1.max(y));
    }
    let across = |y, from, to| [(from, y), (to, y)];
    let upward = |x, from, to| [(x, from), (x, to)];
    [upward(high.0, 0, 1), across(high.1, 1, 0), upward(low.0, 1, 0), across(low.1, 0, 1)]
}

/// Whether the edge is right of a line that has the way on its left.
fn is_right(edge: [Spot; 2], line: Line) -> bool {
    side(line, edge[0]) <= 0 && side(line, edge[1]) <= 0
}

/// The first line of the search that parts an edge, but for the line before.
fn line_for(way: &Way, sides: &[Line; 4], edge: [Spot; 2]) -> Option<Line> {
    let n = way.start.len();
    let next = |i| if i + 1 < n { i + 1 } else { 0 };
    let beside = sides.iter().copied().find(|&line| is_right(edge, line));
    beside
        .or_else(|| (0..n).find_map(|i| either(way, edge, [way.start[i], way.end[i]])))
        .or_else(|| {
            (0..n).find_map(|i| {
                either(way, edge, [way.start[i], way.start[next(i)]])
                    .or_else(|| either(way, edge, [way.end[i], way.end[next(i)]]))
            })
        })
        .or_else(|| either(way, edge, edge))
}

/// The edge of a ring with this index.
fn edge(ring: &[Spot], j: usize) -> [Spot; 2] {
    [ring[j], ring[if j + 1 < ring.len() { j + 1 } else { 0 }]]
}

/// The balance of a reason, all of whose lines part.
fn balanced(ring: &[Spot], way: &Way, lines: &[Line]) -> bool {
    let low = way.start.iter().chain(&way.end).map(|v| v.1).min().expect("corners");
    let mut balance = 0;
    for (j, [p, q]) in lines.iter().enumerate() {
        if p.1 < q.1 {
            let [a, b] = edge(ring, j);
            balance += i64::from(b.1 > low) - i64::from(a.1 > low);
        }
    }
    balance == 0
}

/// The ground of a reason: 0 if it holds, 1 and the edge, or 2.
pub fn check(ring: &[Spot], way: &Way, lines: &[Line]) -> (u32, u64) {
    match (0..ring.len()).find(|&j| !parts(way, edge(ring, j), lines[j])) {
        Some(j) => (1, j as u64),
        None if balanced(ring, way, lines) => (0, 0),
        None => (2, 0),
    }
}

/// The ground of a move, with the lines that were found.
pub fn search(ring: &[Spot], way: &Way, lines: &mut Vec<Line>) -> (u32, u64) {
    lines.clear();
    let sides = sides(way);
    for j in 0..ring.len() {
        let edge = edge(ring, j);
        let before = lines.last().copied().filter(|&line| is_right(edge, line));
        match before.or_else(|| line_for(way, &sides, edge)) {
            Some(line) => lines.push(line),
            None => return (1, j as u64),
        }
    }
    if balanced(ring, way, lines) {
        (0, 0)
    } else {
        (2, 0)
    }
}
