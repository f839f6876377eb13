//! `is_simple_polygon` in whole numbers, plainly in Rust: as the text has it in floats,
//! with the cross product in i64.

/// A point with whole coordinates.
pub type Spot = (i32, i32);

/// Which way a, b, c turn.
fn orientation(a: Spot, b: Spot, c: Spot) -> i32 {
    let way = |from: i32, to: i32| i64::from(to) - i64::from(from);
    let cross = way(a.0, b.0) * way(a.1, c.1) - way(a.1, b.1) * way(a.0, c.0);
    cross.signum() as i32
}

/// Whether p, in line with a and b, lies between them.
fn on_segment(a: Spot, b: Spot, p: Spot) -> bool {
    p.0 >= a.0.min(b.0) && p.0 <= a.0.max(b.0) && p.1 >= a.1.min(b.1) && p.1 <= a.1.max(b.1)
}

/// Whether the segments p1-p2 and p3-p4 meet.
fn segments_intersect(p1: Spot, p2: Spot, p3: Spot, p4: Spot) -> bool {
    let d1 = orientation(p3, p4, p1);
    let d2 = orientation(p3, p4, p2);
    let d3 = orientation(p1, p2, p3);
    let d4 = orientation(p1, p2, p4);
    if ((d1 > 0 && d2 < 0) || (d1 < 0 && d2 > 0)) && ((d3 > 0 && d4 < 0) || (d3 < 0 && d4 > 0)) {
        return true;
    }
    (d1 == 0 && on_segment(p3, p4, p1))
        || (d2 == 0 && on_segment(p3, p4, p2))
        || (d3 == 0 && on_segment(p1, p2, p3))
        || (d4 == 0 && on_segment(p1, p2, p4))
}

/// Whether no two edges meet but neighbours.
pub fn is_simple_polygon(vertices: &[Spot]) -> bool {
    let n = vertices.len();
    if n < 3 {
        return false;
    }
    for i in 0..n {
        let a1 = vertices[i];
        let a2 = vertices[(i + 1) % n];
        for j in (i + 1)..n {
            if j == i + 1 || (i == 0 && j == n - 1) {
                continue;
            }
            let b1 = vertices[j];
            let b2 = vertices[(j + 1) % n];
            if segments_intersect(a1, a2, b1, b2) {
                return false;
            }
        }
    }
    true
}
