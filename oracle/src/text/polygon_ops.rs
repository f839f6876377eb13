//! Low-level polygon predicates shared by boundary containment (out-of-bounds
//! filtering) and input validation (self-intersection rejection).
//!
//! `u-geometry` supplies area / centroid / point-in-polygon primitives but no
//! public segment-segment intersection predicate, which both the polygon
//! boundary-containment check and the simple-polygon check need. These helpers
//! provide it with an orientation (signed-area) test.

use super::helpers::{larger, smaller, SUM_START};

/// Absolute threshold below which an orientation determinant is treated as zero
/// (collinear). Cross products here are in coordinate-squared units; nesting
/// coordinates are typically 1e0–1e4, so this tolerates float noise without
/// masking genuine crossings.
const ORIENT_EPS: f64 = 1e-9;

/// Sign of the cross product `(b - a) × (c - a)`:
/// `+1` if `a→b→c` turns counter-clockwise, `-1` if clockwise, `0` if collinear.
pub fn orientation(a: (f64, f64), b: (f64, f64), c: (f64, f64)) -> i32 {
    let cross = (b.0 - a.0) * (c.1 - a.1) - (b.1 - a.1) * (c.0 - a.0);
    if cross > ORIENT_EPS {
        1
    } else if cross < -ORIENT_EPS {
        -1
    } else {
        0
    }
}

/// Returns true when point `p`, known to be collinear with segment `a→b`, lies
/// within that segment's bounding box (i.e. actually on the segment).
pub fn on_segment(a: (f64, f64), b: (f64, f64), p: (f64, f64)) -> bool {
    p.0 >= smaller(a.0, b.0) - ORIENT_EPS
        && p.0 <= larger(a.0, b.0) + ORIENT_EPS
        && p.1 >= smaller(a.1, b.1) - ORIENT_EPS
        && p.1 <= larger(a.1, b.1) + ORIENT_EPS
}

/// Returns true when closed segments `p1→p2` and `p3→p4` intersect, including
/// endpoint-touching and collinear overlap (the general/degenerate cases).
pub fn segments_intersect(
    p1: (f64, f64),
    p2: (f64, f64),
    p3: (f64, f64),
    p4: (f64, f64),
) -> bool {
    let d1 = orientation(p3, p4, p1);
    let d2 = orientation(p3, p4, p2);
    let d3 = orientation(p1, p2, p3);
    let d4 = orientation(p1, p2, p4);

    // Proper crossing: each segment straddles the other's supporting line.
    if ((d1 > 0 && d2 < 0) || (d1 < 0 && d2 > 0)) && ((d3 > 0 && d4 < 0) || (d3 < 0 && d4 > 0)) {
        return true;
    }

    // Collinear / touching endpoints.
    (d1 == 0 && on_segment(p3, p4, p1))
        || (d2 == 0 && on_segment(p3, p4, p2))
        || (d3 == 0 && on_segment(p1, p2, p3))
        || (d4 == 0 && on_segment(p1, p2, p4))
}

/// Reflects a polygon across the y-axis (`(x, y) -> (-x, y)`) and reverses
/// vertex order to restore CCW winding — a reflection has determinant -1, so
/// leaving the order unchanged would silently flip an originally-CCW ring to
/// CW, breaking every downstream signed-area/orientation assumption.
///
/// Used for `allow_flip` mirroring: standard technique (Bennell & Oliveira
/// 2008) is to reflect the orbiting polygon once and feed it through the
/// existing NFP/placement pipeline as an additional orientation candidate,
/// the same way rotation candidates are enumerated.
pub fn mirror_polygon(vertices: &[(f64, f64)]) -> Vec<(f64, f64)> {
    vertices.iter().rev().map(|&(x, y)| (-x, y)).collect()
}

/// Drops the repeated closing vertex of an explicitly closed ring.
///
/// GeoJSON, WKT, DXF and the ESICUP benchmark files all write a ring with its
/// first vertex repeated at the end. Read as an open ring that repeat is a
/// zero-length edge touching the first edge, which the simplicity check reports
/// as a self-intersection. A ring of at most three points is left alone: three
/// points with the last equal to the first are degenerate, not a closed triangle.
pub fn open_ring(mut vertices: Vec<(f64, f64)>) -> Vec<(f64, f64)> {
    if vertices.len() > 3 && vertices.first() == vertices.last() {
        vertices.pop();
    }
    vertices
}

/// Returns true when the polygon ring is **simple**: no pair of non-adjacent
/// edges intersects. Adjacent edges (sharing a vertex) are exempt, as is the
/// closing wrap-around pair. Fewer than 3 vertices is vacuously not simple.
///
/// O(n²) in the vertex count — run once at input validation, not per placement.
pub fn is_simple_polygon(vertices: &[(f64, f64)]) -> bool {
    let n = vertices.len();
    if n < 3 {
        return false;
    }

    for i in 0..n {
        let a1 = vertices[i];
        let a2 = vertices[(i + 1) % n];
        for j in (i + 1)..n {
            // Adjacent edges share a vertex and are exempt: the immediate
            // successor (j == i+1) and the closing wrap-around pair (i==0, j==n-1).
            if j == i + 1 || (i == 0 && j == n - 1) {
                continue;
            }
            let b1 = vertices[j];
            let b2 = vertices[(j + 1) % n];
            if segments_intersect(a1, a2, b1, b2) {
                return false;
            }
        }
    }
    true
}

/// Shortest distance from point `p` to segment `a`–`b`.
pub fn point_segment_distance(p: (f64, f64), a: (f64, f64), b: (f64, f64)) -> f64 {
    let (dx, dy) = (b.0 - a.0, b.1 - a.1);
    let len2 = dx * dx + dy * dy;
    let t = if len2 == 0.0 {
        0.0
    } else {
        (((p.0 - a.0) * dx + (p.1 - a.1) * dy) / len2).clamp(0.0, 1.0)
    };
    ((p.0 - a.0 - t * dx).powi(2) + (p.1 - a.1 - t * dy).powi(2)).sqrt()
}

/// Shortest distance between the edges of two rings that do not cross: the
/// nearest points of two non-crossing polygonal chains always include a vertex
/// of one of them.
pub fn ring_distance(a: &[(f64, f64)], b: &[(f64, f64)]) -> f64 {
    let one_way = |pts: &[(f64, f64)], ring: &[(f64, f64)]| {
        let n = ring.len();
        pts.iter()
            .flat_map(|&p| {
                (0..n).map(move |i| point_segment_distance(p, ring[i], ring[(i + 1) % n]))
            })
            .fold(f64::INFINITY, smaller)
    };
    smaller(one_way(a, b), one_way(b, a))
}

/// Twice the signed area of a ring: positive for counter-clockwise order.
pub fn signed_area2(vertices: &[(f64, f64)]) -> f64 {
    let n = vertices.len();
    (0..n)
        .map(|i| {
            let (x0, y0) = vertices[i];
            let (x1, y1) = vertices[(i + 1) % n];
            x0 * y1 - x1 * y0
        })
        .fold(SUM_START, |sum, term| sum + term)
}
