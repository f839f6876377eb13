//! `explain_collision`, written down from docs/SCOPE.md: every hit that the ray test
//! computes is kept, in the order of the scan, and the answer is read off that
//! list. The Rust has no counterpart; the ray test is the text's.

use crate::answers::Point;
use crate::calls::{points_of, Hit};
use crate::fixed::nfp_sliding::ray_segment_intersection;
use crate::refusals::{self, polygons, Answer};

/// Why a move is clear, or not, by docs/SCOPE.md's numbers.
pub const HIT: u32 = 0;
pub const SHORT: u32 = 1;
pub const NEVER: u32 = 2;
pub const NEAR: u32 = 3;
pub const FAR: u32 = 4;
pub const BOTH_SIDES: u32 = 5;

/// The collision answer with its ground: how many other pairs have the hit's very
/// distance, 0 where there is no hit, and how many hits there are of each class.
#[derive(Debug, Clone, Copy, PartialEq)]
pub struct Explanation {
    pub ground: u32,
    pub hit: Option<Hit>,
    pub others: u64,
    pub too_near: u64,
    pub between: u64,
    pub too_far: u64,
}

/// Where a hit lies on the way.
#[derive(Clone, Copy, PartialEq, Eq)]
enum Class {
    TooNear,
    Between,
    TooFar,
}

/// The class of a hit at this distance. What is too near is not too far.
fn class_of(distance: f64, length: f64, tolerance: f64) -> Class {
    if distance <= tolerance {
        Class::TooNear
    } else if distance >= length - tolerance {
        Class::TooFar
    } else {
        Class::Between
    }
}

/// The hits of a ring's vertices, which move in this direction, on another ring's
/// edges: the vertex, the edge, the distance.
fn rays(vertices: &[Point], way: Point, ring: &[Point], tol: f64) -> Vec<(usize, usize, f64)> {
    let mut found = Vec::new();
    for (vertex, &from) in vertices.iter().enumerate() {
        for edge in 0..ring.len() {
            let (start, end) = (ring[edge], ring[(edge + 1) % ring.len()]);
            if let Some(distance) = ray_segment_intersection(from, way, start, end, tol) {
                found.push((vertex, edge, distance));
            }
        }
    }
    found
}

/// All hits in the order of the scan: orbiting vertices on stationary edges, then
/// stationary vertices, which come the other way, on orbiting edges.
fn all_hits(stationary: &[Point], orbiting: &[Point], way: Point, tolerance: f64) -> Vec<Hit> {
    let there = rays(orbiting, way, stationary, tolerance);
    let back = rays(stationary, (-way.0, -way.1), orbiting, tolerance);
    let vertex_edge = there.into_iter().map(|(vertex, edge, distance)| Hit {
        distance,
        kind: 0,
        stationary: edge as u64,
        orbiting: vertex as u64,
    });
    let edge_vertex = back.into_iter().map(|(vertex, edge, distance)| Hit {
        distance,
        kind: 1,
        stationary: vertex as u64,
        orbiting: edge as u64,
    });
    vertex_edge.chain(edge_vertex).collect()
}

/// The ground of a move that is not shorter than the tolerance, by the classes of
/// all hits.
fn ground_of(classes: &[Class]) -> u32 {
    let all = |class: Class| classes.iter().all(|&other| other == class);
    if classes.contains(&Class::Between) {
        HIT
    } else if classes.is_empty() {
        NEVER
    } else if all(Class::TooNear) {
        NEAR
    } else if all(Class::TooFar) {
        FAR
    } else {
        BOTH_SIDES
    }
}

/// What these hits say of a move of this length.
fn explained(hits: &[Hit], length: f64, tolerance: f64) -> Explanation {
    let class = |hit: &Hit| class_of(hit.distance, length, tolerance);
    let classes: Vec<Class> = hits.iter().map(class).collect();
    let of = |class: Class| classes.iter().filter(|&&other| other == class).count() as u64;
    // Of equal ones `min_by` takes the first.
    let between = hits.iter().filter(|hit| class(hit) == Class::Between);
    let first = between.min_by(|a, b| a.distance.total_cmp(&b.distance)).copied();
    let at = |hit: Hit| hits.iter().filter(|other| other.distance == hit.distance).count();
    Explanation {
        ground: ground_of(&classes),
        hit: first,
        others: first.map_or(0, |hit| at(hit) as u64 - 1),
        too_near: of(Class::TooNear),
        between: of(Class::Between),
        too_far: of(Class::TooFar),
    }
}

/// What a move runs into first, or why into nothing. Of a move shorter than the
/// tolerance nothing is scanned.
pub fn explain_collision(
    stationary: &[f64],
    orbiting: &[f64],
    (x, y): Point,
    tolerance: f64,
) -> Answer<Explanation> {
    polygons(stationary, orbiting)?;
    refusals::finite(&[x, y])?;
    refusals::tolerance(tolerance)?;
    let length = (x * x + y * y).sqrt();
    if length < tolerance {
        let nothing = Explanation {
            ground: SHORT,
            hit: None,
            others: 0,
            too_near: 0,
            between: 0,
            too_far: 0,
        };
        return Ok(nothing);
    }
    let way = (x / length, y / length);
    let hits = all_hits(&points_of(stationary), &points_of(orbiting), way, tolerance);
    Ok(explained(&hits, length, tolerance))
}
