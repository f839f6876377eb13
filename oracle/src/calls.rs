//! The answer that docs/SCOPE.md gives to each exported function but those of
//! `book`, `wkb`, `grounds`, `path` and `mend`: the refusals in their order, then the
//! text over the fixed helpers.
//! Lists are x, y alternating; a room is written on success only, at its front.

use crate::answers::{Error, Nfp, Point, Trace};
use crate::fixed::nfp_sliding as sliding;
use crate::fixed::nfp_sliding::{Contact, ContactType, SlidingNfpConfig, TranslationVector};
use crate::fixed::{helpers, polygon_ops, robust};
use crate::refusals::{self, fits, lists, polygons, Answer, Refusal, Settings};
use crate::refusals::{PATH, POLYGON, RING, VECTORS};

/// The points of a list of x, y alternating.
pub fn points_of(list: &[f64]) -> Vec<Point> {
    list.chunks_exact(2).map(|p| (p[0], p[1])).collect()
}

/// Writes the points to the front of the room.
pub(crate) fn put(room: &mut [f64], points: &[Point]) {
    for (place, point) in room.chunks_exact_mut(2).zip(points) {
        place[0] = point.0;
        place[1] = point.1;
    }
}

/// Writes the points if they fit and answers how many they are; else refusal 5.
fn fill(room: &mut [f64], points: &[Point]) -> Answer<usize> {
    fits(points.len(), 2, room.len())?;
    put(room, points);
    Ok(points.len())
}

// ---------------------------------------------------------------------------
// Scalars
// ---------------------------------------------------------------------------

/// The absolute value.
pub fn abs(x: f64) -> f64 {
    x.abs()
}

/// The smaller of two, of a NaN and a number the number.
pub fn smaller(a: f64, b: f64) -> f64 {
    helpers::smaller(a, b)
}

/// The larger of two, of a NaN and a number the number.
pub fn larger(a: f64, b: f64) -> f64 {
    helpers::larger(a, b)
}

/// `lo` if x is below it, else `hi` if x is above that, else x itself.
pub fn clamp(x: f64, lo: f64, hi: f64) -> f64 {
    if x < lo {
        lo
    } else if x > hi {
        hi
    } else {
        x
    }
}

/// The square root, rounded once.
pub fn sqrt(x: f64) -> f64 {
    x.sqrt()
}

// ---------------------------------------------------------------------------
// Segments
// ---------------------------------------------------------------------------

/// 1 if a, b, c turn counter-clockwise, -1 if clockwise, 0 within the margin.
pub fn orientation(a: Point, b: Point, c: Point) -> Answer<i32> {
    refusals::coordinates(&[a.0, a.1, b.0, b.1, c.0, c.1])?;
    Ok(polygon_ops::orientation(a, b, c))
}

/// Whether p lies in the box of a and b, with the margin.
pub fn on_segment(a: Point, b: Point, p: Point) -> Answer<bool> {
    refusals::coordinates(&[a.0, a.1, b.0, b.1, p.0, p.1])?;
    Ok(polygon_ops::on_segment(a, b, p))
}

/// Whether the segments p1-p2 and p3-p4 meet.
pub fn segments_intersect(p1: Point, p2: Point, p3: Point, p4: Point) -> Answer<bool> {
    refusals::coordinates(&[p1.0, p1.1, p2.0, p2.1, p3.0, p3.1, p4.0, p4.1])?;
    Ok(polygon_ops::segments_intersect(p1, p2, p3, p4))
}

/// The distance from p to the segment a-b, as `polygon_ops` has it.
pub fn point_segment_distance(p: Point, a: Point, b: Point) -> Answer<f64> {
    refusals::coordinates(&[p.0, p.1, a.0, a.1, b.0, b.1])?;
    Ok(polygon_ops::point_segment_distance(p, a, b))
}

/// Where p's foot lies on the segment a-b, 0 at a and 1 at b, and the code of
/// where that is.
pub fn project_point_to_segment(p: Point, a: Point, b: Point) -> Answer<(f64, u32)> {
    refusals::coordinates(&[p.0, p.1, a.0, a.1, b.0, b.1])?;
    Ok((sliding::project_point_to_segment(p, a, b), foot_on(p, a, b)))
}

/// Where p's foot sits on the edge a-b by request P7: 0 at its start, 1 at its
/// end, 2 between.
fn foot_on(p: Point, a: Point, b: Point) -> u32 {
    let (start, end) = (0.0, 1.0);
    let parameter = sliding::project_point_to_segment(p, a, b);
    match (parameter > start, parameter < end) {
        (false, _) => 0,
        (true, false) => 1,
        (true, true) => 2,
    }
}

/// The distance from p to the segment a-b, as `nfp_sliding` has it.
pub fn point_to_segment_distance(p: Point, a: Point, b: Point) -> Answer<f64> {
    refusals::coordinates(&[p.0, p.1, a.0, a.1, b.0, b.1])?;
    Ok(sliding::point_to_segment_distance(p, a, b))
}

/// Whether p is nearer than the tolerance to the segment a-b.
pub fn point_on_segment(p: Point, a: Point, b: Point, tolerance: f64) -> Answer<bool> {
    refusals::coordinates(&[p.0, p.1, a.0, a.1, b.0, b.1])?;
    refusals::tolerance(tolerance)?;
    Ok(sliding::point_on_segment(p, a, b, tolerance))
}

// ---------------------------------------------------------------------------
// Rings
// ---------------------------------------------------------------------------

/// The points of a ring of 0 to 256 vertices, or refusal 1, 9 or 2.
fn ring_of(ring: &[f64]) -> Answer<Vec<Point>> {
    lists(&[(ring, RING)])?;
    refusals::coordinates(ring)?;
    Ok(points_of(ring))
}

/// Writes the ring mirrored at x = 0, turned round; answers its vertices.
pub fn mirror_polygon(ring: &[f64], room: &mut [f64]) -> Answer<usize> {
    fill(room, &polygon_ops::mirror_polygon(&ring_of(ring)?))
}

/// Writes the ring without a closing repeat; answers the vertices left.
pub fn open_ring(ring: &[f64], room: &mut [f64]) -> Answer<usize> {
    fill(room, &polygon_ops::open_ring(ring_of(ring)?))
}

/// Whether no two edges meet but neighbours.
pub fn is_simple_polygon(ring: &[f64]) -> Answer<bool> {
    Ok(polygon_ops::is_simple_polygon(&ring_of(ring)?))
}

/// The least distance of a vertex of one ring to an edge of the other.
pub fn ring_distance(a: &[f64], b: &[f64]) -> Answer<f64> {
    lists(&[(a, RING), (b, RING)])?;
    refusals::coordinates(a)?;
    refusals::coordinates(b)?;
    Ok(polygon_ops::ring_distance(&points_of(a), &points_of(b)))
}

/// Twice the signed area.
pub fn signed_area2(ring: &[f64]) -> Answer<f64> {
    Ok(polygon_ops::signed_area2(&ring_of(ring)?))
}

/// The signed area by the compensated sum.
pub fn signed_area_robust(ring: &[f64]) -> Answer<f64> {
    Ok(robust::signed_area_robust(&ring_of(ring)?))
}

// ---------------------------------------------------------------------------
// Contacts and vectors
// ---------------------------------------------------------------------------

/// docs/SCOPE.md's number of a contact's kind.
fn kind_number(kind: ContactType) -> u64 {
    match kind {
        ContactType::VertexEdge => 0,
        ContactType::EdgeVertex => 1,
        ContactType::EdgeEdge => 2,
    }
}

/// Where a contact's foot sits: that of the vertex on the edge it touches, or of
/// the orbiting edge's first end on the stationary edge.
fn foot_of(contact: &Contact, stationary: &[Point], orbiting: &[Point]) -> u32 {
    let (s, o) = (contact.stationary_idx, contact.orbiting_idx);
    let edge = |ring: &[Point], i: usize| (ring[i], ring[(i + 1) % ring.len()]);
    let (vertex, (from, to)) = match contact.contact_type {
        ContactType::VertexEdge | ContactType::EdgeEdge => (orbiting[o], edge(stationary, s)),
        ContactType::EdgeVertex => (stationary[s], edge(orbiting, o)),
    };
    foot_on(vertex, from, to)
}

/// Writes each contact's kind, two indices and foot to `which` and its point to
/// `points`; answers how many there are.
pub fn find_contacts(
    stationary: &[f64],
    orbiting: &[f64],
    tolerance: f64,
    which: &mut [u64],
    points: &mut [f64],
) -> Answer<usize> {
    polygons(stationary, orbiting)?;
    refusals::tolerance(tolerance)?;
    let (stationary, orbiting) = (points_of(stationary), points_of(orbiting));
    let found = sliding::find_contacts(&stationary, &orbiting, tolerance);
    fits(found.len(), 4, which.len())?;
    fits(found.len(), 2, points.len())?;
    for (place, contact) in which.chunks_exact_mut(4).zip(&found) {
        place[0] = kind_number(contact.contact_type);
        place[1] = contact.stationary_idx as u64;
        place[2] = contact.orbiting_idx as u64;
        place[3] = u64::from(foot_of(contact, &stationary, &orbiting));
    }
    fill(points, &found.iter().map(|c| c.point).collect::<Vec<_>>())
}

/// The place of a contact among those found: no two share kind and indices.
fn source_of(contact: &Contact, found: &[Contact]) -> u64 {
    let same = |c: &Contact| {
        c.contact_type == contact.contact_type
            && c.stationary_idx == contact.stationary_idx
            && c.orbiting_idx == contact.orbiting_idx
    };
    found.iter().position(same).expect("a vector comes from a contact found") as u64
}

/// Writes each vector's direction and distance, and its contact's place among
/// those found; answers how many there are.
fn fill_vectors(
    answer: &[TranslationVector],
    found: &[Contact],
    vectors: &mut [f64],
    sources: &mut [u64],
) -> Answer<usize> {
    fits(answer.len(), 3, vectors.len())?;
    fits(answer.len(), 1, sources.len())?;
    for (place, vector) in vectors.chunks_exact_mut(3).zip(answer) {
        place[0] = vector.direction.0;
        place[1] = vector.direction.1;
        place[2] = vector.max_distance;
    }
    for (place, vector) in sources.iter_mut().zip(answer) {
        *place = source_of(&vector.source_contact, found);
    }
    Ok(answer.len())
}

/// Writes the two vectors of each contact found; answers how many there are.
pub fn compute_translation_vectors(
    stationary: &[f64],
    orbiting: &[f64],
    tolerance: f64,
    vectors: &mut [f64],
    sources: &mut [u64],
) -> Answer<usize> {
    polygons(stationary, orbiting)?;
    refusals::tolerance(tolerance)?;
    let (stationary, orbiting) = (points_of(stationary), points_of(orbiting));
    // The reference position of the group is not used here.
    let group = sliding::create_touching_group(&stationary, &orbiting, (0.0, 0.0), tolerance);
    let answer = sliding::compute_translation_vectors(&group, &stationary, &orbiting);
    fill_vectors(&answer, &group.contacts, vectors, sources)
}

/// Writes the vectors that lead to no visited position; answers how many.
#[allow(clippy::too_many_arguments)]
pub fn handle_perfect_fit(
    stationary: &[f64],
    orbiting: &[f64],
    reference: Point,
    visited: &[f64],
    tolerance: f64,
    vectors: &mut [f64],
    sources: &mut [u64],
) -> Answer<usize> {
    lists(&[(stationary, POLYGON), (orbiting, POLYGON), (visited, PATH)])?;
    refusals::coordinates(stationary)?;
    refusals::coordinates(orbiting)?;
    refusals::finite(&[reference.0, reference.1])?;
    refusals::finite(visited)?;
    refusals::tolerance(tolerance)?;
    let (stationary, orbiting) = (points_of(stationary), points_of(orbiting));
    let visited = points_of(visited);
    let group = sliding::create_touching_group(&stationary, &orbiting, reference, tolerance);
    let answer = sliding::handle_perfect_fit(&group, &stationary, &orbiting, &visited, tolerance);
    fill_vectors(&answer, &group.contacts, vectors, sources)
}

/// The place of the first vector with the greatest score, nothing for an empty
/// list; three numbers a vector, all bit patterns taken.
pub fn select_translation_vector(
    vectors: &[f64],
    previous: Option<Point>,
    centroid: Point,
    position: Point,
) -> Answer<Option<u64>> {
    lists(&[(vectors, VECTORS)])?;
    // The text answers the vector itself; its place rides along in the contact.
    let carried = |(place, v): (usize, &[f64])| {
        let contact = Contact {
            contact_type: ContactType::VertexEdge,
            stationary_idx: place,
            orbiting_idx: 0,
            point: (0.0, 0.0),
        };
        TranslationVector::new((v[0], v[1]), v[2], contact)
    };
    let vectors: Vec<_> = vectors.chunks_exact(3).enumerate().map(carried).collect();
    let selected = sliding::select_translation_vector(&vectors, previous, centroid, position);
    Ok(selected.map(|v| v.source_contact.stationary_idx as u64))
}

// ---------------------------------------------------------------------------
// Collision, fitting, overlap
// ---------------------------------------------------------------------------

/// What a move runs into: distance, kind and the two indices.
#[derive(Debug, Clone, Copy, PartialEq)]
pub struct Hit {
    pub distance: f64,
    pub kind: u32,
    pub stationary: u64,
    pub orbiting: u64,
}

/// The first hit of the least distance that the move runs into, or nothing.
pub fn check_translation_collision(
    stationary: &[f64],
    orbiting: &[f64],
    translation: Point,
    tolerance: f64,
) -> Answer<Option<Hit>> {
    polygons(stationary, orbiting)?;
    refusals::finite(&[translation.0, translation.1])?;
    refusals::tolerance(tolerance)?;
    let (stationary, orbiting) = (points_of(stationary), points_of(orbiting));
    let event =
        sliding::check_translation_collision(&stationary, &orbiting, translation, tolerance);
    Ok(event.map(|e| Hit {
        distance: e.distance,
        kind: kind_number(e.contact_type) as u32,
        stationary: e.stationary_idx as u64,
        orbiting: e.orbiting_idx as u64,
    }))
}

/// A position nearer to a concave vertex where the polygons do not overlap.
pub fn detect_interlocking_opportunity(
    stationary: &[f64],
    orbiting: &[f64],
    position: Point,
    tolerance: f64,
) -> Answer<Option<Point>> {
    polygons(stationary, orbiting)?;
    refusals::finite(&[position.0, position.1])?;
    refusals::tolerance(tolerance)?;
    let (stationary, orbiting) = (points_of(stationary), points_of(orbiting));
    Ok(sliding::detect_interlocking_opportunity(&stationary, &orbiting, position, tolerance))
}

/// The position that brings the moved orbiting polygon back to a contact.
pub fn recover_contact(
    stationary: &[f64],
    orbiting: &[f64],
    position: Point,
    tolerance: f64,
) -> Answer<Option<Point>> {
    polygons(stationary, orbiting)?;
    refusals::finite(&[position.0, position.1])?;
    refusals::tolerance(tolerance)?;
    let (stationary, orbiting) = (points_of(stationary), points_of(orbiting));
    Ok(sliding::recover_contact(&stationary, &orbiting, position, tolerance))
}

/// Whether no axis separates the polygons by more than 1e-6.
pub fn polygons_overlap(a: &[f64], b: &[f64]) -> Answer<bool> {
    polygons(a, b)?;
    Ok(sliding::polygons_overlap(&points_of(a), &points_of(b)))
}

/// Whether no axis separates the polygons by more than the tolerance.
pub fn polygons_overlap_with_tolerance(a: &[f64], b: &[f64], tolerance: f64) -> Answer<bool> {
    polygons(a, b)?;
    refusals::tolerance(tolerance)?;
    Ok(sliding::polygons_overlap_with_tolerance(&points_of(a), &points_of(b), tolerance))
}

// ---------------------------------------------------------------------------
// Start, simplification, trace
// ---------------------------------------------------------------------------

/// Where the orbiting polygon, as lent, first touches the stationary one.
pub fn find_start_position(stationary: &[f64], orbiting: &[f64]) -> Answer<Point> {
    polygons(stationary, orbiting)?;
    let start = sliding::find_start_position(&points_of(stationary), &points_of(orbiting));
    Ok(start.expect("the start is found for every polygon"))
}

/// Writes the list without its collinear points; answers the points left.
pub fn simplify_polygon(list: &[f64], tolerance: f64, room: &mut [f64]) -> Answer<usize> {
    lists(&[(list, PATH)])?;
    refusals::finite(list)?;
    refusals::tolerance(tolerance)?;
    let simplified = sliding::simplify_polygon(&points_of(list), tolerance);
    fill(room, &simplified.expect("every list is simplified"))
}

/// What a trace answers.
#[derive(Debug, Clone, Copy, PartialEq, Eq)]
pub enum Traced {
    /// Any refusal but 5 and 6: nothing was traced.
    Refused(Refusal),
    /// Refusal 5: the work room is full of stored points.
    Full { passes: u64 },
    /// Refusal 6: the path has under three points.
    Short { passes: u64, stop: u32 },
    /// Success: points of the result, points of the path, passes, reason.
    Done { points: u64, stored: u64, passes: u64, stop: u32 },
}

impl Traced {
    /// The refusal, nothing for success.
    pub fn refusal(&self) -> Option<Refusal> {
        match *self {
            Self::Refused(refusal) => Some(refusal),
            Self::Full { .. } => Some(Refusal::of(5)),
            Self::Short { .. } => Some(Refusal::of(6)),
            Self::Done { .. } => None,
        }
    }
}

/// The refusals of a trace before it begins, in their order.
fn trace_tests(
    stationary: &[f64],
    orbiting: &[f64],
    settings: &Settings,
    work: &[f64],
    result: &[f64],
) -> Answer<()> {
    polygons(stationary, orbiting)?;
    refusals::settings(settings)?;
    refusals::trace_rooms(work, result)
}

/// Writes what the text answered to a trace's rooms, and says it in numbers.
fn trace_answer(
    answer: crate::answers::Result<Nfp>,
    work: &mut [f64],
    result: &mut [f64],
) -> Traced {
    match answer {
        Ok(Nfp { polygon, trace: Trace { path, passes, stop } }) => {
            put(work, &path);
            put(result, &polygon);
            let (points, stored) = (polygon.len() as u64, path.len() as u64);
            Traced::Done { points, stored, passes, stop }
        }
        Err(Error::Full(Trace { path, passes, .. })) => {
            put(work, &path);
            Traced::Full { passes }
        }
        Err(Error::Short(Trace { path, passes, stop })) => {
            put(work, &path);
            Traced::Short { passes, stop }
        }
        Err(Error::InvalidGeometry(_)) => unreachable!("the lengths were tested"),
    }
}

/// Traces the orbiting polygon round the stationary one: the path goes to the
/// work room, the simplified path, on success, to the result room.
pub fn compute_nfp_sliding(
    stationary: &[f64],
    orbiting: &[f64],
    settings: &Settings,
    work: &mut [f64],
    result: &mut [f64],
) -> Traced {
    if let Err(refusal) = trace_tests(stationary, orbiting, settings, work, result) {
        return Traced::Refused(refusal);
    }
    let config = SlidingNfpConfig {
        contact_tolerance: settings.contact_tolerance,
        max_iterations: settings.max_iterations as usize,
        min_translation: settings.min_translation,
    };
    let (stationary, orbiting) = (points_of(stationary), points_of(orbiting));
    let answer = sliding::compute_nfp_sliding(&stationary, &orbiting, &config, work.len() / 2);
    trace_answer(answer, work, result)
}
