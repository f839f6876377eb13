//! What a move runs into, where else to go, and whether polygons overlap.

use super::contacts::ContactType;
use crate::lent::flat;
use crate::refusal::among;
use crate::{ffi, Entries, List, Point, Result};

/// Represents a potential collision during translation.
#[derive(Debug, Clone, Copy, PartialEq)]
pub struct CollisionEvent {
    /// Distance along translation at which collision occurs.
    pub distance: f64,
    /// Type of contact formed at collision.
    pub contact_type: ContactType,
    /// Index on stationary polygon.
    pub stationary_idx: usize,
    /// Index on orbiting polygon.
    pub orbiting_idx: usize,
}

/// What the orbiting polygon, lent where it stands, runs into when it moves by
/// this translation: the first of the nearest hits, or nothing.
///
/// ```
/// use byrlygent::nfp_sliding::check_translation_collision;
///
/// let stationary = [(0.0, 0.0), (4.0, 0.0), (4.0, 4.0), (0.0, 4.0)];
/// let orbiting = [(-5.0, 1.0), (-3.0, 1.0), (-3.0, 3.0), (-5.0, 3.0)];
/// let hit = check_translation_collision(&stationary, &orbiting, (10.0, 0.0), 1e-6)?.unwrap();
/// assert_eq!((hit.distance, hit.stationary_idx, hit.orbiting_idx), (3.0, 3, 1));
/// assert!(check_translation_collision(&stationary, &orbiting, (3.0, 0.0), 1e-6)?.is_none());
/// # Ok::<(), byrlygent::Refusal>(())
/// ```
pub fn check_translation_collision(
    stationary: &[impl Into<Point> + Copy],
    orbiting: &[impl Into<Point> + Copy],
    translation: Point,
    tolerance: f64,
) -> Result<Option<CollisionEvent>> {
    let lists = Entries::sliding(stationary.len(), orbiting.len());
    let (stationary, orbiting) = (flat(stationary), flat(orbiting));
    let (mut found, mut distance, mut kind) = (0, 0.0, 0);
    let (mut stationary_i, mut orbiting_i, mut place) = (0, 0, 0);
    // SAFETY: both lists are as long as is said, and every cell is there.
    let number = unsafe {
        ffi::byr_check_translation_collision(
            stationary.as_ptr(),
            stationary.len(),
            orbiting.as_ptr(),
            orbiting.len(),
            translation.0,
            translation.1,
            tolerance,
            &mut found,
            &mut distance,
            &mut kind,
            &mut stationary_i,
            &mut orbiting_i,
            &mut place,
        )
    };
    among(&lists, number, place)?;
    Ok((found != 0).then(|| CollisionEvent {
        distance,
        contact_type: ContactType::numbered(u64::from(kind)),
        stationary_idx: stationary_i as usize,
        orbiting_idx: orbiting_i as usize,
    }))
}

/// A function of the library that may find a position.
type Finding = unsafe fn(
    *const f64,
    usize,
    *const f64,
    usize,
    f64,
    f64,
    f64,
    *mut u32,
    *mut f64,
    *mut f64,
    *mut u64,
) -> u32;

/// What a function that may find a position finds.
fn found_by(
    finding: Finding,
    stationary: &[impl Into<Point> + Copy],
    orbiting: &[impl Into<Point> + Copy],
    current_pos: Point,
    tolerance: f64,
) -> Result<Option<Point>> {
    let lists = Entries::sliding(stationary.len(), orbiting.len());
    let (stationary, orbiting) = (flat(stationary), flat(orbiting));
    let (mut found, mut to, mut place) = (0, (0.0, 0.0), 0);
    // SAFETY: both lists are as long as is said, and every cell is there.
    let number = unsafe {
        finding(
            stationary.as_ptr(),
            stationary.len(),
            orbiting.as_ptr(),
            orbiting.len(),
            current_pos.0,
            current_pos.1,
            tolerance,
            &mut found,
            &mut to.0,
            &mut to.1,
            &mut place,
        )
    };
    among(&lists, number, place)?;
    Ok((found != 0).then_some(to))
}

/// A position one tolerance nearer to a concave vertex at which the polygons do
/// not overlap, or nothing. The orbiting polygon is lent as drawn.
pub fn detect_interlocking_opportunity(
    stationary: &[impl Into<Point> + Copy],
    orbiting: &[impl Into<Point> + Copy],
    current_pos: Point,
    tolerance: f64,
) -> Result<Option<Point>> {
    let finding = ffi::byr_detect_interlocking_opportunity;
    found_by(finding, stationary, orbiting, current_pos, tolerance)
}

/// Where to go to bring the orbiting polygon, lent where it stands, back to the
/// stationary one; nothing if it is no farther than the tolerance.
pub fn recover_contact(
    stationary: &[impl Into<Point> + Copy],
    orbiting: &[impl Into<Point> + Copy],
    current_pos: Point,
    tolerance: f64,
) -> Result<Option<Point>> {
    found_by(ffi::byr_recover_contact, stationary, orbiting, current_pos, tolerance)
}

/// The two polygons of an overlap, of so many vertices each.
fn two(a: usize, b: usize) -> [Entries; 2] {
    [Entries::polygon(List::First, a), Entries::polygon(List::Second, b)]
}

/// Whether no axis parts the polygons by more than 1e-6; touching ones overlap.
pub fn polygons_overlap(
    poly_a: &[impl Into<Point> + Copy],
    poly_b: &[impl Into<Point> + Copy],
) -> Result<bool> {
    let (a, b, mut overlap, mut place) = (flat(poly_a), flat(poly_b), 0, 0);
    // SAFETY: both lists are as long as is said, and both cells are there.
    let number = unsafe {
        ffi::byr_polygons_overlap(
            a.as_ptr(),
            a.len(),
            b.as_ptr(),
            b.len(),
            &mut overlap,
            &mut place,
        )
    };
    among(&two(poly_a.len(), poly_b.len()), number, place)?;
    Ok(overlap != 0)
}

/// Whether no axis parts the polygons by more than the tolerance.
pub fn polygons_overlap_with_tolerance(
    poly_a: &[impl Into<Point> + Copy],
    poly_b: &[impl Into<Point> + Copy],
    tolerance: f64,
) -> Result<bool> {
    let (a, b, mut overlap, mut place) = (flat(poly_a), flat(poly_b), 0, 0);
    // SAFETY: both lists are as long as is said, and both cells are there.
    let number = unsafe {
        ffi::byr_polygons_overlap_with_tolerance(
            a.as_ptr(),
            a.len(),
            b.as_ptr(),
            b.len(),
            tolerance,
            &mut overlap,
            &mut place,
        )
    };
    among(&two(poly_a.len(), poly_b.len()), number, place)?;
    Ok(overlap != 0)
}
