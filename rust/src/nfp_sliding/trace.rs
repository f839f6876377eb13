//! The trace of one polygon round another.

use crate::lent::{flat, points};
use crate::refusal::among;
use crate::{ffi, Entries, List, Point, Refusal, Result};
use std::fmt;

/// Most passes that a trace may be allowed; each stores a point at most.
const MOST_PASSES: usize = 10_000;

/// Configuration for the sliding NFP algorithm.
#[derive(Debug, Clone, Copy, PartialEq)]
pub struct SlidingNfpConfig {
    /// Tolerance for contact detection: above 0, at most 1.
    pub contact_tolerance: f64,
    /// Maximum number of iterations: at most 10,000.
    pub max_iterations: usize,
    /// Minimum translation distance before stopping: finite, not negative.
    pub min_translation: f64,
}

/// The settings of a trace, by the name that the library has for them.
///
/// ```
/// use byrlygent::nfp_sliding::Settings;
///
/// let settings = Settings::default();
/// assert_eq!(settings.contact_tolerance, 1e-6);
/// assert_eq!(settings.min_translation, 1e-8);
/// assert_eq!(settings.max_iterations, 10_000);
/// ```
pub type Settings = SlidingNfpConfig;

impl Default for SlidingNfpConfig {
    fn default() -> Self {
        Self { contact_tolerance: 1e-6, max_iterations: 10_000, min_translation: 1e-8 }
    }
}

/// Why a trace stopped.
#[derive(Debug, Clone, Copy, PartialEq, Eq)]
pub enum StopReason {
    /// No contact, and none recovered.
    NoContact,
    /// No vector left.
    NoVector,
    /// The move is below the smallest one.
    ShortMove,
    /// Back at the start.
    Closed,
    /// Passes used up.
    Passes,
}

impl StopReason {
    /// The reason that the library gives this number.
    fn numbered(stop: u32) -> Self {
        match stop {
            1 => Self::NoContact,
            2 => Self::NoVector,
            3 => Self::ShortMove,
            4 => Self::Closed,
            _ => Self::Passes,
        }
    }
}

impl fmt::Display for StopReason {
    fn fmt(&self, f: &mut fmt::Formatter<'_>) -> fmt::Result {
        f.write_str(match self {
            Self::NoContact => "having lost contact",
            Self::NoVector => "with no vector left",
            Self::ShortMove => "as the move was too short",
            Self::Closed => "back at the start",
            Self::Passes => "with all passes used up",
        })
    }
}

/// Result of a trace.
#[derive(Debug, Clone, PartialEq)]
pub struct Nfp {
    /// The computed NFP polygon(s): the path simplified, one polygon.
    pub polygons: Vec<Vec<Point>>,
    /// The path before simplification.
    pub path: Vec<Point>,
    /// The passes begun.
    pub passes: u64,
    /// Why the trace stopped. Only [`StopReason::Closed`] came round.
    pub stop: StopReason,
}

impl Nfp {
    /// Returns true if the NFP is empty.
    pub fn is_empty(&self) -> bool {
        self.polygons.is_empty()
    }

    /// Returns the total vertex count across all polygons.
    pub fn vertex_count(&self) -> usize {
        self.polygons.iter().map(|p| p.len()).sum()
    }
}

/// Traces the orbiting polygon, lent as drawn, round the stationary one; both may
/// be one. Closed drawings go through [`open_ring`](crate::polygon_ops::open_ring)
/// first. A path of fewer than three points is refused with its passes and why it
/// stopped.
///
/// ```
/// use byrlygent::nfp_sliding::{compute_nfp_sliding, SlidingNfpConfig, StopReason};
/// use byrlygent::Refusal;
///
/// let square = [(0.0, 0.0), (4.0, 0.0), (4.0, 4.0), (0.0, 4.0)];
/// let config = SlidingNfpConfig { max_iterations: 0, ..Default::default() };
/// let refused = Refusal::ShortPath { passes: 0, stop: StopReason::Passes };
/// assert_eq!(compute_nfp_sliding(&square, &square, &config), Err(refused));
/// ```
pub fn compute_nfp_sliding(
    stationary: &[impl Into<Point> + Copy],
    orbiting: &[impl Into<Point> + Copy],
    config: &SlidingNfpConfig,
) -> Result<Nfp> {
    let lists = Entries::sliding(stationary.len(), orbiting.len());
    let (stationary, orbiting) = (flat(stationary), flat(orbiting));
    let room = 2 * (config.max_iterations.min(MOST_PASSES) + 1);
    let (mut work, mut result) = (vec![0.0; room], vec![0.0; room]);
    let (mut count, mut stored, mut passes, mut stop, mut place) = (0, 0, 0, 0, 0);
    // SAFETY: all lists are as long as is said, and every cell is there.
    let number = unsafe {
        ffi::byr_compute_nfp_sliding(
            stationary.as_ptr(),
            stationary.len(),
            orbiting.as_ptr(),
            orbiting.len(),
            config.contact_tolerance,
            config.min_translation,
            config.max_iterations as u64,
            work.as_mut_ptr(),
            work.len(),
            result.as_mut_ptr(),
            result.len(),
            &mut count,
            &mut stored,
            &mut passes,
            &mut stop,
            &mut place,
        )
    };
    let stop = StopReason::numbered(stop);
    if number == 6 {
        return Err(Refusal::ShortPath { passes, stop });
    }
    among(&lists, number, place)?;
    let polygons = vec![points(&result, count)];
    Ok(Nfp { polygons, path: points(&work, stored), passes, stop })
}

/// Where the orbiting polygon's highest vertex, lent as drawn, meets the
/// stationary one's lowest.
///
/// ```
/// use byrlygent::nfp_sliding::find_start_position;
///
/// let stationary = [(0.0, 0.0), (4.0, 0.0), (4.0, 4.0), (0.0, 4.0)];
/// let orbiting = [(0.0, 0.0), (2.0, 0.0), (2.0, 2.0), (0.0, 2.0)];
/// assert_eq!(find_start_position(&stationary, &orbiting)?, (0.0, -2.0));
/// # Ok::<(), byrlygent::Refusal>(())
/// ```
pub fn find_start_position(
    stationary: &[impl Into<Point> + Copy],
    orbiting: &[impl Into<Point> + Copy],
) -> Result<Point> {
    let lists = Entries::sliding(stationary.len(), orbiting.len());
    let (stationary, orbiting) = (flat(stationary), flat(orbiting));
    let (mut start, mut place) = ((0.0, 0.0), 0);
    // SAFETY: both lists are as long as is said, and every cell is there.
    let number = unsafe {
        ffi::byr_find_start_position(
            stationary.as_ptr(),
            stationary.len(),
            orbiting.as_ptr(),
            orbiting.len(),
            &mut start.0,
            &mut start.1,
            &mut place,
        )
    };
    among(&lists, number, place)?;
    Ok(start)
}

/// Those of at most 10,001 points that stay; all of them if fewer than three would.
/// The last point's neighbour is the first. A point stays if the turn at it, a
/// determinant rounded as it is worked out, is not exactly 0; or if it is farther
/// than the tolerance from the segment between its neighbours, as the tip of a
/// spike is. So the tolerance is for spikes: a point nearly in line stays. The
/// neighbours are those of the list as lent: of two equal points side by side
/// neither stays.
///
/// ```
/// use byrlygent::nfp_sliding::simplify_polygon;
///
/// let spike = [(0.0, 0.0), (2.0, 0.0), (9.0, 0.0), (2.0, 0.0), (2.0, 2.0)];
/// let left = simplify_polygon(&spike, 1e-6)?;
/// assert_eq!(left, [(0.0, 0.0), (9.0, 0.0), (2.0, 0.0), (2.0, 2.0)]);
/// # Ok::<(), byrlygent::Refusal>(())
/// ```
pub fn simplify_polygon(polygon: &[impl Into<Point> + Copy], tolerance: f64) -> Result<Vec<Point>> {
    let list = flat(polygon);
    let (mut room, mut count, mut place) = (vec![0.0; list.len()], 0, 0);
    // SAFETY: both lists are as long as is said, and both cells are there.
    let number = unsafe {
        ffi::byr_simplify_polygon(
            list.as_ptr(),
            list.len(),
            tolerance,
            room.as_mut_ptr(),
            room.len(),
            &mut count,
            &mut place,
        )
    };
    among(&[Entries::points(List::Points, polygon.len())], number, place)?;
    Ok(points(&room, count))
}
