//! The check of a path that another program traced.

use super::trace::SlidingNfpConfig;
use crate::lent::flat;
use crate::refusal::among;
use crate::{ffi, Entries, Point, Result};
use std::fmt;

/// The first fault of a path, in the order point 0, leg 0, point 1 and so on.
#[derive(Debug, Clone, Copy, PartialEq, Eq)]
pub enum Fault {
    /// There is none: the path is accepted.
    None,
    /// At this point the orbiting polygon has no contact.
    NoContact(usize),
    /// On the leg from this point to the next it runs into something. The last point's
    /// leg leads to the first.
    Blocked(usize),
}

impl Fault {
    /// The number that the library gives it.
    pub fn number(self) -> u32 {
        match self {
            Self::None => 0,
            Self::NoContact(_) => 1,
            Self::Blocked(_) => 2,
        }
    }

    /// The fault that the library gives this number, at this index.
    fn numbered(fault: u32, index: u64) -> Self {
        match fault {
            0 => Self::None,
            1 => Self::NoContact(index as usize),
            _ => Self::Blocked(index as usize),
        }
    }
}

impl fmt::Display for Fault {
    fn fmt(&self, f: &mut fmt::Formatter<'_>) -> fmt::Result {
        match self {
            Self::None => f.write_str("the path is accepted"),
            Self::NoContact(index) => write!(f, "at point {index} there is no contact"),
            Self::Blocked(index) => {
                write!(f, "the leg from point {index} to the next runs into something")
            }
        }
    }
}

/// The first fault of a path of 3 to 10,001 points that another program traced for the
/// orbiting polygon, lent as drawn. A path is accepted exactly if at each point the
/// polygon, moved there, has a contact, by [`find_contacts`], and on each leg, that from
/// the last point to the first included, [`check_translation_collision`] finds nothing
/// for the polygon at the leg's first point and the difference of the two. Windings stay
/// as lent. The smallest move and the limit keep the bounds of a trace, and are not used.
/// A path of [`compute_nfp_sliding`] may have a fault.
///
/// [`find_contacts`]: super::find_contacts
/// [`check_translation_collision`]: super::check_translation_collision
/// [`compute_nfp_sliding`]: super::compute_nfp_sliding
///
/// ```
/// use byrlygent::nfp_sliding::{check_path, Fault, SlidingNfpConfig};
///
/// let square = [(0.0, 0.0), (4.0, 0.0), (4.0, 4.0), (0.0, 4.0)];
/// let config = SlidingNfpConfig::default();
/// let round = [(-4.0, -4.0), (0.0, -4.0), (4.0, -4.0), (4.0, 0.0), (4.0, 4.0), (0.0, 4.0),
///     (-4.0, 4.0), (-4.0, 0.0)];
/// assert_eq!(check_path(&square, &square, &config, &round)?, Fault::None);
/// let through = check_path(&square, &square, &config, &round[..5])?;
/// assert_eq!(through, Fault::Blocked(4));
/// let words = "the leg from point 4 to the next runs into something";
/// assert_eq!(through.to_string(), words);
/// let away = [(0.0, -4.0), (4.0, -4.0), (5.0, -5.0)];
/// assert_eq!(check_path(&square, &square, &config, &away)?, Fault::NoContact(2));
/// # Ok::<(), byrlygent::Refusal>(())
/// ```
pub fn check_path(
    stationary: &[impl Into<Point> + Copy],
    orbiting: &[impl Into<Point> + Copy],
    config: &SlidingNfpConfig,
    path: &[impl Into<Point> + Copy],
) -> Result<Fault> {
    let [a, b] = Entries::sliding(stationary.len(), orbiting.len());
    let lists = [a, b, Entries::path(path.len())];
    let mut cells = Cells::default();
    let number = cells.told(&flat(stationary), &flat(orbiting), config, &flat(path));
    among(&lists, number, cells.place)?;
    Ok(Fault::numbered(cells.fault, cells.index))
}

/// The cells that the library writes.
#[derive(Debug, Clone, Copy, PartialEq, Default)]
struct Cells {
    fault: u32,
    index: u64,
    place: u64,
}

impl Cells {
    /// Lends the cells with these lists; the number of the refusal.
    fn told(
        &mut self,
        stationary: &[f64],
        orbiting: &[f64],
        config: &SlidingNfpConfig,
        path: &[f64],
    ) -> u32 {
        // SAFETY: all lists are as long as is said, and every cell is there.
        unsafe {
            ffi::byr_check_path(
                stationary.as_ptr(),
                stationary.len(),
                orbiting.as_ptr(),
                orbiting.len(),
                config.contact_tolerance,
                config.min_translation,
                config.max_iterations as u64,
                path.as_ptr(),
                path.len(),
                &mut self.fault,
                &mut self.index,
                &mut self.place,
            )
        }
    }
}

#[cfg(test)]
mod tests {
    use super::Cells;
    use crate::nfp_sliding::SlidingNfpConfig;

    const S: [f64; 8] = [0.0, 0.0, 4.0, 0.0, 4.0, 4.0, 0.0, 4.0];
    const ALONG: [f64; 8] = [-4.0, -4.0, 0.0, -4.0, 4.0, -4.0, 0.0, -4.0];

    /// What the cells hold before a call: no answer there is.
    const HELD: Cells = Cells { fault: 77, index: 7777, place: 7777 };

    /// The number, and the cells afterwards, of a path round a square.
    fn told(stationary: &[f64], contact_tolerance: f64, path: &[f64]) -> (u32, Cells) {
        let config = SlidingNfpConfig { contact_tolerance, ..SlidingNfpConfig::default() };
        let mut cells = HELD;
        (cells.told(stationary, &S, &config, path), cells)
    }

    #[test]
    fn an_accepted_path_writes_the_fault_alone() {
        assert_eq!(told(&S, 1e-6, &ALONG), (0, Cells { fault: 0, ..HELD }));
    }

    #[test]
    fn a_fault_writes_itself_and_its_index() {
        let apart = [-4.0, -4.0, 0.0, -4.0, 4.0, -4.5];
        assert_eq!(told(&S, 1e-6, &apart), (0, Cells { fault: 1, index: 2, ..HELD }));
        assert_eq!(told(&S, 1e-6, &ALONG[..6]), (0, Cells { fault: 2, index: 2, ..HELD }));
    }

    #[test]
    fn a_refusal_writes_at_most_the_place() {
        assert_eq!(told(&S, 1e-6, &[f64::NAN; 6]), (2, HELD));
        assert_eq!(told(&S, 0.0, &ALONG), (3, HELD));
        assert_eq!(told(&S[..7], 0.0, &[]), (1, Cells { place: 0, ..HELD }));
        assert_eq!(told(&S, 0.0, &ALONG[..5]), (1, Cells { place: 2, ..HELD }));
        assert_eq!(told(&S, 0.0, &[]), (8, Cells { place: 2, ..HELD }));
        assert_eq!(told(&S, 0.0, &[f64::NAN; 20_004]), (9, Cells { place: 2, ..HELD }));
    }
}
