//! Why a move is clear, or what it runs into, with the counts of all hits.

use super::contacts::ContactType;
use super::moves::CollisionEvent;
use crate::lent::flat;
use crate::refusal::among;
use crate::{ffi, Entries, Point, Result};
use std::fmt;

/// Why the answer of a collision check is what it is. A pair is a vertex of one
/// polygon and an edge of the other, and is hit at a distance or never. A hit is too
/// near if its distance is at most the tolerance; else too far if it is at least the
/// move's length less the tolerance, as that difference is rounded; else between.
#[derive(Debug, Clone, Copy, PartialEq)]
pub enum Ground {
    /// A hit lies between: the move is not clear.
    Hit {
        /// The first of the nearest, as [`check_translation_collision`] answers it.
        ///
        /// [`check_translation_collision`]: super::check_translation_collision
        hit: CollisionEvent,
        /// How many other pairs, of either kind, are hit at that very distance.
        others: u64,
    },
    /// The move is shorter than the tolerance, and no pair is scanned.
    Short,
    /// No pair is ever hit.
    Never,
    /// There are hits, and all are too near.
    Near,
    /// There are hits, and all are too far.
    Far,
    /// There are hits too near and too far, and none between.
    BothSides,
}

impl Ground {
    /// The number that the library gives it.
    pub fn number(self) -> u32 {
        match self {
            Self::Hit { .. } => 0,
            Self::Short => 1,
            Self::Never => 2,
            Self::Near => 3,
            Self::Far => 4,
            Self::BothSides => 5,
        }
    }

    /// The ground of nothing that the library gives this number.
    fn numbered(ground: u32) -> Self {
        match ground {
            1 => Self::Short,
            2 => Self::Never,
            3 => Self::Near,
            4 => Self::Far,
            _ => Self::BothSides,
        }
    }
}

impl fmt::Display for Ground {
    fn fmt(&self, f: &mut fmt::Formatter<'_>) -> fmt::Result {
        match self {
            Self::Hit { hit, others } => {
                let CollisionEvent { distance, stationary_idx, orbiting_idx, .. } = hit;
                let (orbiting, stationary) = match hit.contact_type {
                    ContactType::VertexEdge => ("vertex", "edge"),
                    _ => ("edge", "vertex"),
                };
                write!(
                    f,
                    "the orbiting polygon's {orbiting} {orbiting_idx} and the stationary one's \
                     {stationary} {stationary_idx} meet at distance {distance}, as "
                )?;
                match others {
                    0 => f.write_str("no other pair does"),
                    1 => f.write_str("1 other pair does"),
                    _ => write!(f, "{others} other pairs do"),
                }
            }
            Self::Short => f.write_str("the move is shorter than the tolerance"),
            Self::Never => f.write_str("no pair is ever hit"),
            Self::Near => f.write_str("all hits are at or below the tolerance"),
            Self::Far => f.write_str("all hits are at or beyond the length less the tolerance"),
            Self::BothSides => f.write_str("there are hits on both sides, and none between"),
        }
    }
}

/// The ground of a collision answer, and how many pairs have a hit of each class.
#[derive(Debug, Clone, Copy, PartialEq)]
pub struct Explanation {
    /// Why the move is clear, or what it runs into.
    pub ground: Ground,
    /// The pairs with a hit too near.
    pub too_near: u64,
    /// The pairs with a hit between.
    pub between: u64,
    /// The pairs with a hit too far.
    pub too_far: u64,
}

impl fmt::Display for Explanation {
    fn fmt(&self, f: &mut fmt::Formatter<'_>) -> fmt::Result {
        let Self { ground, too_near, between, too_far } = self;
        let answer = if matches!(ground, Ground::Hit { .. }) { "not clear" } else { "clear" };
        let counts = format!("{too_near} too near, {between} between, {too_far} too far");
        write!(f, "{answer}: {ground} (hits: {counts})")
    }
}

/// What the orbiting polygon, lent where it stands, runs into when it moves by this
/// translation, or why into nothing.
///
/// ```
/// use byrlygent::nfp_sliding::{explain_collision, Ground};
///
/// let stationary = [(0.0, 0.0), (4.0, 0.0), (4.0, 4.0), (0.0, 4.0)];
/// let orbiting = [(-5.0, 1.0), (-3.0, 1.0), (-3.0, 3.0), (-5.0, 3.0)];
/// let short = explain_collision(&stationary, &orbiting, (3.0, 0.0), 1e-6)?;
/// assert_eq!((short.ground, short.too_far), (Ground::Far, 8));
/// let words = "clear: all hits are at or beyond the length less the tolerance \
///              (hits: 0 too near, 0 between, 8 too far)";
/// assert_eq!(short.to_string(), words);
/// let long = explain_collision(&stationary, &orbiting, (10.0, 0.0), 1e-6)?;
/// let words = "not clear: the orbiting polygon's vertex 1 and the stationary one's edge 3 meet \
///              at distance 3, as 1 other pair does (hits: 0 too near, 8 between, 0 too far)";
/// assert_eq!(long.to_string(), words);
/// # Ok::<(), byrlygent::Refusal>(())
/// ```
pub fn explain_collision(
    stationary: &[impl Into<Point> + Copy],
    orbiting: &[impl Into<Point> + Copy],
    translation: Point,
    tolerance: f64,
) -> Result<Explanation> {
    let lists = Entries::sliding(stationary.len(), orbiting.len());
    let mut cells = Cells::default();
    let number = cells.told(&flat(stationary), &flat(orbiting), translation, tolerance);
    among(&lists, number, cells.place)?;
    Ok(cells.explanation())
}

/// The cells that the library writes.
#[derive(Debug, Clone, Copy, PartialEq, Default)]
struct Cells {
    ground: u32,
    distance: f64,
    kind: u32,
    stationary_i: u64,
    orbiting_i: u64,
    others: u64,
    too_near: u64,
    between: u64,
    too_far: u64,
    place: u64,
}

impl Cells {
    /// Lends the cells with these lists; the number of the refusal.
    fn told(&mut self, stationary: &[f64], orbiting: &[f64], by: Point, tolerance: f64) -> u32 {
        // SAFETY: both lists are as long as is said, and every cell is there.
        unsafe {
            ffi::byr_explain_collision(
                stationary.as_ptr(),
                stationary.len(),
                orbiting.as_ptr(),
                orbiting.len(),
                by.0,
                by.1,
                tolerance,
                &mut self.ground,
                &mut self.distance,
                &mut self.kind,
                &mut self.stationary_i,
                &mut self.orbiting_i,
                &mut self.others,
                &mut self.too_near,
                &mut self.between,
                &mut self.too_far,
                &mut self.place,
            )
        }
    }

    /// What an answer says.
    fn explanation(self) -> Explanation {
        let hit = || CollisionEvent {
            distance: self.distance,
            contact_type: ContactType::numbered(u64::from(self.kind)),
            stationary_idx: self.stationary_i as usize,
            orbiting_idx: self.orbiting_i as usize,
        };
        let ground = match self.ground {
            0 => Ground::Hit { hit: hit(), others: self.others },
            nothing => Ground::numbered(nothing),
        };
        let Self { too_near, between, too_far, .. } = self;
        Explanation { ground, too_near, between, too_far }
    }
}

#[cfg(test)]
mod tests {
    use super::Cells;

    const S: [f64; 8] = [0.0, 0.0, 4.0, 0.0, 4.0, 4.0, 0.0, 4.0];
    const BESIDE: [f64; 8] = [-5.0, 1.0, -3.0, 1.0, -3.0, 3.0, -5.0, 3.0];

    /// What the cells hold before a call: no answer there is.
    const HELD: Cells = Cells {
        ground: 77,
        distance: -7.5,
        kind: 77,
        stationary_i: 7777,
        orbiting_i: 7777,
        others: 7777,
        too_near: 7777,
        between: 7777,
        too_far: 7777,
        place: 7777,
    };

    /// The number, and the cells afterwards, of squares moved to the right.
    fn told(stationary: &[f64], orbiting: &[f64], dx: f64, tolerance: f64) -> (u32, Cells) {
        let mut cells = HELD;
        (cells.told(stationary, orbiting, (dx, 0.0), tolerance), cells)
    }

    #[test]
    fn a_hit_writes_all_cells_but_the_place() {
        let counted = Cells { ground: 0, too_near: 0, between: 8, too_far: 0, ..HELD };
        let pair = Cells { kind: 0, stationary_i: 3, orbiting_i: 1, ..counted };
        let hit = Cells { distance: 3.0, others: 1, ..pair };
        assert_eq!(told(&S, &BESIDE, 10.0, 1e-6), (0, hit));
    }

    #[test]
    fn a_ground_of_nothing_writes_itself_and_the_counts() {
        let counts = |ground, too_far| Cells { ground, too_near: 0, between: 0, too_far, ..HELD };
        assert_eq!(told(&S, &BESIDE, 0.0, 1e-6), (0, counts(1, 0)));
        assert_eq!(told(&S, &BESIDE, -10.0, 1e-6), (0, counts(2, 0)));
        assert_eq!(told(&S, &BESIDE, 3.0, 1e-6), (0, counts(4, 8)));
    }

    #[test]
    fn a_refusal_writes_at_most_the_place() {
        assert_eq!(told(&S, &BESIDE, f64::NAN, 1e-6), (2, HELD));
        assert_eq!(told(&S, &BESIDE, 10.0, 0.0), (3, HELD));
        assert_eq!(told(&S[..7], &BESIDE, 10.0, 0.0), (1, Cells { place: 0, ..HELD }));
        assert_eq!(told(&S, &BESIDE[..4], 10.0, 0.0), (8, Cells { place: 1, ..HELD }));
        assert_eq!(told(&S, &[], 10.0, 0.0), (8, Cells { place: 1, ..HELD }));
    }
}
