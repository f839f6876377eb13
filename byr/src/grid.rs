//! The grid on which the true answer is asked: coordinates as whole multiples of a unit, which
//! is 1 or a part of it, and how far points moved to get there.

use crate::drawing::{Numbers, Ring};
use crate::{plain, Fault, Result};
use byrlygent::grid::to_grid;
use byrlygent::whole::{is_simple_polygon, turn};
use byrlygent::{whole, Point, Refusal};

/// Most units of a coordinate, and most units that make 1.
const MOST: f64 = 1e6;

/// A grid.
#[derive(Debug, Clone, Copy, PartialEq)]
pub struct Grid {
    /// How many units make 1, a whole number.
    in_one: f64,
    /// Whether it is the finest that fits, and was not asked for.
    fitted: bool,
}

impl Grid {
    /// The grid of this unit.
    pub fn of(unit: f64) -> Result<Self> {
        let in_one = (1.0 / unit).round();
        match (1.0..=MOST).contains(&in_one) && 1.0 / in_one == unit {
            true => Ok(Self { in_one, fitted: false }),
            false => Err(Fault::new(format!(
                "--grid {}: a grid is 1 or 1 divided by a whole number up to 1000000, as 0.001 is",
                plain::number(unit)
            ))),
        }
    }

    /// The grid of 1 where all these points are whole, and else the finest of a power of ten
    /// that they fit on.
    pub fn fitting(points: &[Point]) -> Self {
        let numbers = || points.iter().flat_map(|&(x, y)| [x, y]);
        let most = numbers().fold(0.0, |most: f64, x| most.max(x.abs()));
        let powers = (0..=6).rev().map(|digits| 10_f64.powi(digits));
        let in_one = match numbers().all(|x| x == x.trunc()) {
            true => 1.0,
            false => powers.into_iter().find(|in_one| most * in_one <= MOST).unwrap_or(1.0),
        };
        Self { in_one, fitted: true }
    }

    /// The unit.
    pub fn unit(self) -> f64 {
        1.0 / self.in_one
    }

    /// The unit as it is told.
    pub fn told(self) -> String {
        plain::number(self.unit())
    }

    /// That a coordinate is too large for the grid.
    fn too_large(self, x: f64) -> Fault {
        let (unit, x) = (self.told(), plain::number(x));
        let what = match self.fitted || self.in_one == 1.0 {
            true => "bring all nearer to (0, 0)",
            false => "give a larger --grid, up to 1, or bring all nearer to (0, 0)",
        };
        Fault::new(format!("on the grid of {unit} the coordinate {x} is past {MOST} units: {what}"))
    }

    /// That a ring has no inside on the grid.
    pub fn too_flat(self, ring: &str) -> Fault {
        let what = match self.fitted {
            true => "it is a line or a point, or too small for coordinates so large".to_string(),
            false => format!("give a smaller --grid, or a {ring} that is more than a line"),
        };
        Fault::new(format!("on the grid of {} the {ring} has no area: {what}", self.told()))
    }

    /// That all these corners are within the bounds of the grid.
    pub fn holds<'a>(self, spots: impl IntoIterator<Item = &'a whole::Point>) -> Result<()> {
        let far = |x: &i32| f64::from(x.abs()) > MOST;
        let far = spots.into_iter().flat_map(|&(x, y)| [x, y]).find(far);
        far.map_or(Ok(()), |x| Err(self.too_large(self.multiple(f64::from(x)))))
    }

    /// The coordinate of so many units.
    fn multiple(self, units: f64) -> f64 {
        units / self.in_one
    }

    /// A whole point as it lies in the plane.
    pub fn in_plane(self, (x, y): whole::Point) -> Point {
        (self.multiple(f64::from(x)), self.multiple(f64::from(y)))
    }

    /// Whether its multiples are decimals of six digits behind the point at most, so that a float
    /// is shown as one of them exactly where it is the nearest to it.
    fn is_decimal(self) -> bool {
        1_000_000_u32.is_multiple_of(self.in_one as u32)
    }

    /// By how much a coordinate is more than so many units. A decimal is on a grid of decimals
    /// exactly where its float is shown as one of them; else the float's exact value counts.
    fn off(self, x: f64, units: i32, numbers: Numbers) -> f64 {
        let units = f64::from(units);
        match numbers == Numbers::Decimals && self.is_decimal() {
            true => x - self.multiple(units),
            false => x.mul_add(self.in_one, -units) / self.in_one,
        }
    }

    /// These points, whose numbers are such, on the grid, each at the nearest multiples, and how
    /// far they moved.
    pub fn put(self, points: &[Point], numbers: Numbers) -> Result<OnGrid> {
        let numbers_of = || points.iter().flat_map(|&(x, y)| [x, y]);
        let most = numbers_of().max_by(|a, b| a.abs().total_cmp(&b.abs())).unwrap_or(0.0);
        let too_large = |refusal| match refusal {
            Refusal::Grid | Refusal::Number => self.too_large(most),
            other => other.into(),
        };
        let spots = to_grid(points, self.in_one as u32).map_err(too_large)?;
        let off = points.iter().zip(&spots).map(|(&(x, y), &(units_x, units_y))| {
            (self.off(x, units_x, numbers), self.off(y, units_y, numbers))
        });
        let off = off.collect();
        // A decimal is off the float that it was rounded to by less than the next one is.
        let digit = most.abs().next_up() - most.abs();
        let rounded = if numbers == Numbers::Rounded { digit } else { 0.0 };
        Ok(OnGrid { spots, off, rounded })
    }

    /// A ring on the grid.
    pub fn put_ring(self, ring: &Ring) -> Result<OnGrid> {
        self.put(&ring.points, ring.numbers)
    }

    /// A position and the one that lies this much farther on, each put there by itself.
    pub fn put_move(self, at: Point, by: Point, numbers: Numbers) -> Result<OnGrid> {
        let [at, by] = [self.put(&[at], numbers)?, self.put(&[by], numbers)?];
        let ((x, y), (dx, dy)) = (at.spots[0], by.spots[0]);
        let ((off_x, off_y), (more_x, more_y)) = (at.off[0], by.off[0]);
        Ok(OnGrid {
            spots: vec![(x, y), (x + dx, y + dy)],
            off: vec![(off_x, off_y), (off_x + more_x, off_y + more_y)],
            rounded: at.rounded + by.rounded,
        })
    }
}

/// How far off a point is at most by this much, each coordinate rounded by so much.
pub fn at_most((x, y): Point, rounded: f64) -> f64 {
    (x.abs() + rounded).hypot(y.abs() + rounded)
}

/// Points on a grid.
#[derive(Debug, Clone, PartialEq)]
pub struct OnGrid {
    /// The points, in units.
    pub spots: Vec<whole::Point>,
    /// By how much the coordinates of each are more than those on the grid.
    pub off: Vec<Point>,
    /// How far a coordinate was off at most from what was read.
    pub rounded: f64,
}

impl OnGrid {
    /// How far each moved at most.
    pub fn moved(&self) -> impl Iterator<Item = f64> + '_ {
        self.off.iter().map(|&off| at_most(off, self.rounded))
    }

    /// Whether one of them moved.
    pub fn is_moved(&self) -> bool {
        self.rounded > 0.0 || self.off.iter().any(|&off| off != (0.0, 0.0))
    }

    /// The farthest that one of them moved.
    pub fn farthest(&self) -> f64 {
        self.moved().fold(0.0, f64::max)
    }

    /// The corners of the ring without repeats of the one before.
    fn mended(&self) -> Vec<whole::Point> {
        let mut ring = self.spots.clone();
        ring.dedup();
        while ring.len() > 1 && ring.first() == ring.last() {
            ring.pop();
        }
        ring
    }

    /// Whether all of them lie on a line.
    pub fn is_flat(&self) -> Result<bool> {
        let ring = self.mended();
        let off = |spot: &whole::Point| turn(ring[0], ring[1], *spot).map(|turn| turn != 0);
        let off: Vec<bool> = ring.iter().skip(2).map(off).collect::<byrlygent::Result<_>>()?;
        Ok(!off.contains(&true))
    }

    /// Whether the ring of these points, which do not all lie on a line, is convex.
    pub fn is_convex(&self) -> Result<bool> {
        let ring = self.mended();
        let n = ring.len();
        let turns = (0..n).map(|i| turn(ring[i], ring[(i + 1) % n], ring[(i + 2) % n]));
        let turns: Vec<i32> = turns.collect::<byrlygent::Result<_>>()?;
        let one_way = turns.iter().all(|&t| t >= 0) || turns.iter().all(|&t| t <= 0);
        Ok(one_way && is_simple_polygon(&ring)?)
    }
}

#[cfg(test)]
mod tests {
    use super::{Grid, Numbers};

    #[test]
    fn decimals_lie_on_their_grid() {
        let grid = Grid::of(0.001).expect("a unit");
        let put = grid.put(&[(0.3, -1.5), (12.0, 3.517)], Numbers::Decimals).expect("in bounds");
        assert_eq!(put.spots, [(300, -1500), (12_000, 3517)]);
        assert!(!put.is_moved());
        assert!(grid.put(&[(0.0004, 0.0)], Numbers::Decimals).expect("in bounds").is_moved());
        assert!(grid.put(&[(1000.001, 0.0)], Numbers::Decimals).is_err());
    }

    #[test]
    fn a_float_is_not_the_decimal_that_it_is_shown_as() {
        let is_moved = |unit: f64, x: f64, numbers: Numbers| {
            let put = Grid::of(unit).and_then(|grid| grid.put(&[(x, 0.0)], numbers));
            put.expect("in bounds").is_moved()
        };
        assert!(is_moved(0.1, 0.3, Numbers::Floats));
        assert!(!is_moved(0.1, 0.3, Numbers::Decimals));
        assert!(!is_moved(0.1, 0.5, Numbers::Floats));
        assert!(is_moved(0.1, 0.5, Numbers::Rounded));
        assert!(is_moved(0.1, 0.0, Numbers::Rounded));
        assert!(is_moved(1.0 / 3.0, 1.0 / 3.0, Numbers::Decimals));
        assert!(!is_moved(1.0 / 3.0, 2.0, Numbers::Decimals));
    }

    #[test]
    fn no_float_is_added_to_another() {
        let grid = Grid::of(0.1).expect("a unit");
        let put = grid.put_move((0.1, 1e-20), (0.2, 0.0), Numbers::Decimals).expect("in bounds");
        assert_eq!(put.spots, [(1, 0), (3, 0)]);
        assert_eq!(put.off, [(0.0, 1e-20), (0.0, 1e-20)]);
    }

    #[test]
    fn the_finest_grid_that_fits_is_taken() {
        let unit = |points: &[(f64, f64)]| Grid::fitting(points).unit();
        assert_eq!(unit(&[(3.0, -7.0)]), 1.0);
        assert_eq!(unit(&[(3.5, -7.0)]), 1e-5);
        assert_eq!(unit(&[(0.5, 0.25)]), 1e-6);
        assert_eq!(unit(&[(1e6, -1e6)]), 1.0);
        assert_eq!(unit(&[(1e6, 0.5)]), 1.0);
    }

    #[test]
    fn a_grid_is_1_or_a_part_of_it() {
        for unit in [0.0, -0.001, f64::NAN, f64::INFINITY, 100.0, 1.5, 0.003, 1e-7, 1e-300] {
            assert!(Grid::of(unit).is_err(), "{unit}");
        }
        for unit in [1.0, 0.5, 0.1, 0.001, 1e-6, 1.0 / 3.0] {
            assert_eq!(Grid::of(unit).map(Grid::unit), Ok(unit));
        }
    }

    #[test]
    fn a_disc_that_crosses_itself_is_not_flat() {
        let put = |ring: &[(f64, f64)]| Grid::of(1.0)?.put(ring, Numbers::Floats);
        let is_convex = |ring: &[(f64, f64)]| put(ring).and_then(|on| on.is_convex());
        let is_flat = |ring: &[(f64, f64)]| put(ring).and_then(|on| on.is_flat());
        assert_eq!(is_convex(&[(0.0, 0.0), (2.0, 2.0), (2.0, 0.0), (0.0, 2.0)]), Ok(false));
        assert_eq!(is_flat(&[(0.0, 0.0), (2.0, 2.0), (2.0, 0.0), (0.0, 2.0)]), Ok(false));
        assert_eq!(is_convex(&[(0.0, 0.0), (2.0, 0.0), (2.0, 2.0), (0.0, 2.0)]), Ok(true));
        assert_eq!(is_flat(&[(0.0, 0.0), (1.0, 1.0), (2.0, 2.0), (1.0, 1.0)]), Ok(true));
        assert_eq!(is_flat(&[(1.0, 1.0), (1.0, 1.0), (1.0, 1.0)]), Ok(true));
    }
}
