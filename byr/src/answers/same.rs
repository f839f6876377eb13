//! Are two drawings the same outlines? Rings are compared place by place.

use crate::drawing::{least_reading, Drawing, Ring};
use crate::Result;
use byrlygent::polygon_ops::mirror_polygon;
use byrlygent::Point;

/// Two drawings, and what they differ in.
pub struct Sameness {
    /// Their names.
    pub names: [String; 2],
    /// How many rings each has.
    pub counts: [usize; 2],
    /// What comes of each pair of rings.
    pub pairs: Vec<Pair>,
    /// The corners of each ring that one of them alone has.
    pub alone: Vec<usize>,
}

/// Two rings of one place.
pub struct Pair {
    /// Their indices in their files.
    pub at: [usize; 2],
    /// How many corners the first has.
    pub corners: usize,
    /// Their parts, where they differ.
    pub parts: Option<[u32; 2]>,
    /// Their outlines, where they differ.
    pub outlines: Option<Unlike>,
    /// Whether the mirror of one about x = 0 is the other.
    pub mirrored: bool,
}

/// How two outlines differ.
pub enum Unlike {
    /// They have this many corners, and each of these is no corner of the other.
    Counts([usize; 2], [Option<(usize, Point)>; 2]),
    /// Of so many corners these differ, each pair with its indices.
    Corners(usize, Vec<[(usize, Point); 2]>),
}

impl Sameness {
    /// What two drawings differ in.
    pub fn of(a: &Drawing, b: &Drawing) -> Result<Self> {
        let pairs = a.rings.iter().zip(&b.rings);
        let pairs = pairs.map(|((i, left), (j, right))| Pair::of([*i, *j], left, right));
        let pairs: Vec<Pair> = pairs.collect::<Result<_>>()?;
        let longer = if a.rings.len() > b.rings.len() { a } else { b };
        let alone = longer.rings[pairs.len()..].iter().map(|(_, ring)| ring.points.len());
        Ok(Self {
            names: [a.name.clone(), b.name.clone()],
            counts: [a.rings.len(), b.rings.len()],
            alone: alone.collect(),
            pairs,
        })
    }

    /// Whether they are the same.
    pub fn is_well(&self) -> bool {
        self.alone.is_empty() && self.pairs.iter().all(Pair::is_same)
    }
}

impl Pair {
    /// What two rings differ in: parts count where both files tell one.
    fn of(at: [usize; 2], a: &Ring, b: &Ring) -> Result<Self> {
        let parts = match (a.part, b.part) {
            (Some(a), Some(b)) if a != b => Some([a, b]),
            _ => None,
        };
        let [left, right] = [least_reading(&a.points)?, least_reading(&b.points)?];
        let unlike = left != right;
        Ok(Self {
            at,
            corners: a.points.len(),
            parts,
            outlines: unlike.then(|| Unlike::of(&a.points, &b.points)),
            mirrored: unlike && least_reading(&mirror_polygon(&left)?)? == right,
        })
    }

    /// Whether they are the same.
    pub fn is_same(&self) -> bool {
        self.parts.is_none() && self.outlines.is_none()
    }
}

impl Unlike {
    /// How two outlines that are not the same differ.
    fn of(a: &[Point], b: &[Point]) -> Self {
        let numbered = |ring: &[Point], at: usize| (at, ring[at]);
        if a.len() != b.len() {
            let lone = |of: &[Point], than: &[Point]| {
                let lone = of.iter().position(|corner| !than.contains(corner))?;
                Some(numbered(of, lone))
            };
            return Self::Counts([a.len(), b.len()], [lone(a, b), lone(b, a)]);
        }
        let pairs = paired(a, b).into_iter().filter(|&(i, j)| a[i] != b[j]);
        Self::Corners(a.len(), pairs.map(|(i, j)| [numbered(a, i), numbered(b, j)]).collect())
    }
}

/// The corners of two outlines of one length, paired so that the fewest differ, from any start
/// and either way round, and of these so that the farthest pair lies nearest.
fn paired(a: &[Point], b: &[Point]) -> Vec<(usize, usize)> {
    let n = a.len();
    let pair = move |(start, back): (usize, bool), at: usize| match back {
        false => (at, (start + at) % n),
        true => (at, (start + n - at) % n),
    };
    let weight = |&reading: &(usize, bool)| {
        let unlike = (0..n).map(|at| pair(reading, at)).filter(|&(i, j)| a[i] != b[j]);
        unlike
            .fold((0, 0.0_f64), |(count, most), (i, j)| (count + 1, most.max(distance(a[i], b[j]))))
    };
    let readings = (0..n).flat_map(|start| [(start, false), (start, true)]);
    let weighed = readings.map(|reading| (weight(&reading), reading));
    let least = weighed.min_by(|((x, far), _), ((y, near), _)| x.cmp(y).then(far.total_cmp(near)));
    let (_, reading) = least.expect("a ring has corners");
    (0..n).map(|at| pair(reading, at)).collect()
}

/// How far two points lie apart.
pub fn distance(a: Point, b: Point) -> f64 {
    (a.0 - b.0).hypot(a.1 - b.1)
}

#[cfg(test)]
mod tests {
    use super::paired;

    #[test]
    fn corners_are_paired_wherever_a_ring_begins_and_whichever_way_it_goes() {
        let square = [(0.0, 0.0), (10.0, 0.0), (10.0, 10.0), (0.0, 10.0)];
        let turned = [(10.0, 10.0), (10.0, 0.0), (1e-6, 0.0), (0.0, 10.0)];
        assert_eq!(paired(&square, &turned), [(0, 2), (1, 1), (2, 0), (3, 3)]);
        let far = [(0.0, 9.0), (7.0, 7.0), (10.0, 0.0), (0.0, 0.0)];
        assert_eq!(paired(&square, &far), [(0, 3), (1, 2), (2, 1), (3, 0)]);
    }
}
