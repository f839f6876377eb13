//! Lists about the bounds of their length: fine, odd, short and long ones, alone
//! and in pairs, with a wrong number besides.

use super::with;
use crate::shapes::parabola;

/// Lengths of a polygon: fine, odd, short and long.
const WAYS: [usize; 4] = [8, 7, 4, 514];
/// Lengths of a ring or polygon: short ones, and those about the most vertices.
pub const RINGS: [usize; 13] = [0, 1, 3, 4, 5, 6, 7, 8, 511, 512, 513, 514, 515];
/// Lengths of a list of points: short ones, and those about the most points.
pub const PATHS: [usize; 9] = [0, 1, 2, 3, 4, 20_002, 20_003, 20_004, 20_005];
/// A polygon's fine length.
const FINE: usize = WAYS[0];

/// Lists of these lengths, of which one, or none, has a wrong number.
#[derive(Clone, Copy)]
pub struct Lengths<const N: usize> {
    pub of: [usize; N],
    pub wrong: Option<usize>,
}

impl<const N: usize> Lengths<N> {
    /// The lists: the front of each of these, or a longer one in its place.
    pub fn lists(&self, fine: [&[f64]; N]) -> [Vec<f64>; N] {
        std::array::from_fn(|i| {
            let n = self.of[i];
            let list = match fine[i].get(..n) {
                Some(front) => front.to_vec(),
                None => parabola(n.div_ceil(2))[..n].to_vec(),
            };
            if self.wrong == Some(i) && n > 0 {
                with(&list, n / 2, f64::NAN)
            } else {
                list
            }
        })
    }

    /// Whether no list is longer than a fine polygon.
    fn is_short(&self) -> bool {
        self.of.iter().all(|&n| n <= FINE)
    }
}

impl Lengths<2> {
    /// The same with a third list of this length.
    pub fn beside(self, third: usize) -> Lengths<3> {
        Lengths { of: [self.of[0], self.of[1], third], wrong: self.wrong }
    }
}

/// Every two of these lengths, each with these lists having a wrong number.
fn pairs(lengths: &[usize], wrong: &[Option<usize>]) -> Vec<Lengths<2>> {
    let mut all = Vec::new();
    for &a in lengths {
        for &b in lengths {
            all.extend(wrong.iter().map(|&wrong| Lengths { of: [a, b], wrong }));
        }
    }
    all
}

/// Two polygons in every two ways, with no wrong number and with one in either.
pub fn ways() -> Vec<Lengths<2>> {
    pairs(&WAYS, &[None, Some(0), Some(1)])
}

/// Two polygons of every two lengths.
pub fn lengths() -> Vec<Lengths<2>> {
    pairs(&RINGS, &[None])
}

/// Two polygons, one of them fine, and the other of every length.
pub fn bounds() -> Vec<Lengths<2>> {
    lengths().into_iter().filter(|pair| pair.of.contains(&FINE)).collect()
}

/// What is stored of the ways and of the bounds for one of ten calls: all that is
/// short, and of what is long this call's share.
pub fn share(call: usize) -> Vec<Lengths<2>> {
    let of = |pairs: Vec<Lengths<2>>, calls: usize| {
        let taken =
            |(i, pair): &(usize, Lengths<2>)| pair.is_short() || (i + call).is_multiple_of(calls);
        pairs.into_iter().enumerate().filter(taken).map(|(_, pair)| pair).collect::<Vec<_>>()
    };
    [of(ways(), 3), of(bounds(), 10)].concat()
}
