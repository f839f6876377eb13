//! Lists about the bounds of their length, in every call of the sliding.

use super::faults::{on, roomed, POLYGON_CALLS};
use super::lists::selecting;
use super::scenes::{squares, TOLERANCE};
use super::{Case, PERFECT_FIT, SELECT, SIMPLIFY};
use crate::replay::lengths::{self, Lengths, PATHS};
use std::sync::LazyLock;

/// A call, and the lengths of the polygons and the list that it is lent.
type Lent = (u64, Lengths<3>);

/// Lengths of visited positions: fine, odd, odd and long, long.
const VISITED: [usize; 4] = [2, 3, 20_003, 20_004];

/// The case of a call with lists of these lengths.
fn case(&(call, lengths): &Lent) -> Case {
    let scene = squares();
    let [a, b, list] = lengths.lists([&scene.stationary, &scene.moved(), &[]]);
    match call {
        SELECT => selecting(&list, None, (0.0, 0.0), (0.0, -2.0)),
        SIMPLIFY => roomed(Case::simplifying(&list, TOLERANCE)),
        _ => roomed(Case { list, ..on(call, &a, &b, TOLERANCE) }),
    }
}

/// A call that takes one list.
fn alone(call: u64, n: usize, wrong: Option<usize>) -> Lent {
    (call, Lengths { of: [0, 0, n], wrong })
}

/// Lists to select from, of up to two vectors and a third.
fn selections() -> Vec<Lent> {
    (0..8).map(|n| alone(SELECT, n, None)).collect()
}

/// Lists to simplify, with and without a wrong number.
fn simplified() -> Vec<Lent> {
    let both = |n| [None, Some(2)].map(|wrong| alone(SIMPLIFY, n, wrong));
    PATHS.into_iter().flat_map(both).collect()
}

/// Positions visited of these lengths beside polygons in every two ways.
fn visited() -> Vec<Lent> {
    let beside = |pair: Lengths<2>| VISITED.map(|n| (PERFECT_FIT, pair.beside(n)));
    lengths::ways().into_iter().flat_map(beside).collect()
}

/// The cases that the repository stores.
pub fn cases() -> Vec<Case> {
    let mut all = selections();
    for (place, call) in POLYGON_CALLS.into_iter().enumerate() {
        all.extend(lengths::share(place).into_iter().map(|pair| (call, pair.beside(0))));
    }
    all.extend(lengths::share(0).into_iter().map(|pair| (PERFECT_FIT, pair.beside(VISITED[1]))));
    all.iter().map(case).collect()
}

/// The case with this place among all, for a long run; nothing past the last.
pub fn swept(place: u64) -> Option<Case> {
    static ALL: LazyLock<Vec<Lent>> = LazyLock::new(|| {
        let mut all = [selections(), simplified(), visited()].concat();
        for pairs in [lengths::ways(), lengths::lengths()] {
            for call in POLYGON_CALLS {
                all.extend(pairs.iter().map(|pair| (call, pair.beside(0))));
            }
        }
        all
    });
    ALL.get(place as usize).map(case)
}
