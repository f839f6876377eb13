//! Rooms that are empty, short, exact, longer, and with part of an entry left
//! over, for the calls that answer lists.

use super::scenes::{notched, squares, Scene, TOLERANCE};
use super::{Case, FIND_CONTACTS, TRANSLATION_VECTORS};
use crate::shapes::square;

/// Lengths about this one.
fn about(exact: usize) -> [usize; 5] {
    [exact.saturating_sub(1), exact, exact + 1, exact + 2, 0]
}

/// The case with each room short, exact and longer in turn, and both short.
fn lent(case: &Case) -> Vec<Case> {
    let [one, two] = case.exact();
    let mut all: Vec<_> = about(one).map(|length| case.clone().lent([length, two])).to_vec();
    all.extend(about(two).map(|length| case.clone().lent([one, length])));
    all.extend(
        [[0, 0], [one.saturating_sub(1), two.saturating_sub(1)], [one + 4, two + 3]]
            .map(|lengths| case.clone().lent(lengths)),
    );
    all
}

/// All cases of rooms.
pub fn cases() -> Vec<Case> {
    // Corner to corner: four contacts.
    let scene = Scene { at: (-2.0, -2.0), ..squares() };
    let (s, q) = (&scene.stationary, &scene.moved());
    let fit = Scene { stationary: notched(), drawn: square(2.0), at: (2.0, 2.0) };
    let far = Scene { stationary: square(4.0), drawn: square(2.0), at: (9.0, 9.0) };
    let mut all = Vec::new();
    for call in [FIND_CONTACTS, TRANSLATION_VECTORS] {
        all.extend(lent(&Case::of(call, s, q, &[TOLERANCE])));
        // An empty answer fits an empty room.
        all.extend([[0, 0], [1, 0], [4, 4]].map(|room| far.case(call, far.at, 0.5).lent(room)));
        all.push(fit.case(call, fit.at, TOLERANCE));
    }
    let visited = [-1.0, -2.0, 7.0, 7.0];
    all.extend(lent(&Case::fitting(s, q, [-2.0, -2.0, TOLERANCE], &visited)));
    // Every vector leads to a position visited: nothing is left.
    let all_round = [-1.0, -2.0, -3.0, -2.0, -2.0, -2.0, -2.0, -1.0, -2.0, -3.0];
    let nothing = Case::fitting(s, q, [-2.0, -2.0, TOLERANCE], &all_round);
    all.extend([[0, 0], [5, 0], [0, 1]].map(|room| nothing.clone().lent(room)));
    let path = [0.0, 0.0, 2.0, 0.0, 4.0, 0.0, 4.0, 4.0, 0.0, 4.0];
    let simple = Case::simplifying(&path, TOLERANCE);
    all.extend([0, 1, 6, 7, 8, 9, 10, 17].map(|room| simple.clone().lent([room, 0])));
    let whole = Case::simplifying(&path[..6], TOLERANCE);
    all.extend([0, 5, 6, 7].map(|room| whole.clone().lent([room, 0])));
    let empty = Case::simplifying(&[], TOLERANCE);
    all.extend([0, 1, 2].map(|room| empty.clone().lent([room, 0])));
    all
}
