//! Cases for writing a book whose counts are wrong: too few and too many rings,
//! rings of too few and too many vertices, and lists that are not their sum.

use super::lent::{lend, triangles};
use super::Case;
use crate::replay::with;
use std::sync::LazyLock;

/// What a ring's count is: fine, none, too few, too many, the most it can say.
const COUNTS: [u32; 5] = [3, 0, 2, 257, u32::MAX];
/// How many numbers the list has more than the counts ask; none at all for nothing.
const MORE: [Option<i64>; 6] = [Some(0), Some(-1), Some(1), Some(-2), Some(2), None];
/// Most numbers of a list in the list.
const MOST_NUMBERS: i64 = 4_200;
/// Most numbers of a list that is short.
const FEW_NUMBERS: usize = 100;

/// No ring; one, two and three rings in all combinations; eight and more that are
/// all alike, or the first or the last of which differs from fine ones.
fn rows() -> Vec<Vec<u32>> {
    let mut all = vec![vec![]];
    for a in COUNTS {
        all.push(vec![a]);
        for b in COUNTS {
            all.push(vec![a, b]);
            all.extend(COUNTS.map(|c| vec![a, b, c]));
        }
        for rings in [8, 9, 16] {
            let fine = vec![COUNTS[0]; rings - 1];
            all.extend([vec![a; rings], [&[a], &fine[..]].concat(), [&fine[..], &[a]].concat()]);
        }
    }
    all
}

/// How many numbers these counts ask, where the largest count wraps to -1.
fn asked(counts: &[u32]) -> i64 {
    counts.iter().map(|&count| 2 * i64::from(count as i32)).sum()
}

/// The case with this place among all: these counts with a list that has so many
/// numbers more. By turns nothing else is wrong, or a number, or the room, or both;
/// no long list gets its room.
fn case(place: usize, counts: &[u32], more: Option<i64>) -> Case {
    let n = more.map_or(0, |more| (asked(counts) + more).clamp(0, MOST_NUMBERS)) as usize;
    let ring = triangles(1).concat();
    let mut list: Vec<f64> = ring.into_iter().cycle().take(n).collect();
    if n > 0 && matches!(place % 5, 1 | 3) {
        list = with(&list, n - 1, f64::NAN);
    }
    let no_room = n > FEW_NUMBERS || matches!(place % 5, 2 | 3);
    lend(list, counts.to_vec(), if no_room { 7 } else { 8 * n + 12 * counts.len() + 8 })
}

/// All of them.
fn all() -> Vec<(Vec<u32>, Option<i64>)> {
    rows().into_iter().flat_map(|row| MORE.map(|more| (row.clone(), more))).collect()
}

/// The cases that the repository stores: all with short lists, and of the others
/// those of one or two rings that add up.
pub fn cases() -> Vec<Case> {
    let kept = |case: &Case| match case {
        Case::Write { coordinates, counts, .. } => {
            let adds_up = coordinates.len() as i64 == asked(counts);
            coordinates.len() <= FEW_NUMBERS || (counts.len() <= 2 && adds_up)
        }
        Case::Read { .. } => unreachable!("all of them write"),
    };
    let cases = all().into_iter().enumerate().map(|(i, (row, more))| case(i, &row, more));
    cases.filter(kept).collect()
}

/// The case with this place among all, for a long run; nothing past the last.
pub fn swept(place: u64) -> Option<Case> {
    static ALL: LazyLock<Vec<(Vec<u32>, Option<i64>)>> = LazyLock::new(all);
    let place = place as usize;
    ALL.get(place).map(|(row, more)| case(place, row, *more))
}
