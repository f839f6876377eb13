//! Whole moves, reasons and whole paths, through the library; and that its calls keep
//! what relates them: what the search hands out the check accepts, a path is what the
//! search says leg by leg, and a small move is what it is without a line.

use super::{told_place, Words};
use crate::ffi;
use crate::lent::{Cell, Room};
use crate::tally::Compared;
use oracle::clear::exact::{is_clear, is_convex, MOST};
use oracle::replay::clear::{CHECK_REASON, CLEAR_MOVE, CLEAR_PATH, HEADER};

/// What margins of integers hold.
const MARGIN: i32 = 0x5eed_5eed;

/// What a call returned and told: the ground, the leg, the edge and the place.
type Told = (u64, [Option<u64>; 4]);

/// A word as the integer that it is.
fn integer(word: u64) -> i32 {
    i32::try_from(word as i64).expect("a record's numbers are of 32 bits")
}

/// The three lists of a record, and the room at exit of one that has a room.
fn lists(record: &[u64]) -> ([Vec<i32>; 3], Option<Vec<i32>>) {
    let mut rest = Words(&record[HEADER..]);
    let mut next = |length| rest.take(length).iter().map(|&word| integer(word)).collect();
    let lists = [1, 2, 3].map(|place: usize| next(record[place]));
    let room = (record[0] == CLEAR_MOVE).then(|| next(record[3]));
    (lists, room)
}

/// The move of a record.
fn by(record: &[u64]) -> (i32, i32) {
    (integer(record[4]), integer(record[5]))
}

/// The cells that a call is lent.
struct Cells {
    ground: u32,
    leg: u64,
    edge: u64,
    place: u64,
}

impl Cells {
    /// Cells that hold no answer.
    fn held() -> Self {
        Self { ground: u32::HELD, leg: u64::HELD, edge: u64::HELD, place: u64::HELD }
    }

    /// What they were told by a call that returned this.
    fn told(&self, returned: u32) -> Told {
        let cells = [self.ground.told(), self.leg.told(), self.edge.told(), self.place.told()];
        (u64::from(returned), cells)
    }
}

/// The search through the library, with this room.
fn searched(a: &Room<i32>, b: &Room<i32>, by: (i32, i32), room: &mut Room<i32>) -> Told {
    let (mut cells, length) = (Cells::held(), room.len());
    // SAFETY: all lists are as long as is said, and every pointer has its cell.
    let returned = unsafe {
        ffi::byr_whole_clear_move(
            a.list(),
            a.len(),
            b.list(),
            b.len(),
            by.0,
            by.1,
            room.room(),
            length,
            &mut cells.ground,
            &mut cells.edge,
            &mut cells.place,
        )
    };
    cells.told(returned)
}

/// The check of a reason through the library.
fn checked(a: &Room<i32>, b: &Room<i32>, by: (i32, i32), reason: &Room<i32>) -> Told {
    let mut cells = Cells::held();
    // SAFETY: all lists are as long as is said, and every pointer has its cell.
    let returned = unsafe {
        ffi::byr_whole_check_reason(
            a.list(),
            a.len(),
            b.list(),
            b.len(),
            by.0,
            by.1,
            reason.list(),
            reason.len(),
            &mut cells.ground,
            &mut cells.edge,
            &mut cells.place,
        )
    };
    cells.told(returned)
}

/// The legs of a path through the library.
fn gone(a: &Room<i32>, b: &Room<i32>, path: &Room<i32>) -> Told {
    let mut cells = Cells::held();
    // SAFETY: all lists are as long as is said, and every pointer has its cell.
    let returned = unsafe {
        ffi::byr_whole_clear_path(
            a.list(),
            a.len(),
            b.list(),
            b.len(),
            path.list(),
            path.len(),
            &mut cells.ground,
            &mut cells.leg,
            &mut cells.edge,
            &mut cells.place,
        )
    };
    cells.told(returned)
}

/// What the record says is told: the ground of an answer; of a path its leg, unless it is
/// clear; the edge, where it is one; and the place where the refusal tells it.
fn expected(record: &[u64]) -> Told {
    let [number, ground, leg, edge, place] = [6, 7, 8, 9, 10].map(|place| record[place]);
    let answered = number == 0;
    let leg = (answered && record[0] == CLEAR_PATH && ground != 0).then_some(leg);
    let edge = (answered && ground == 1).then_some(edge);
    (number, [answered.then_some(ground), leg, edge, told_place(number, place)])
}

/// The record's call through the library: what it tells, and what all that is lent holds
/// afterwards.
pub fn check(record: &[u64]) -> Compared {
    let ([a, b, third], exit) = lists(record);
    let [first, second, mut last] = [&a, &b, &third].map(|list| Room::new(list, MARGIN));
    let (name, told) = match record[0] {
        CLEAR_MOVE => ("whole_clear_move", searched(&first, &second, by(record), &mut last)),
        CHECK_REASON => ("whole_check_reason", checked(&first, &second, by(record), &last)),
        _ => ("whole_clear_path", gone(&first, &second, &last)),
    };
    let left = exit.as_deref().unwrap_or(&third);
    let oracle = (expected(record), [Some(&a[..]), Some(&b), Some(left)]);
    let library = (told, [first.contents(), second.contents(), last.contents()]);
    let compared = Compared::of(name, record[6], oracle, library);
    Compared { ground: (record[6] == 0).then_some(record[7]), ..compared }
}

/// What the library's search says of a move, without a place, and the reason.
fn found(a: &[i32], b: &[i32], by: (i32, i32)) -> (Told, Vec<i32>) {
    let [a, b] = [a, b].map(|list| Room::new(list, MARGIN));
    let mut room = Room::new(&vec![0; 2 * a.len()], MARGIN);
    let told = searched(&a, &b, by, &mut room);
    (told, room.contents().expect("the margins are as they were").to_vec())
}

/// The library's check of what its own search hands out, where a move is clear.
pub fn handed_out(record: &[u64]) -> Option<Compared> {
    if record[0] != CLEAR_MOVE || record[6] != 0 || record[7] != 0 {
        return None;
    }
    let ([a, b, _], _) = lists(record);
    let (_, reason) = found(&a, &b, by(record));
    let [first, second, third] = [&a, &b, &reason].map(|list| Room::new(list, MARGIN));
    let judged = checked(&first, &second, by(record), &third);
    let holds = (0, [Some(0), None, None, None]);
    Some(Compared::of("what is handed out is accepted", 0, holds, judged))
}

/// The library's search on each leg of a path that is not refused, up to the first that
/// is not clear, beside its answer for the path.
pub fn leg_by_leg(record: &[u64]) -> Option<Compared> {
    if record[0] != CLEAR_PATH || record[6] != 0 {
        return None;
    }
    let ([a, b, path], _) = lists(record);
    let points: Vec<(i32, i32)> = path.chunks_exact(2).map(|p| (p[0], p[1])).collect();
    let leg = |i: usize| {
        let (from, to) = (points[i], points[(i + 1) % points.len()]);
        let there: Vec<i32> =
            b.chunks_exact(2).flat_map(|p| [p[0] + from.0, p[1] + from.1]).collect();
        let (number, [ground, _, edge, place]) =
            found(&a, &there, (to.0 - from.0, to.1 - from.1)).0;
        (number, [ground, Some(i as u64), edge, place])
    };
    let not_clear = |told: &Told| told.1[0] != Some(0);
    let first = (0..points.len()).map(leg).find(not_clear);
    let by_legs = first.unwrap_or((0, [Some(0), None, None, None]));
    let [a, b, path] = [&a, &b, &path].map(|list| Room::new(list, MARGIN));
    Some(Compared::of("a whole path leg by leg", 0, by_legs, gone(&a, &b, &path)))
}

/// Most pairs of corners for which a move is decided without a line.
const FEW: usize = 150;

/// What is so of a small move, without a line, beside what the library's search finds:
/// the same for a convex polygon with an area, and else no more than that.
pub fn exactly(record: &[u64]) -> Option<Compared> {
    let ([a, b, _], _) = lists(record);
    let (dx, dy) = by(record);
    let near =
        |x: &i32, by: i32| i64::from(*x).abs().max((i64::from(*x) + i64::from(by)).abs()) <= MOST;
    let small = a.len() * b.len() <= 4 * FEW
        && a.iter().all(|x| near(x, 0))
        && b.chunks_exact(2).all(|p| near(&p[0], dx) && near(&p[1], dy));
    if record[0] != CLEAR_MOVE || record[6] != 0 || !small {
        return None;
    }
    let exact = is_clear(&a, &b, (dx, dy))?;
    let clear = found(&a, &b, (dx, dy)).0 .1[0] == Some(0);
    let expected = if is_convex(&b) { exact } else { exact && clear };
    Some(Compared::of("a whole move without a line", 0, expected, clear))
}
