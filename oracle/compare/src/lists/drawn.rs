//! Moves of drawings, reasons and paths, through the library; and that its calls keep what
//! relates them: what the search hands out the check accepts as it was put, a path is what
//! the search says leg by leg, as it is a drawing is told what its whole numbers are, and
//! nothing truly reaches deeper than told.

use super::{told_place, Words};
use crate::ffi;
use crate::lent::{words, Cell, Room};
use crate::tally::Compared;
use oracle::answers::Point;
use oracle::drawn::exact::{is_told_of, truth, Truth};
use oracle::replay::drawn::{CHECK_REASON, CLEAR_MOVE, CLEAR_PATH, HEADER};

/// What margins of integers hold.
const MARGIN: i32 = 0x5eed_5eed;

/// What a call returned and told: the ground, the depth, how, the leg, the edge and the
/// place.
type Told = (u64, [Option<u64>; 6]);

/// The drawing of a record, its third list as words, and the room at exit of one that has
/// a room.
struct Lent {
    polygons: [Vec<u64>; 2],
    ends: [Point; 2],
    units: u32,
    besides: u32,
    third: Vec<u64>,
    exit: Option<Vec<u64>>,
}

impl Lent {
    /// What a record lends.
    fn of(record: &[u64]) -> Self {
        let mut rest = Words(&record[HEADER..]);
        let [a, b, third] = [1, 2, 3].map(|place: usize| rest.take(record[place]).to_vec());
        let exit = (record[0] == CLEAR_MOVE).then(|| rest.take(record[3]).to_vec());
        let point =
            |place: usize| (f64::from_bits(record[place]), f64::from_bits(record[place + 1]));
        let [units, besides] = [8, 9].map(|place: usize| record[place] as u32);
        Self { polygons: [a, b], ends: [point(4), point(6)], units, besides, third, exit }
    }

    /// The polygons as numbers.
    fn numbers(&self) -> [Vec<f64>; 2] {
        [0, 1].map(|i: usize| self.polygons[i].iter().map(|&word| f64::from_bits(word)).collect())
    }
}

/// The integers of these words.
fn integers(words: &[u64]) -> Vec<i32> {
    words.iter().map(|&word| word as i32).collect()
}

/// The cells that a call is lent.
struct Cells {
    words: [u32; 3],
    counts: [u64; 3],
}

impl Cells {
    /// Cells that hold no answer.
    fn held() -> Self {
        Self { words: [u32::HELD; 3], counts: [u64::HELD; 3] }
    }

    /// What they were told by a call that returned this.
    fn told(&self, returned: u32) -> Told {
        let ([ground, depth, how], [leg, edge, place]) =
            (self.words.map(Cell::told), self.counts.map(Cell::told));
        (u64::from(returned), [ground, depth, how, leg, edge, place])
    }
}

/// The search through the library, with this room.
fn searched(
    [a, b]: &[Room<u64>; 2],
    [from, to]: [Point; 2],
    units: u32,
    room: &mut Room<i32>,
) -> Told {
    let (mut cells, length) = (Cells::held(), room.len());
    let ([ground, depth, how], [_, edge, place]) = (&mut cells.words, &mut cells.counts);
    // SAFETY: all lists are as long as is said, and every pointer has its cell.
    let returned = unsafe {
        ffi::byr_clear_move(
            a.list(),
            a.len(),
            b.list(),
            b.len(),
            from.0,
            from.1,
            to.0,
            to.1,
            units,
            room.room(),
            length,
            ground,
            depth,
            how,
            edge,
            place,
        )
    };
    cells.told(returned)
}

/// The check of a reason through the library.
fn checked(
    [a, b]: &[Room<u64>; 2],
    [from, to]: [Point; 2],
    units: u32,
    how: u32,
    reason: &Room<i32>,
) -> Told {
    let mut cells = Cells::held();
    let ([ground, depth, _], [_, edge, place]) = (&mut cells.words, &mut cells.counts);
    // SAFETY: all lists are as long as is said, and every pointer has its cell.
    let returned = unsafe {
        ffi::byr_check_reason(
            a.list(),
            a.len(),
            b.list(),
            b.len(),
            from.0,
            from.1,
            to.0,
            to.1,
            units,
            how,
            reason.list(),
            reason.len(),
            ground,
            depth,
            edge,
            place,
        )
    };
    cells.told(returned)
}

/// The legs of a path through the library.
fn gone([a, b]: &[Room<u64>; 2], path: &Room<u64>, closed: u32, units: u32) -> Told {
    let mut cells = Cells::held();
    let ([ground, depth, _], [leg, edge, place]) = (&mut cells.words, &mut cells.counts);
    // SAFETY: all lists are as long as is said, and every pointer has its cell.
    let returned = unsafe {
        ffi::byr_clear_path(
            a.list(),
            a.len(),
            b.list(),
            b.len(),
            path.list(),
            path.len(),
            closed,
            units,
            ground,
            depth,
            leg,
            edge,
            place,
        )
    };
    cells.told(returned)
}

/// What the record says is told: the ground of an answer; the depth where it is clear, and
/// of a move or a reason where it is enclosed; how, of a move, with the depth; the leg of a
/// path that is not clear; the edge, where it is one; and the place where the refusal
/// tells it.
fn expected(record: &[u64]) -> Told {
    let [number, ground, depth, how, leg, edge, place] =
        [10, 11, 12, 13, 14, 15, 16].map(|place: usize| record[place]);
    let (answered, path) = (number == 0, record[0] == CLEAR_PATH);
    let deep = answered && (ground == 0 || ground == 2 && !path);
    let told = |told: bool, word: u64| told.then_some(word);
    let answer = [
        told(answered, ground),
        told(deep, depth),
        told(deep && record[0] == CLEAR_MOVE, how),
        told(answered && path && ground != 0, leg),
        told(answered && ground == 1, edge),
        told_place(number, place),
    ];
    (number, answer)
}

/// The record's call through the library: what it tells, and what all that is lent holds
/// afterwards.
pub fn check(record: &[u64]) -> Compared {
    let lent = Lent::of(record);
    let polygons = [0, 1].map(|i: usize| words(&lent.polygons[i]));
    let (name, told, left) = if record[0] == CLEAR_PATH {
        let path = words(&lent.third);
        let told = gone(&polygons, &path, lent.besides, lent.units);
        ("clear_path", told, path.contents().map(<[u64]>::to_vec))
    } else {
        let mut third = Room::new(&integers(&lent.third), MARGIN);
        let (name, told) = if record[0] == CHECK_REASON {
            let told = checked(&polygons, lent.ends, lent.units, lent.besides, &third);
            ("check_reason", told)
        } else {
            ("clear_move", searched(&polygons, lent.ends, lent.units, &mut third))
        };
        let words = |list: &[i32]| list.iter().map(|&x| i64::from(x) as u64).collect();
        (name, told, third.contents().map(words))
    };
    let after = lent.exit.as_ref().unwrap_or(&lent.third);
    let [a, b] = &lent.polygons;
    let oracle = (expected(record), [Some(&a[..]), Some(b), Some(after)]);
    let library = (told, [polygons[0].contents(), polygons[1].contents(), left.as_deref()]);
    let compared = Compared::of(name, record[10], oracle, library);
    Compared { ground: (record[10] == 0).then_some(record[11]), ..compared }
}

/// What the library's search says of a move of the record's drawing, and its room.
fn found(lent: &Lent, ends: [Point; 2]) -> (Told, Vec<i32>) {
    let polygons = [0, 1].map(|i: usize| words(&lent.polygons[i]));
    let mut room = Room::new(&vec![0; 2 * lent.polygons[0].len()], MARGIN);
    let told = searched(&polygons, ends, lent.units, &mut room);
    (told, room.contents().expect("the margins are as they were").to_vec())
}

/// The library's check of what its own search hands out, as it was put, where a move is
/// clear.
pub fn handed_out(record: &[u64]) -> Option<Compared> {
    if record[0] != CLEAR_MOVE || record[10] != 0 || record[11] != 0 {
        return None;
    }
    let lent = Lent::of(record);
    let ((_, [_, depth, how, ..]), reason) = found(&lent, lent.ends);
    let polygons = [0, 1].map(|i: usize| words(&lent.polygons[i]));
    let reason = Room::new(&reason, MARGIN);
    let judged = checked(&polygons, lent.ends, lent.units, how? as u32, &reason);
    let holds = (0, [Some(0), depth, None, None, None, None]);
    Some(Compared::of("what is handed out, drawn", 0, holds, judged))
}

/// The library's search on each leg of a path that is not refused, up to the first that
/// is not clear, beside its answer for the path.
pub fn leg_by_leg(record: &[u64]) -> Option<Compared> {
    if record[0] != CLEAR_PATH || record[10] != 0 {
        return None;
    }
    let lent = Lent::of(record);
    let numbers: Vec<f64> = lent.third.iter().map(|&word| f64::from_bits(word)).collect();
    let points: Vec<Point> = numbers.chunks_exact(2).map(|p| (p[0], p[1])).collect();
    let legs = points.len() - usize::from(lent.besides == 0);
    let mut by_legs = (0, [Some(0), Some(0), None, None, None, None]);
    for i in 0..legs {
        let ends = [points[i], points[(i + 1) % points.len()]];
        let (number, [ground, depth, _, _, edge, place]) = found(&lent, ends).0;
        if (number, ground) != (0, Some(0)) {
            by_legs = (number, [ground, None, None, Some(i as u64), edge, place]);
            break;
        }
        by_legs.1[1] = by_legs.1[1].max(depth);
    }
    let polygons = [0, 1].map(|i: usize| words(&lent.polygons[i]));
    let told = gone(&polygons, &words(&lent.third), lent.besides, lent.units);
    Some(Compared::of("a drawn path leg by leg", 0, by_legs, told))
}

/// The numbers of a list on the grid, by the library.
fn on_grid(list: &[u64], units: u32) -> Vec<i32> {
    let (lent, mut room) = (words(list), vec![0; list.len()]);
    let (mut count, mut place) = (0, 0);
    // SAFETY: the list and the room are as long as is said, and both cells are there.
    let returned = unsafe {
        ffi::byr_to_grid(
            lent.list(),
            lent.len(),
            units,
            room.as_mut_ptr(),
            room.len(),
            &mut count,
            &mut place,
        )
    };
    assert_eq!(returned, 0, "what is not refused is on the grid");
    room
}

/// The ground, the edge and the reason of the whole move that a drawing is on its grid, by
/// the library.
fn whole(lent: &Lent) -> (u32, u64, Vec<i32>) {
    let [a, b] = [0, 1].map(|i: usize| on_grid(&lent.polygons[i], lent.units));
    let bits = lent.ends.map(|end| [end.0.to_bits(), end.1.to_bits()]).concat();
    let ends = on_grid(&bits, lent.units);
    let there: Vec<i32> =
        b.chunks_exact(2).flat_map(|p| [p[0] + ends[0], p[1] + ends[1]]).collect();
    let (mut ground, mut edge, mut place, mut room) = (0, 0, 0, vec![0; 2 * a.len()]);
    // SAFETY: all lists are as long as is said, and every pointer has its cell.
    let returned = unsafe {
        ffi::byr_whole_clear_move(
            a.as_ptr(),
            a.len(),
            there.as_ptr(),
            there.len(),
            ends[2] - ends[0],
            ends[3] - ends[1],
            room.as_mut_ptr(),
            room.len(),
            &mut ground,
            &mut edge,
            &mut place,
        )
    };
    assert_eq!(returned, 0, "what is not refused is within the bounds");
    (ground, edge, room)
}

/// What the library says of a drawing's whole move, beside what it says of the drawing: the
/// same as it is where that parts every edge, and else another how, or that edge.
pub fn as_it_is(record: &[u64]) -> Option<Compared> {
    if record[0] != CLEAR_MOVE || record[10] != 0 {
        return None;
    }
    let lent = Lent::of(record);
    let (ground, edge, reason) = whole(&lent);
    let ((_, told), handed) = found(&lent, lent.ends);
    let parted = (Some(u64::from(ground)), Some(3), Some(0), None, reason);
    let [drawn, depth, how, _, at, _] = told;
    let told = (drawn, depth, how, at, handed);
    let expected = match (ground, drawn) {
        (1, Some(1)) => (Some(1), None, None, Some(edge), told.4.clone()),
        (1, _) if how != Some(0) => told.clone(),
        _ => parted,
    };
    Some(Compared::of("a drawing as it is", 0, expected, told))
}

/// Most corners of both polygons for which a move is held to what is truly so.
const FEW: usize = 80;

/// What is truly so of a move that the library tells clear or enclosed: that nothing
/// reaches deeper, and that what lies deeper is on that side.
pub fn exactly(record: &[u64]) -> Option<Compared> {
    let lent = Lent::of(record);
    let ([a, b], [from, to]) = (lent.numbers(), lent.ends);
    let small = a.len() + b.len() <= 2 * FEW && is_told_of([&a, &b], from, to);
    if record[0] != CLEAR_MOVE || record[10] != 0 || !small {
        return None;
    }
    let (_, [ground, depth, ..]) = found(&lent, lent.ends).0;
    let wrong = if ground == Some(0) { Truth::Inside } else { Truth::Outside };
    let truth = truth([&a, &b], from, to, lent.units, depth? as u32)?;
    let so = !matches!(truth, Truth::Reached(_)) && truth != wrong;
    Some(Compared::of("what is truly so of a drawing", 0, true, so))
}
