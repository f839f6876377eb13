//! The list `drawn`, of moves of a drawing. A record is seventeen words of header:
//!
//! ```text
//! 0        the call: 0 clear_move, 1 check_reason, 2 clear_path
//! 1, 2, 3  the lengths of the stationary polygon, the orbiting one and the third list
//! 4 to 7   from x, from y, to x, to y, as floats; 0.0 for clear_path
//! 8        the units
//! 9        how for check_reason, closed for clear_path, 0 for clear_move
//! 10       the refusal's number
//! 11       the ground
//! 12       the depth, 0 where none is told
//! 13       how, where clear_move tells it, else 0
//! 14       the leg, 0 where none is told
//! 15       the edge, 0 where none is told
//! 16       the place that the refusal tells, 0 where it tells none
//! ```
//!
//! and then the three lists one after the other: both polygons as floats; the third is for
//! clear_move the room at entry and for check_reason the reason, both as integers in 64-bit
//! two's complement, and for clear_path the path as floats. For clear_move the room at exit
//! follows, as long as at entry.

mod cases;
mod sample;

use super::{bits, once, refused, List};
use crate::answers::Point;
use crate::clear::{self, written};
use crate::drawn::{check_reason, clear_move, clear_path, depth, parted, Ground, Legs};
use crate::refusals::Answer;
use crate::seeded::Seeded;

pub const CLEAR_MOVE: u64 = 0;
pub const CHECK_REASON: u64 = 1;
pub const CLEAR_PATH: u64 = 2;

/// The names of the calls, by their number.
const NAMES: [&str; 3] = ["clear_move", "check_reason", "clear_path"];

/// Words of the header.
pub const HEADER: usize = 17;
/// Most words of a polygon, of a room or a reason, and of a path, in the list.
pub const MOST_POLYGON: usize = 600;
pub const MOST_REASON: usize = 1_100;
pub const MOST_PATH: usize = 20_100;

/// The list with both its forms.
pub const LIST: List = List { stored: records, long, counted };

/// A drawing, the ends of a move, and the grid.
#[derive(Clone, Debug)]
struct Drawing {
    stationary: Vec<f64>,
    orbiting: Vec<f64>,
    from: Point,
    to: Point,
    units: u32,
}

/// What a call is lent besides.
#[derive(Clone, Debug)]
enum Third {
    /// A room of this length.
    Room(usize),
    /// A reason, and how the orbiting polygon is put aside.
    Reason(Vec<i32>, u32),
    /// A path, and whether it is closed, which any number but 0 says.
    Path(Vec<f64>, u32),
}

/// A call with what is lent to it.
#[derive(Clone, Debug)]
struct Case {
    drawing: Drawing,
    third: Third,
}

impl Drawing {
    /// Both polygons.
    fn pair(&self) -> [&[f64]; 2] {
        [&self.stationary, &self.orbiting]
    }

    /// The search for a reason, with a room of this length.
    fn search(&self, length: usize) -> Case {
        Case { drawing: self.clone(), third: Third::Room(length) }
    }

    /// The check of a reason.
    fn check(&self, how: u32, reason: &[i32]) -> Case {
        Case { drawing: self.clone(), third: Third::Reason(reason.to_vec(), how) }
    }

    /// The legs of a path.
    fn path(&self, path: &[f64], closed: u32) -> Case {
        let drawing = Self { from: (0.0, 0.0), to: (0.0, 0.0), ..self.clone() };
        Case { drawing, third: Third::Path(path.to_vec(), closed) }
    }

    /// The ground of the move, and the lines that part every edge, where they do, whether
    /// they balance or not; nothing where it is refused.
    fn found(&self) -> Option<(Ground, Vec<i32>)> {
        let (lines, ground) = parted(self.pair(), self.from, self.to, self.units).ok()?;
        let mut reason = vec![0; 4 * lines.len()];
        written(&lines, &mut reason).ok()?;
        Some((ground, reason))
    }

    /// How, and the reason, where the move is clear.
    fn reason(&self) -> Option<(u32, Vec<i32>)> {
        match self.found()? {
            (Ground::Clear { how }, reason) => Some((how, reason)),
            _ => None,
        }
    }
}

/// A room of this length whose every number can be told from a number of the grid.
fn room(length: usize) -> Vec<i32> {
    (0..length as i32).map(|i| i32::MIN + 3 * i).collect()
}

/// Integers as words.
fn words(list: &[i32]) -> Vec<u64> {
    list.iter().map(|&x| i64::from(x) as u64).collect()
}

/// What a call tells: the ground, the depth, how, the leg and the edge, 0 for each that is
/// not told.
type Told = [u64; 5];

/// What the search tells of its ground.
fn of_move(ground: Ground) -> Told {
    match ground {
        Ground::Clear { how } => [0, u64::from(depth(how)), u64::from(how), 0, 0],
        Ground::Edge(edge) => [1, 0, 0, 0, edge as u64],
        Ground::Enclosed { how } => [2, u64::from(depth(how)), u64::from(how), 0, 0],
    }
}

/// What the check tells of its ground.
fn of_check(ground: clear::Ground, how: u32) -> Told {
    match ground {
        clear::Ground::Clear => [0, u64::from(depth(how)), 0, 0, 0],
        clear::Ground::Edge(edge) => [1, 0, 0, 0, edge as u64],
        clear::Ground::Enclosed => [2, u64::from(depth(how)), 0, 0, 0],
    }
}

/// What is told of the legs of a path.
fn of_legs(legs: Legs) -> Told {
    match legs {
        Legs::Clear { depth } => [0, u64::from(depth), 0, 0, 0],
        Legs::Edge { leg, edge } => [1, 0, 0, leg as u64, edge as u64],
        Legs::Enclosed { leg } => [2, 0, 0, leg as u64, 0],
    }
}

/// The words of a case's third list, of its number besides and of the room at exit, and
/// what the call tells.
fn answered(Case { drawing, third }: &Case) -> ([Vec<u64>; 2], u64, Answer<Told>) {
    let Drawing { from, to, units, .. } = *drawing;
    let pair = drawing.pair();
    match third {
        Third::Room(length) => {
            let (before, mut after) = (room(*length), room(*length));
            let answer = clear_move(pair, from, to, units, &mut after);
            ([words(&before), words(&after)], 0, answer.map(of_move))
        }
        Third::Reason(reason, how) => {
            let answer = check_reason(pair, from, to, units, *how, reason);
            ([words(reason), vec![]], u64::from(*how), answer.map(|told| of_check(told, *how)))
        }
        Third::Path(path, closed) => {
            let answer = clear_path(pair, path, *closed != 0, units);
            ([bits(path), vec![]], u64::from(*closed), answer.map(of_legs))
        }
    }
}

/// The record of a case.
fn record(case: &Case) -> Vec<u64> {
    let call = match case.third {
        Third::Room(_) => CLEAR_MOVE,
        Third::Reason(..) => CHECK_REASON,
        Third::Path(..) => CLEAR_PATH,
    };
    let Drawing { stationary, orbiting, from, to, units } = &case.drawing;
    let ([third, exit], besides, answer) = answered(case);
    let [number, place] = refused(answer.err());
    let lengths = [stationary.len(), orbiting.len(), third.len()].map(|n| n as u64);
    let mut record = vec![call];
    record.extend(lengths);
    record.extend(bits(&[from.0, from.1, to.0, to.1]));
    record.extend([u64::from(*units), besides, number]);
    record.extend(answer.unwrap_or([0; 5]));
    record.push(place);
    [bits(stationary), bits(orbiting), third, exit].iter().for_each(|list| record.extend(list));
    record
}

/// The list, record by record, none twice.
pub fn records() -> Vec<Vec<u64>> {
    once(cases::cases().iter().map(record).collect())
}

/// A record of a long run: by turns lists about the bounds of their length, as far as
/// there are any, and a seeded case.
fn long(seeded: &mut Seeded, place: u64) -> Vec<u64> {
    let bounds = if place.is_multiple_of(2) { cases::swept(place / 2) } else { None };
    record(&bounds.unwrap_or_else(|| sample::case(seeded, place / 2 % NAMES.len() as u64)))
}

/// The call, with its refusal number, or its ground, and how a move was told.
fn counted(record: &[u64]) -> Vec<String> {
    let [call, number, ground, how] = [0, 10, 11, 13].map(|place: usize| record[place]);
    let name = NAMES[call as usize];
    let told = match (number, ground) {
        (0, 0) => "clear".to_string(),
        (0, 1) => "edge".to_string(),
        (0, _) => "enclosed".to_string(),
        _ => format!("refusal {number}"),
    };
    let mut all = vec![format!("{call} {name}: all"), format!("{call} {name}: {told}")];
    if call == CLEAR_MOVE && number == 0 && ground != 1 {
        all.push(format!("{name}, how {how:2}: {told}"));
    }
    all
}
