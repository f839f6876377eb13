//! The list `sliding`. A record is eighteen words of header: the call, the lengths
//! of the stationary polygon, the orbiting polygon, the list, the extra numbers,
//! room 1 and room 2, the refusal number, nine values and the place that the
//! refusal tells; then the two polygons, the list, the extra numbers, both rooms at
//! entry and both rooms at exit. Words are the bits of floats unless said
//! otherwise; values are 0 where refused or not found, the place 0 where none is
//! told.
//!
//! | call | orbiting | list | extra | room 1, room 2 | values |
//! |---|---|---|---|---|---|
//! | 0 find_contacts | moved | | tolerance | which (plain), points | count |
//! | 1 compute_translation_vectors | moved | | tolerance | vectors, sources (plain) | count |
//! | 2 handle_perfect_fit | moved | visited | rx, ry, tolerance | as 1 | count |
//! | 3 select_translation_vector | | vectors | has_previous (plain, 0 or 1), px, py, cx, cy, x, y | | found, index |
//! | 4 check_translation_collision | moved | | dx, dy, tolerance | | found, distance, kind, stationary, orbiting |
//! | 5 detect_interlocking_opportunity | as drawn | | x, y, tolerance | | found, x, y |
//! | 6 recover_contact | moved | | x, y, tolerance | | found, x, y |
//! | 7 polygons_overlap | b | | | | overlap |
//! | 8 polygons_overlap_with_tolerance | b | | tolerance | | overlap |
//! | 9 find_start_position | as drawn | | | | x, y |
//! | 10 simplify_polygon | | list | tolerance | room | points |
//! | 11 explain_collision | moved | | dx, dy, tolerance | | ground, distance, kind, stationary, orbiting, others, too near, between, too far |

mod faults;
mod grounds;
mod lengths;
mod lists;
mod moves;
mod rooms;
mod sample;
mod scenes;

use super::{answer_bits, bits, float_room, once, refused, List};
use crate::answers::Point;
use crate::calls::{self, points_of};
use crate::fixed::nfp_sliding as text;
use crate::grounds::{explain_collision, Explanation};
use crate::refusals::Answer;
use crate::seeded::Seeded;

pub const FIND_CONTACTS: u64 = 0;
pub const TRANSLATION_VECTORS: u64 = 1;
pub const PERFECT_FIT: u64 = 2;
pub const SELECT: u64 = 3;
pub const COLLISION: u64 = 4;
pub const INTERLOCKING: u64 = 5;
pub const RECOVER: u64 = 6;
pub const OVERLAP: u64 = 7;
pub const OVERLAP_WITH_TOLERANCE: u64 = 8;
pub const START: u64 = 9;
pub const SIMPLIFY: u64 = 10;
pub const EXPLAIN: u64 = 11;

/// The names of the calls, by their number.
const NAMES: [&str; 12] = [
    "find_contacts",
    "compute_translation_vectors",
    "handle_perfect_fit",
    "select_translation_vector",
    "check_translation_collision",
    "detect_interlocking_opportunity",
    "recover_contact",
    "polygons_overlap",
    "polygons_overlap_with_tolerance",
    "find_start_position",
    "simplify_polygon",
    "explain_collision",
];

/// Words of the header.
pub const HEADER: usize = 18;
/// Where the values begin in it, and how many there are.
pub const VALUES_AT: usize = 8;
pub const VALUES: usize = 9;
/// Where the place stands in it.
pub const PLACE_AT: usize = 17;
/// Most words of a room in the list.
pub const MOST_ROOM: usize = 4096;

/// The list with both its forms.
pub const LIST: List = List { stored: records, long, counted };

/// The values of a record.
type Values = [u64; VALUES];

/// A call with what is lent to it, rooms and extra numbers as words.
#[derive(Clone, Default)]
struct Case {
    call: u64,
    stationary: Vec<f64>,
    orbiting: Vec<f64>,
    list: Vec<f64>,
    extra: Vec<u64>,
    rooms: [Vec<u64>; 2],
}

impl Case {
    /// A call that takes two polygons and these numbers, and rooms that are just
    /// long enough if it takes rooms.
    fn of(call: u64, stationary: &[f64], orbiting: &[f64], extra: &[f64]) -> Self {
        let [stationary, orbiting] = [stationary, orbiting].map(<[f64]>::to_vec);
        let case = Self { call, stationary, orbiting, extra: bits(extra), ..Self::default() };
        case.fitted()
    }

    /// `handle_perfect_fit` with these positions visited.
    fn fitting(stationary: &[f64], orbiting: &[f64], extra: [f64; 3], visited: &[f64]) -> Self {
        let mut case = Self::of(PERFECT_FIT, stationary, orbiting, &extra);
        case.list = visited.to_vec();
        case.fitted()
    }

    /// `simplify_polygon` with a room that is just long enough.
    fn simplifying(list: &[f64], tolerance: f64) -> Self {
        let (list, extra) = (list.to_vec(), bits(&[tolerance]));
        Self { call: SIMPLIFY, list, extra, ..Self::default() }.fitted()
    }

    /// The case with rooms that are just long enough, but for the list's limit.
    fn fitted(self) -> Self {
        let exact = self.exact();
        self.lent(exact)
    }

    /// The case with rooms of these lengths.
    fn lent(mut self, lengths: [usize; 2]) -> Self {
        let [one, two] = lengths.map(|length| length.min(MOST_ROOM));
        self.rooms = match self.call {
            FIND_CONTACTS => [plain_room(one), bits(&float_room(two))],
            TRANSLATION_VECTORS | PERFECT_FIT => [bits(&float_room(one)), plain_room(two)],
            SIMPLIFY => [bits(&float_room(one)), Vec::new()],
            _ => [Vec::new(), Vec::new()],
        };
        self
    }

    /// The lengths of rooms that are just long enough, 0 where there is no answer.
    fn exact(&self) -> [usize; 2] {
        let entries = if self.tested().is_ok() { self.entries() } else { 0 };
        match self.call {
            FIND_CONTACTS => [4 * entries, 2 * entries],
            TRANSLATION_VECTORS | PERFECT_FIT => [3 * entries, entries],
            _ => [2 * entries, 0],
        }
    }

    /// The refusals of a call that come before its rooms are looked at.
    fn tested(&self) -> Answer<()> {
        match self.clone().lent([0, 0]).answer().0 {
            Err(refusal) if refusal.number != 5 => Err(refusal),
            _ => Ok(()),
        }
    }

    /// How many entries the answer has, of a call that takes rooms.
    fn entries(&self) -> usize {
        let (stationary, orbiting) = (points_of(&self.stationary), points_of(&self.orbiting));
        let contacts = |tolerance| text::find_contacts(&stationary, &orbiting, tolerance).len();
        match self.call {
            FIND_CONTACTS => contacts(self.number(0)),
            TRANSLATION_VECTORS => 2 * contacts(self.number(0)),
            PERFECT_FIT => {
                let (reference, tolerance) = (self.point(0), self.number(2));
                let group =
                    text::create_touching_group(&stationary, &orbiting, reference, tolerance);
                let visited = points_of(&self.list);
                text::handle_perfect_fit(&group, &stationary, &orbiting, &visited, tolerance).len()
            }
            SIMPLIFY => {
                let simplified = text::simplify_polygon(&points_of(&self.list), self.number(0));
                simplified.map_or(0, |points| points.len())
            }
            _ => 0,
        }
    }

    /// The extra number in this place.
    fn number(&self, place: usize) -> f64 {
        f64::from_bits(self.extra[place])
    }

    /// The two extra numbers from this place on.
    fn point(&self, place: usize) -> Point {
        (self.number(place), self.number(place + 1))
    }

    /// What the call answers, as the values of a record, and the rooms after it.
    fn answer(&self) -> (Answer<Values>, [Vec<u64>; 2]) {
        let (a, b, list) = (&self.stationary[..], &self.orbiting[..], &self.list[..]);
        let mut rooms = self.rooms.clone();
        let [one, two] = &mut rooms;
        let answer = match self.call {
            FIND_CONTACTS => in_floats(two, |points| {
                calls::find_contacts(a, b, self.number(0), one, points).map(count)
            }),
            TRANSLATION_VECTORS => in_floats(one, |vectors| {
                calls::compute_translation_vectors(a, b, self.number(0), vectors, two).map(count)
            }),
            PERFECT_FIT => in_floats(one, |vectors| {
                let (at, tolerance) = (self.point(0), self.number(2));
                calls::handle_perfect_fit(a, b, at, list, tolerance, vectors, two).map(count)
            }),
            SELECT => {
                let previous = (self.extra[0] != 0).then(|| self.point(1));
                calls::select_translation_vector(list, previous, self.point(3), self.point(5))
                    .map(|found| found.map_or([0; VALUES], |index| values([1, index])))
            }
            COLLISION => {
                calls::check_translation_collision(a, b, self.point(0), self.number(2)).map(hit)
            }
            INTERLOCKING => {
                calls::detect_interlocking_opportunity(a, b, self.point(0), self.number(2))
                    .map(place)
            }
            RECOVER => calls::recover_contact(a, b, self.point(0), self.number(2)).map(place),
            OVERLAP => calls::polygons_overlap(a, b).map(truth),
            OVERLAP_WITH_TOLERANCE => {
                calls::polygons_overlap_with_tolerance(a, b, self.number(0)).map(truth)
            }
            START => calls::find_start_position(a, b)
                .map(|start| values([answer_bits(start.0), answer_bits(start.1)])),
            SIMPLIFY => in_floats(one, |room| {
                calls::simplify_polygon(list, self.number(0), room).map(count)
            }),
            EXPLAIN => explain_collision(a, b, self.point(0), self.number(2)).map(explanation),
            _ => unreachable!("there are twelve calls"),
        };
        (answer, rooms)
    }
}

/// A room of this length for whole numbers, none of which is an answer.
fn plain_room(length: usize) -> Vec<u64> {
    (0..length).map(|i| 0xfeed_0000_0000 + 3 * i as u64).collect()
}

/// What this answers on the room's words as floats, which are then written back.
fn in_floats<T>(room: &mut Vec<u64>, answer: impl FnOnce(&mut [f64]) -> T) -> T {
    let mut floats: Vec<f64> = room.iter().map(|&word| f64::from_bits(word)).collect();
    let answered = answer(&mut floats);
    *room = floats.into_iter().map(answer_bits).collect();
    answered
}

/// These values, and 0 for the rest.
fn values<const N: usize>(first: [u64; N]) -> Values {
    let mut all = [0; VALUES];
    all[..N].copy_from_slice(&first);
    all
}

/// A count of entries as values.
fn count(entries: usize) -> Values {
    values([entries as u64])
}

/// A yes or no as values.
fn truth(holds: bool) -> Values {
    values([u64::from(holds)])
}

/// A place, or none, as values.
fn place(found: Option<Point>) -> Values {
    found.map_or([0; VALUES], |(x, y)| values([1, answer_bits(x), answer_bits(y)]))
}

/// Distance, kind and the two indices of a hit, or 0 for each.
fn parts(found: Option<calls::Hit>) -> [u64; 4] {
    let all =
        |h: calls::Hit| [answer_bits(h.distance), u64::from(h.kind), h.stationary, h.orbiting];
    found.map_or([0; 4], all)
}

/// A hit, or none, as values.
fn hit(found: Option<calls::Hit>) -> Values {
    let [distance, kind, stationary, orbiting] = parts(found);
    values([u64::from(found.is_some()), distance, kind, stationary, orbiting])
}

/// An explanation as values.
fn explanation(x: Explanation) -> Values {
    let [distance, kind, stationary, orbiting] = parts(x.hit);
    let ground = u64::from(x.ground);
    let (near, between, far) = (x.too_near, x.between, x.too_far);
    [ground, distance, kind, stationary, orbiting, x.others, near, between, far]
}

/// The record of a case.
fn record(case: &Case) -> Vec<u64> {
    let (answer, after) = case.answer();
    let [number, place] = refused(answer.err());
    let floats = [&case.stationary, &case.orbiting, &case.list];
    let mut words = vec![case.call];
    words.extend(floats.map(|list| list.len() as u64));
    words.extend([&case.extra, &case.rooms[0], &case.rooms[1]].map(|list| list.len() as u64));
    words.push(number);
    words.extend(answer.unwrap_or([0; VALUES]));
    words.push(place);
    floats.iter().for_each(|list| words.extend(bits(list)));
    words.extend(&case.extra);
    case.rooms.iter().chain(&after).for_each(|room| words.extend(room));
    words
}

/// The list, record by record, none twice.
pub fn records() -> Vec<Vec<u64>> {
    let mut cases = scenes::cases();
    cases.extend(rooms::cases());
    cases.extend(moves::cases());
    cases.extend(grounds::cases());
    cases.extend(lists::cases());
    cases.extend(faults::cases());
    cases.extend(lengths::cases());
    once(cases.iter().map(record).collect())
}

/// A record of a long run: by turns lists about their bounds, as far as there are
/// any, and a seeded case, of these the calls by turns.
fn long(seeded: &mut Seeded, place: u64) -> Vec<u64> {
    let bounds = if place.is_multiple_of(2) { lengths::swept(place / 2) } else { None };
    record(&bounds.unwrap_or_else(|| sample::case(seeded, place / 2 % NAMES.len() as u64)))
}

/// The call, with its refusal number, its ground, or whether something was found.
fn counted(record: &[u64]) -> Vec<String> {
    let name = NAMES[record[0] as usize];
    let outcome = match record[7] {
        0 if record[0] == START => "answered".to_string(),
        0 if record[0] == EXPLAIN => format!("ground {}", record[8]),
        0 if record[8] == 0 => "nothing found".to_string(),
        0 => "something found".to_string(),
        number => format!("refusal {number}"),
    };
    vec![format!("{:2} {name}: all", record[0]), format!("{:2} {name}: {outcome}", record[0])]
}
