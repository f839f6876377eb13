//! The sliding's leaf calls, through the library.

use super::{on_success, told_place, Words};
use crate::ffi;
use crate::lent::{floats, words, Cell, Room};
use crate::tally::{Compared, Explained};
use oracle::replay::sliding::{self, HEADER, PLACE_AT, VALUES, VALUES_AT};

/// What a call is lent, the cell for the place included.
struct Lent {
    a: Room<u64>,
    b: Room<u64>,
    list: Room<u64>,
    extra: Vec<u64>,
    one: Room<u64>,
    two: Room<u64>,
    place: u64,
}

impl Lent {
    /// The extra number in this place.
    fn number(&self, place: usize) -> f64 {
        f64::from_bits(self.extra[place])
    }
}

/// What a function returned and what it told through up to nine pointers before
/// that of the place.
type Told = (u32, [Option<u64>; VALUES]);

/// What was told through these pointers, and nothing through others.
fn told<const N: usize>(number: u32, cells: [Option<u64>; N]) -> Told {
    let mut all = [None; VALUES];
    all[..N].copy_from_slice(&cells);
    (number, all)
}

/// A call that writes entries to two rooms.
fn entries(call: u64, lent: &mut Lent) -> (&'static str, Told) {
    let (a, an, b, bn) = (lent.a.list(), lent.a.len(), lent.b.list(), lent.b.len());
    let (one_n, two_n) = (lent.one.len(), lent.two.len());
    let numbers: Vec<f64> = (0..lent.extra.len()).map(|place| lent.number(place)).collect();
    let (mut count, at) = (u64::HELD, &mut lent.place);
    // SAFETY: all lists are as long as is said, and every pointer has its cell.
    let (name, number) = unsafe {
        match call {
            sliding::FIND_CONTACTS => {
                let (which, points) = (lent.one.room(), lent.two.room());
                let number = ffi::byr_find_contacts(
                    a, an, b, bn, numbers[0], which, one_n, points, two_n, &mut count, at,
                );
                ("find_contacts", number)
            }
            sliding::TRANSLATION_VECTORS => {
                let (vectors, sources) = (lent.one.room(), lent.two.room());
                let number = ffi::byr_compute_translation_vectors(
                    a, an, b, bn, numbers[0], vectors, one_n, sources, two_n, &mut count, at,
                );
                ("compute_translation_vectors", number)
            }
            _ => {
                let [x, y, tolerance] = [0, 1, 2].map(|place| numbers[place]);
                let (visited, visited_n) = (lent.list.list(), lent.list.len());
                let (vectors, sources) = (lent.one.room(), lent.two.room());
                let number = ffi::byr_handle_perfect_fit(
                    a, an, b, bn, x, y, visited, visited_n, tolerance, vectors, one_n, sources,
                    two_n, &mut count, at,
                );
                ("handle_perfect_fit", number)
            }
        }
    };
    (name, told(number, [count.told()]))
}

/// `select_translation_vector`.
fn selection(lent: &mut Lent) -> (&'static str, Told) {
    // Anything but 0 says that there is a previous direction.
    let has_previous = if lent.extra[0] == 0 { 0 } else { 1 << (lent.extra[1] % 32) };
    let [px, py, cx, cy, x, y] = [1, 2, 3, 4, 5, 6].map(|place| lent.number(place));
    let (vectors, n) = (lent.list.list(), lent.list.len());
    let (mut found, mut index) = (u32::HELD, u64::HELD);
    // SAFETY: the list is as long as is said, and every pointer has its cell.
    let number = unsafe {
        ffi::byr_select_translation_vector(
            vectors,
            n,
            has_previous,
            px,
            py,
            cx,
            cy,
            x,
            y,
            &mut found,
            &mut index,
            &mut lent.place,
        )
    };
    ("select_translation_vector", told(number, [found.told(), index.told()]))
}

/// `check_translation_collision`.
fn collision(lent: &mut Lent) -> (&'static str, Told) {
    let (a, an, b, bn) = (lent.a.list(), lent.a.len(), lent.b.list(), lent.b.len());
    let [dx, dy, tolerance] = [0, 1, 2].map(|place| lent.number(place));
    let (mut found, mut distance, mut kind) = (u32::HELD, f64::HELD, u32::HELD);
    let (mut stationary, mut orbiting) = (u64::HELD, u64::HELD);
    // SAFETY: both lists are as long as is said, and every pointer has its cell.
    let number = unsafe {
        ffi::byr_check_translation_collision(
            a,
            an,
            b,
            bn,
            dx,
            dy,
            tolerance,
            &mut found,
            &mut distance,
            &mut kind,
            &mut stationary,
            &mut orbiting,
            &mut lent.place,
        )
    };
    let cells = [found.told(), distance.told(), kind.told(), stationary.told(), orbiting.told()];
    ("check_translation_collision", told(number, cells))
}

/// `explain_collision`.
fn explanation(lent: &mut Lent) -> (&'static str, Told) {
    let (a, an, b, bn) = (lent.a.list(), lent.a.len(), lent.b.list(), lent.b.len());
    let [dx, dy, tolerance] = [0, 1, 2].map(|place| lent.number(place));
    let (mut ground, mut distance, mut kind) = (u32::HELD, f64::HELD, u32::HELD);
    let [mut stationary, mut orbiting, mut others] = [u64::HELD; 3];
    let [mut near, mut between, mut far] = [u64::HELD; 3];
    // SAFETY: both lists are as long as is said, and every pointer has its cell.
    let number = unsafe {
        ffi::byr_explain_collision(
            a,
            an,
            b,
            bn,
            dx,
            dy,
            tolerance,
            &mut ground,
            &mut distance,
            &mut kind,
            &mut stationary,
            &mut orbiting,
            &mut others,
            &mut near,
            &mut between,
            &mut far,
            &mut lent.place,
        )
    };
    let hit = [distance.told(), kind.told(), stationary.told(), orbiting.told(), others.told()];
    let [distance, kind, stationary, orbiting, others] = hit;
    let (ground, near, between, far) = (ground.told(), near.told(), between.told(), far.told());
    let cells = [ground, distance, kind, stationary, orbiting, others, near, between, far];
    ("explain_collision", told(number, cells))
}

/// A call that may find a position.
fn position(call: u64, lent: &mut Lent) -> (&'static str, Told) {
    let (a, an, b, bn) = (lent.a.list(), lent.a.len(), lent.b.list(), lent.b.len());
    let [x, y, tolerance] = [0, 1, 2].map(|place| lent.number(place));
    let (mut found, mut to_x, mut to_y) = (u32::HELD, f64::HELD, f64::HELD);
    let at = &mut lent.place;
    // SAFETY: both lists are as long as is said, and every pointer has its cell.
    let (name, number) = unsafe {
        if call == sliding::INTERLOCKING {
            let number = ffi::byr_detect_interlocking_opportunity(
                a, an, b, bn, x, y, tolerance, &mut found, &mut to_x, &mut to_y, at,
            );
            ("detect_interlocking_opportunity", number)
        } else {
            let number = ffi::byr_recover_contact(
                a, an, b, bn, x, y, tolerance, &mut found, &mut to_x, &mut to_y, at,
            );
            ("recover_contact", number)
        }
    };
    (name, told(number, [found.told(), to_x.told(), to_y.told()]))
}

/// A call that takes two polygons and answers whether they overlap.
fn overlap(call: u64, lent: &mut Lent) -> (&'static str, Told) {
    let (a, an, b, bn) = (lent.a.list(), lent.a.len(), lent.b.list(), lent.b.len());
    let mut overlap = u32::HELD;
    // SAFETY: both lists are as long as is said, and every pointer has its cell.
    let (name, number) = unsafe {
        if call == sliding::OVERLAP {
            let at = &mut lent.place;
            ("polygons_overlap", ffi::byr_polygons_overlap(a, an, b, bn, &mut overlap, at))
        } else {
            let (tolerance, at) = (lent.number(0), &mut lent.place);
            let number =
                ffi::byr_polygons_overlap_with_tolerance(a, an, b, bn, tolerance, &mut overlap, at);
            ("polygons_overlap_with_tolerance", number)
        }
    };
    (name, told(number, [overlap.told()]))
}

/// `find_start_position`.
fn start(lent: &mut Lent) -> (&'static str, Told) {
    let (a, an, b, bn) = (lent.a.list(), lent.a.len(), lent.b.list(), lent.b.len());
    let (mut x, mut y) = (f64::HELD, f64::HELD);
    // SAFETY: both lists are as long as is said, and every pointer has its cell.
    let number =
        unsafe { ffi::byr_find_start_position(a, an, b, bn, &mut x, &mut y, &mut lent.place) };
    ("find_start_position", told(number, [x.told(), y.told()]))
}

/// `simplify_polygon`.
fn simplification(lent: &mut Lent) -> (&'static str, Told) {
    let (list, n, room_n) = (lent.list.list(), lent.list.len(), lent.one.len());
    let (tolerance, room) = (lent.number(0), lent.one.room());
    let (mut points, at) = (u64::HELD, &mut lent.place);
    // SAFETY: both lists are as long as is said, and every pointer has its cell.
    let number =
        unsafe { ffi::byr_simplify_polygon(list, n, tolerance, room, room_n, &mut points, at) };
    ("simplify_polygon", told(number, [points.told()]))
}

/// The name of the call and what the library answers; writes the rooms.
fn answer(call: u64, lent: &mut Lent) -> (&'static str, Told) {
    match call {
        sliding::FIND_CONTACTS | sliding::TRANSLATION_VECTORS | sliding::PERFECT_FIT => {
            entries(call, lent)
        }
        sliding::SELECT => selection(lent),
        sliding::COLLISION => collision(lent),
        sliding::EXPLAIN => explanation(lent),
        sliding::INTERLOCKING | sliding::RECOVER => position(call, lent),
        sliding::OVERLAP | sliding::OVERLAP_WITH_TOLERANCE => overlap(call, lent),
        sliding::START => start(lent),
        _ => simplification(lent),
    }
}

/// Whether a call that answers these values tells the one in this place: what
/// follows `found` only where something is, the hit of an explanation only with
/// ground 0, and as many as the call has pointers for.
fn tells(call: u64, values: [u64; VALUES], place: usize) -> bool {
    let found = values[0] != 0;
    match call {
        sliding::EXPLAIN => values[0] == 0 || !(1..=5).contains(&place),
        sliding::SELECT if found => place < 2,
        sliding::INTERLOCKING | sliding::RECOVER if found => place < 3,
        sliding::COLLISION if found => place < 5,
        sliding::START => place < 2,
        _ => place == 0,
    }
}

/// What the record says is told through the call's pointers before that of the
/// place.
fn expected(call: u64, number: u64, values: [u64; VALUES]) -> [Option<u64>; VALUES] {
    let all = on_success(number, values);
    std::array::from_fn(|place| all[place].filter(|_| tells(call, values, place)))
}

/// What is counted of an explanation.
fn explained(call: u64, number: u64, values: [u64; VALUES]) -> Option<Explained> {
    let [ground, _, kind, _, _, others, ..] = values;
    (call == sliding::EXPLAIN && number == 0).then_some(Explained { ground, kind, others })
}

/// What the rooms hold, the floats among them with every NaN alike.
fn rooms(call: u64, lent: &Lent) -> [Option<Vec<u64>>; 2] {
    let plain = |room: &Room<u64>| room.contents().map(<[u64]>::to_vec);
    match call {
        sliding::FIND_CONTACTS => [plain(&lent.one), floats(&lent.two)],
        _ => [floats(&lent.one), plain(&lent.two)],
    }
}

/// The record's call through the library.
pub fn check(record: &[u64]) -> Compared {
    let (call, number) = (record[0], record[7]);
    let values = std::array::from_fn(|place| record[VALUES_AT + place]);
    let mut rest = Words(&record[HEADER..]);
    let lists = [1, 2, 3].map(|place| rest.take(record[place]));
    let extra = rest.take(record[4]).to_vec();
    let before = [5, 6].map(|place| rest.take(record[place]));
    let after = [5, 6].map(|place| Some(rest.take(record[place]).to_vec()));
    let ([a, b, list], [one, two]) = (lists.map(words), before.map(words));
    let mut lent = Lent { a, b, list, extra, one, two, place: u64::HELD };
    let (name, (returned, cells)) = answer(call, &mut lent);
    let read = [lent.a.contents(), lent.b.contents(), lent.list.contents()];
    let told = (expected(call, number, values), told_place(number, record[PLACE_AT]));
    let oracle = (number, told, after, lists.map(Some));
    let library = (u64::from(returned), (cells, lent.place.told()), rooms(call, &lent), read);
    let compared = Compared::of(name, number, oracle, library);
    Compared { explained: explained(call, number, values), ..compared }
}
