//! Single calls, each side of which is first seen to answer the same.

use crate::timing::{side, Sides};
use crate::{plain_book, plain_whole, plain_wkb};
use compare::ffi;
use oracle::answers::Point;
use oracle::calls::{self, points_of};
use oracle::fixed::{nfp_sliding as text, polygon_ops};
use oracle::seeded::Seeded;
use oracle::shapes::{closed, disc, placed, star};
use oracle::wkb::{file_of, Order};
use std::hint::black_box;

/// The usual tolerance.
pub const TOLERANCE: f64 = 1e-6;

/// A row: its name, and how its sides are made, with a word on what they answer.
pub struct Row {
    pub name: String,
    pub sides: Box<dyn FnOnce() -> (Sides, String)>,
}

impl Row {
    /// The row with this name and these sides, and nothing to be said of them.
    pub fn new(name: &str, sides: impl FnOnce() -> Sides + 'static) -> Self {
        Self { name: name.to_string(), sides: Box::new(|| (sides(), String::new())) }
    }
}

/// A list as the library takes it and as the Rust does.
pub struct Lent {
    pub list: Vec<f64>,
    pub points: Vec<Point>,
}

impl Lent {
    /// The ring in both forms.
    pub fn new(list: Vec<f64>) -> Self {
        let points = points_of(&list);
        Self { list, points }
    }
}

/// Two discs of n vertices where they first touch.
fn touching(n: usize) -> [Lent; 2] {
    let (a, b) = (disc(n, 10.0), disc(n, 4.0));
    let start = calls::find_start_position(&a, &b).expect("both are polygons");
    [Lent::new(a), Lent::new(placed(&b, 1.0, start.0, start.1))]
}

/// `find_contacts` of two discs of n vertices.
fn contacts(n: usize) -> Sides {
    let [a, b] = touching(n);
    let (mut which, mut points) = (vec![0_u64; 4 * 64], vec![0.0; 2 * 64]);
    let (an, bn) = (a.points.clone(), b.points.clone());
    let mut ours = move || {
        let (mut count, mut place) = (0, 0);
        // SAFETY: all lists are as long as is said, and every pointer has its cell.
        let number = unsafe {
            ffi::byr_find_contacts(
                a.list.as_ptr(),
                a.list.len(),
                b.list.as_ptr(),
                b.list.len(),
                black_box(TOLERANCE),
                which.as_mut_ptr(),
                which.len(),
                points.as_mut_ptr(),
                points.len(),
                &mut count,
                &mut place,
            )
        };
        (number, count)
    };
    let rust = move || text::find_contacts(&an, &bn, black_box(TOLERANCE));
    assert_eq!(ours(), (0, rust().len() as u64));
    [side(rust), side(ours)]
}

/// The move of the discs that `check_translation_collision` is lent.
const BY: Point = (3.0, 9.0);

/// Checks the move of these two, as the library does: the number, whether there is a
/// hit, and its distance.
fn checked(a: &Lent, b: &Lent) -> (u32, u32, f64) {
    let (mut found, mut distance, mut kind) = (0, 0.0, 0);
    let (mut stationary, mut orbiting, mut place) = (0, 0, 0);
    // SAFETY: both lists are as long as is said, and every pointer has its cell.
    let number = unsafe {
        ffi::byr_check_translation_collision(
            a.list.as_ptr(),
            a.list.len(),
            b.list.as_ptr(),
            b.list.len(),
            BY.0,
            BY.1,
            black_box(TOLERANCE),
            &mut found,
            &mut distance,
            &mut kind,
            &mut stationary,
            &mut orbiting,
            &mut place,
        )
    };
    (number, found, distance)
}

/// Explains the move of these two: the number, the ground, and a hit's distance.
fn explained(a: &Lent, b: &Lent) -> (u32, u32, f64) {
    let (mut ground, mut distance, mut kind) = (0, 0.0, 0);
    let (mut stationary, mut orbiting, mut others) = (0, 0, 0);
    let (mut too_near, mut between, mut too_far, mut place) = (0, 0, 0, 0);
    // SAFETY: both lists are as long as is said, and every pointer has its cell.
    let number = unsafe {
        ffi::byr_explain_collision(
            a.list.as_ptr(),
            a.list.len(),
            b.list.as_ptr(),
            b.list.len(),
            BY.0,
            BY.1,
            black_box(TOLERANCE),
            &mut ground,
            &mut distance,
            &mut kind,
            &mut stationary,
            &mut orbiting,
            &mut others,
            &mut too_near,
            &mut between,
            &mut too_far,
            &mut place,
        )
    };
    (number, ground, distance)
}

/// `check_translation_collision` of two discs of n vertices.
fn collision(n: usize) -> Sides {
    let [a, b] = touching(n);
    let (an, bn) = (a.points.clone(), b.points.clone());
    let rust = move || text::check_translation_collision(&an, &bn, BY, black_box(TOLERANCE));
    assert_eq!(checked(&a, &b), (0, 1, rust().expect("the discs collide").distance));
    [side(rust), side(move || checked(&a, &b))]
}

/// `explain_collision` of the same discs and move, with the check as its other side.
fn explanation(n: usize) -> Sides {
    let ([a, b], [c, d]) = (touching(n), touching(n));
    let (_, found, distance) = checked(&a, &b);
    assert_eq!((found, explained(&c, &d)), (1, (0, 0, distance)));
    [side(move || explained(&c, &d)), side(move || checked(&a, &b))]
}

/// Whether the ring is simple, as the library tells it in floats: the number and the
/// answer.
fn simple_in_floats(ring: &[f64]) -> (u32, u32) {
    let (mut simple, mut place) = (0, 0);
    let (list, n) = (black_box(ring.as_ptr()), ring.len());
    // SAFETY: the list is as long as is said, and every pointer has its cell.
    let number = unsafe { ffi::byr_is_simple_polygon(list, n, &mut simple, &mut place) };
    (number, simple)
}

/// The same in whole numbers.
fn simple_in_integers(ring: &[i32]) -> (u32, u32) {
    let (mut simple, mut place) = (0, 0);
    let (list, n) = (black_box(ring.as_ptr()), ring.len());
    // SAFETY: the list is as long as is said, and every pointer has its cell.
    let number = unsafe { ffi::byr_whole_is_simple_polygon(list, n, &mut simple, &mut place) };
    (number, simple)
}

/// A ring with its coordinates rounded to whole numbers.
pub fn rounded(ring: Vec<f64>) -> Vec<i32> {
    ring.into_iter().map(|x| x.round() as i32).collect()
}

/// `is_simple_polygon` of this ring in floats and in whole numbers.
fn whole_beside_floats(ring: Vec<f64>) -> Sides {
    let ring = rounded(ring);
    let floats: Vec<f64> = ring.iter().map(|&x| f64::from(x)).collect();
    assert_eq!((simple_in_floats(&floats), simple_in_integers(&ring)), ((0, 1), (0, 1)));
    [side(move || simple_in_floats(&floats)), side(move || simple_in_integers(&ring))]
}

/// `is_simple_polygon` of this ring in plain Rust and in the library, in whole numbers.
fn whole_beside_plain(ring: Vec<f64>) -> Sides {
    let ring = rounded(ring);
    let points: Vec<_> = ring.chunks_exact(2).map(|p| (p[0], p[1])).collect();
    assert!(simple_in_integers(&ring) == (0, 1) && plain_whole::is_simple_polygon(&points));
    let plain = move || plain_whole::is_simple_polygon(black_box(&points));
    [side(plain), side(move || simple_in_integers(&ring))]
}

/// `is_simple_polygon` of a disc of n vertices.
fn simple(n: usize) -> Sides {
    let ring = Lent::new(disc(n, 10.0));
    let points = ring.points.clone();
    let ours = move || simple_in_floats(&ring.list);
    let rust = move || polygon_ops::is_simple_polygon(black_box(&points));
    assert!(ours() == (0, 1) && rust());
    [side(rust), side(ours)]
}

/// `ring_distance` of two discs of n vertices.
fn distance(n: usize) -> Sides {
    let [a, b] = [Lent::new(disc(n, 10.0)), Lent::new(placed(&disc(n, 4.0), 1.0, 20.0, 3.0))];
    let (an, bn) = (a.points.clone(), b.points.clone());
    let ours = move || {
        let (mut distance, mut place) = (0.0, 0);
        let (list, n) = (black_box(a.list.as_ptr()), a.list.len());
        let (other, m) = (b.list.as_ptr(), b.list.len());
        // SAFETY: both lists are as long as is said, and every pointer has its cell.
        let number =
            unsafe { ffi::byr_ring_distance(list, n, other, m, &mut distance, &mut place) };
        (number, distance)
    };
    let rust = move || polygon_ops::ring_distance(black_box(&an), &bn);
    assert_eq!(ours(), (0, rust()));
    [side(rust), side(ours)]
}

/// A thousand roots of seeded positive numbers, summed.
fn roots() -> Sides {
    let seeded = &mut Seeded::new(1);
    let numbers: Vec<f64> = (0..1000).map(|_| seeded.unit() * 1e6).collect();
    let same = numbers.clone();
    let rust = move || numbers.iter().map(|&x| black_box(x).sqrt()).sum::<f64>();
    // SAFETY: the function takes every float.
    let ours = move || same.iter().map(|&x| unsafe { ffi::byr_sqrt(black_box(x)) }).sum::<f64>();
    assert_eq!(ours(), rust());
    [side(rust), side(ours)]
}

/// The coordinates of eight rings of 256 vertices: seeded, or all vertices equal,
/// which costs the least reading most.
fn eight_rings(equal: bool) -> Vec<f64> {
    let seeded = &mut Seeded::new(2);
    (0..8 * 512).map(|_| if equal { 1.0 } else { seeded.spread(1e6) }).collect()
}

/// `write_book` of eight rings.
fn writing(equal: bool) -> Sides {
    let (list, counts, parts) = (eight_rings(equal), [256_u32; 8], [7_u32; 8]);
    let (mut room, mut plain) = (vec![0; 32_872], vec![0; 32_872]);
    let same = list.clone();
    let write = move |room: &mut [u8]| {
        let (mut length, mut place) = (0, 0);
        // SAFETY: all lists are as long as is said, and every pointer has its cell.
        let number = unsafe {
            ffi::byr_write_book(
                list.as_ptr(),
                list.len(),
                counts.as_ptr(),
                counts.len(),
                parts.as_ptr(),
                parts.len(),
                room.as_mut_ptr(),
                room.len(),
                &mut length,
                &mut place,
            )
        };
        (number, length)
    };
    assert_eq!(write(&mut room), (0, 32_872));
    assert_eq!(plain_book::write(&same, &counts, &parts, &mut plain), 32_872);
    assert!(room == plain);
    [
        side(move || plain_book::write(&same, &counts, &parts, &mut plain)),
        side(move || write(&mut room)),
    ]
}

/// `read_book` of eight rings.
fn reading(equal: bool) -> Sides {
    let mut book = vec![0; 32_872];
    plain_book::write(&eight_rings(equal), &[256; 8], &[7; 8], &mut book);
    let same = book.clone();
    let read = move |coordinates: &mut [f64], counts: &mut [u32], parts: &mut [u32]| {
        let (mut rings, mut place) = (0, 0);
        // SAFETY: all lists are as long as is said, and every pointer has its cell.
        let number = unsafe {
            ffi::byr_read_book(
                book.as_ptr(),
                book.len(),
                coordinates.as_mut_ptr(),
                coordinates.len(),
                counts.as_mut_ptr(),
                counts.len(),
                parts.as_mut_ptr(),
                parts.len(),
                &mut rings,
                &mut place,
            )
        };
        (number, rings)
    };
    let rooms = (vec![0.0; 4096], [0; 8], [0; 8]);
    let (mut one, mut other) = (rooms.clone(), rooms);
    assert_eq!(read(&mut one.0, &mut one.1, &mut one.2), (0, 8));
    let plain = plain_book::read(&same, &mut other.0, &mut other.1, &mut other.2);
    assert_eq!(plain, Some(8));
    assert!(one == other);
    [
        side(move || plain_book::read(&same, &mut other.0, &mut other.1, &mut other.2)),
        side(move || read(&mut one.0, &mut one.1, &mut one.2)),
    ]
}

/// A seeded ring of 256 vertices.
fn ring_of_256() -> Vec<f64> {
    let seeded = &mut Seeded::new(3);
    (0..512).map(|_| seeded.spread(1e6)).collect()
}

/// `write_wkb` of a ring of 256 vertices.
fn writing_wkb() -> Sides {
    let ring = ring_of_256();
    let (mut room, mut plain) = (vec![0; 4_125], vec![0; 4_125]);
    let same = ring.clone();
    let write = move |room: &mut [u8]| {
        let (mut length, mut place) = (0, 0);
        let (list, n) = (black_box(ring.as_ptr()), ring.len());
        let (to, room_n) = (room.as_mut_ptr(), room.len());
        // SAFETY: both lists are as long as is said, and every pointer has its cell.
        let number = unsafe { ffi::byr_write_wkb(list, n, to, room_n, &mut length, &mut place) };
        (number, length)
    };
    assert_eq!(write(&mut room), (0, 4_125));
    assert_eq!(plain_wkb::write(&same, &mut plain), 4_125);
    assert!(room == plain);
    [side(move || plain_wkb::write(black_box(&same), &mut plain)), side(move || write(&mut room))]
}

/// `read_wkb` of a ring of 256 vertices, in this byte order.
fn reading_wkb(order: Order) -> Sides {
    let ring = ring_of_256();
    let file = file_of(order, &closed(&ring));
    let same = file.clone();
    let read = move |room: &mut [f64]| {
        let (mut vertices, mut place) = (0, 0);
        let (list, n) = (black_box(file.as_ptr()), file.len());
        let (to, room_n) = (room.as_mut_ptr(), room.len());
        // SAFETY: both lists are as long as is said, and every pointer has its cell.
        let number = unsafe { ffi::byr_read_wkb(list, n, to, room_n, &mut vertices, &mut place) };
        (number, vertices)
    };
    let (mut one, mut other) = (vec![0.0; 512], vec![0.0; 512]);
    assert_eq!(read(&mut one), (0, 256));
    assert_eq!(plain_wkb::read(&same, &mut other), Some(256));
    assert!(one == ring && other == ring);
    [side(move || plain_wkb::read(black_box(&same), &mut other)), side(move || read(&mut one))]
}

/// All single calls.
pub fn calls() -> Vec<Row> {
    vec![
        Row::new("find_contacts, discs 64 x 64", || contacts(64)),
        Row::new("find_contacts, discs 256 x 256", || contacts(256)),
        Row::new("check_translation_collision, discs 8 x 8", || collision(8)),
        Row::new("check_translation_collision, discs 64 x 64", || collision(64)),
        Row::new("check_translation_collision, discs 256 x 256", || collision(256)),
        Row::new("is_simple_polygon, disc 256", || simple(256)),
        Row::new("ring_distance, discs 256 x 256", || distance(256)),
        Row::new("sqrt, a thousand", roots),
        Row::new("write_book, 8 seeded rings of 256", || writing(false)),
        Row::new("write_book, 8 rings of 256 equal vertices", || writing(true)),
        Row::new("read_book, 8 seeded rings of 256", || reading(false)),
        Row::new("read_book, 8 rings of 256 equal vertices", || reading(true)),
        Row::new("write_wkb, 256 vertices", writing_wkb),
        Row::new("read_wkb, 256 vertices, little-endian", || reading_wkb(Order::Little)),
        Row::new("read_wkb, 256 vertices, big-endian", || reading_wkb(Order::Big)),
    ]
}

/// The call that explains a collision, beside the call that only checks.
pub fn explanations() -> Vec<Row> {
    vec![
        Row::new("explain_collision, discs 64 x 64", || explanation(64)),
        Row::new("explain_collision, discs 256 x 256", || explanation(256)),
    ]
}

/// The rings of 256 vertices that are judged in whole numbers.
fn whole_rings() -> [(&'static str, Vec<f64>); 2] {
    [("disc", disc(256, 1e6)), ("star", star(128, 1e6, 3e5))]
}

/// The call in whole numbers, beside the call in floats.
pub fn whole_and_floats() -> Vec<Row> {
    let row = |(name, ring): (&str, Vec<f64>)| {
        let name = format!("whole_is_simple_polygon, {name} 256");
        Row::new(&name, || whole_beside_floats(ring))
    };
    whole_rings().into_iter().map(row).collect()
}

/// The call in whole numbers, beside plain Rust.
pub fn whole_and_plain() -> Vec<Row> {
    let row = |(name, ring): (&str, Vec<f64>)| {
        let name = format!("whole_is_simple_polygon, {name} 256");
        Row::new(&name, || whole_beside_plain(ring))
    };
    whole_rings().into_iter().map(row).collect()
}
