//! Zeros in the outline book: every ring of the grid written and read, a stored
//! -0.0 among other faults, and a carrier with its mirror.

use oracle::book::{book_of, file_of};
use oracle::replay::{book, list, packed};
use oracle::seeded::Seeded;
use oracle::shapes::{carrier, mirrored};
use std::collections::BTreeSet;

/// The bits of -0.0.
const MINUS: u64 = 1 << 63;
/// How many rings of 3, 4 and 5 vertices there are over nine points.
const RINGS: usize = 9 * 9 * 9 * (1 + 9 + 9 * 9);

/// The words that follow the coordinates in the file of one ring: an entry of 12 bytes
/// and 8 bytes at the end, filled up.
const TRAILER: usize = 3;

/// A ring's coordinates, by their bits.
type Bits = Vec<u64>;

/// A record: what is lent, the number and place of the refusal, and for a call to
/// write the counts and the words of the room at exit.
struct Met {
    call: u64,
    lent: Bits,
    told: (u64, u64),
    counts: Vec<u64>,
    written: Vec<u64>,
}

impl Met {
    /// What is in a record of the list.
    fn of(record: &[u64]) -> Self {
        let (call, n, rings) = (record[0], record[1] as usize, record[2] as usize);
        let rest = &record[book::HEADER..];
        let words = if call == book::WRITE { n } else { n.div_ceil(8) };
        let room = if call == book::WRITE { record[3].div_ceil(8) as usize } else { 0 };
        let parts = if call == book::WRITE { record[8] as usize } else { 0 };
        Self {
            call,
            lent: rest[..words].to_vec(),
            told: (record[5], record[7]),
            counts: rest[words..words + rings].to_vec(),
            written: rest[words + rings + parts + room..][..room].to_vec(),
        }
    }

    /// The rings lent for writing, each with the words that are kept of it.
    fn rings(&self) -> Vec<(Bits, Vec<u64>)> {
        let mut place = 0;
        let ring = |&n: &u64| {
            let of = place..place + 2 * n as usize;
            place = of.end;
            (self.lent[of.clone()].to_vec(), self.written[of].to_vec())
        };
        self.counts.iter().map(ring).collect()
    }
}

/// The records of a long run at every fourth place from this one on, so many.
fn swept(first: u64, count: u64) -> Vec<Met> {
    let (list, seeded) = (list("book").expect("it is a list"), &mut Seeded::new(3));
    (0..count).map(|round| Met::of(&(list.long)(seeded, first + 4 * round))).collect()
}

/// The rings that the sweep writes, each with the words that are kept of it.
fn written() -> Vec<(Bits, Vec<u64>)> {
    let records = swept(0, RINGS.div_ceil(8) as u64);
    assert!(records.iter().all(|met| met.call == book::WRITE && met.told == (0, 0)));
    records.iter().flat_map(Met::rings).collect()
}

/// That these are all rings of the grid, none twice.
fn whole(rings: Vec<Bits>) {
    let grid = [-0.0, 0.0, 1.0].map(f64::to_bits);
    assert!(rings.iter().all(|ring| [6, 8, 10].contains(&ring.len())));
    assert!(rings.iter().flatten().all(|bits| grid.contains(bits)));
    assert_eq!(rings.len(), RINGS);
    assert_eq!(rings.into_iter().collect::<BTreeSet<_>>().len(), RINGS);
}

/// The ring's vertices as whole numbers from 0 to 3, in the least of the orders in
/// which they can be read: one for each ring, its coordinates taken as numbers.
fn class(ring: &[u64]) -> Vec<u8> {
    let one = |bits: u64| u8::from(f64::from_bits(bits) == 1.0);
    let mut codes: Vec<u8> = ring.chunks(2).map(|p| 2 * one(p[0]) + one(p[1])).collect();
    let mut least = codes.clone();
    for _ in 0..2 {
        for _ in 0..codes.len() {
            codes.rotate_left(1);
            least = least.min(codes.clone());
        }
        codes.reverse();
    }
    least
}

/// The words of the ring that a class stands for, different ones for each class.
fn words(class: &[u8]) -> Vec<u64> {
    class.iter().flat_map(|code| [code / 2, code % 2]).map(|x| f64::from(x).to_bits()).collect()
}

#[test]
fn every_ring_of_the_grid_is_written_and_read() {
    whole(written().into_iter().map(|(ring, _)| ring).collect());
    let records = swept(1, RINGS as u64);
    assert!(records.iter().all(|met| met.call == book::READ));
    let ring = |met: Met| met.lent[..met.lent.len() - TRAILER].to_vec();
    whole(records.into_iter().map(ring).collect());
}

#[test]
fn rings_are_kept_alike_exactly_if_they_are_one_as_numbers() {
    for (ring, written) in written() {
        assert_eq!(written, words(&class(&ring)), "{ring:x?}");
    }
}

#[test]
fn of_the_grid_the_books_alone_are_read() {
    for met in swept(1, RINGS as u64) {
        let ring = &met.lent[..met.lent.len() - TRAILER];
        let told = match ring.iter().position(|&bits| bits == MINUS) {
            Some(i) => (7, 8 * i as u64),
            None if ring == words(&class(ring)) => (0, 0),
            None => (7, 0),
        };
        assert_eq!(met.told, told, "{ring:x?}");
    }
}

/// The stored records that read a file of so many bytes with -0.0 in this place: what
/// each tells.
fn told(bytes: u64, place: u64) -> BTreeSet<(u64, u64)> {
    let at = book::HEADER + place as usize / 8;
    let is = |record: &&Vec<u64>| record[..2] == [book::READ, bytes] && record[at] == MINUS;
    book::records().iter().filter(is).map(|record| (record[5], record[7])).collect()
}

#[test]
fn a_stored_minus_zero_is_told_among_other_faults() {
    for place in (0..48).step_by(8) {
        assert!(told(68, place).contains(&(7, place)), "{place}");
    }
    // In two rings: the fields come before it, and of coordinates the first is told.
    let places = [0, 40, 48, 104];
    let fields = [112, 116, 124, 128, 136, 140];
    for place in places {
        let told = told(144, place);
        let before = places.into_iter().filter(|&other| other <= place);
        let expected = before.chain(fields).map(|other| (7, other));
        assert_eq!(told, expected.collect(), "{place}");
    }
}

#[test]
fn a_carrier_and_its_mirror_have_one_book() {
    let (drawn, mirror) = (carrier(), mirrored(&carrier()));
    let minus = |ring: &[f64]| ring.iter().filter(|x| x.to_bits() == MINUS).count();
    assert_eq!((minus(&drawn), minus(&mirror)), (0, 2));
    let book = book_of(std::slice::from_ref(&drawn));
    assert_eq!(book_of(std::slice::from_ref(&mirror)), book);
    assert_ne!(file_of(&[drawn]), file_of(&[mirror]));
    // Both are among the stored records, in every reading.
    let words = packed(&book);
    let all = book::records();
    let stored = all.iter().map(|record| Met::of(record));
    let of_it = stored.filter(|met| met.call == book::WRITE && met.written == words);
    let lent: BTreeSet<Bits> = of_it.map(|met| met.lent).collect();
    assert_eq!(lent.len(), 2 * 16);
}
