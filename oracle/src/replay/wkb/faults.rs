//! Cases for reading small files that were damaged: a byte changed, cut off, made
//! longer, one thing wrong and two.

use super::{Case, ORDERS};
use crate::book::patched;
use crate::shapes::closed;
use crate::wkb::{file_of, Order, HEAD, POINT, POINTS, RINGS, TYPE};
use std::sync::LazyLock;

/// A triangle, and a ring of four vertices with odd numbers.
const TRIANGLE: [f64; 6] = [4.0, 0.0, 0.0, 3.0, 0.0, 0.0];
const FOUR: [f64; 8] = [-0.0, 2.25, 1e6, -1e6, 0.1, 3.0, -7.5, 5e-324];

/// The small files: both rings in both byte orders.
fn small() -> Vec<Vec<u8>> {
    let rings: [&[f64]; 2] = [&TRIANGLE, &FOUR];
    let of = |order: Order| rings.map(|ring| file_of(order, &closed(ring)));
    ORDERS.map(of).concat()
}

/// How many coordinates a whole file hands out.
fn handed(file: &[u8]) -> usize {
    (file.len() - HEAD) / 8 - 2
}

/// How a byte is changed: each bit, and all of them.
const MASKS: [u8; 9] = [1, 0x80, 0xff, 0x40, 0x10, 2, 0x20, 8, 4];

/// The places of all bytes of the small files: the file's, and the byte's in it.
fn places() -> Vec<(usize, usize)> {
    let files = small().into_iter().enumerate();
    files.flat_map(|(i, file)| (0..file.len()).map(move |place| (i, place))).collect()
}

/// The small file with the byte in this place changed.
fn changed((file, byte): (usize, usize), mask: u8) -> Case {
    static SMALL: LazyLock<Vec<Vec<u8>>> = LazyLock::new(small);
    let file = &SMALL[file];
    Case::reading(&patched(file, byte, &[file[byte] ^ mask]), handed(file))
}

/// Each byte of the small files changed by each mask, the masks one after the
/// other: the case with this place among them, nothing past the last.
pub fn flipped(place: u64) -> Option<Case> {
    static PLACES: LazyLock<Vec<(usize, usize)>> = LazyLock::new(places);
    let (turn, place) = (place as usize / PLACES.len(), place as usize % PLACES.len());
    MASKS.get(turn).map(|&mask| changed(PLACES[place], mask))
}

/// Every third byte of the small files changed, the masks by turns.
fn flips() -> Vec<Case> {
    let masked = places().into_iter().step_by(3).zip(MASKS.into_iter().cycle());
    masked.map(|(place, mask)| changed(place, mask)).collect()
}

/// The small files cut off after every byte, and made longer at either end.
fn cuts() -> Vec<Case> {
    let mut all = Vec::new();
    for file in small() {
        all.extend((0..=file.len()).map(|cut| Case::reading(&file[..cut], 1)));
        all.extend([1, 9, 16].map(|cut| Case::reading(&file[cut..], 1)));
        for more in [1, 2, 3, 4, 7, 8, 9, 15, 16, 17, 32, 64] {
            all.push(Case::reading(&[&file[..], &vec![0; more]].concat(), 1));
        }
        all.push(Case::reading(&[&[0], &file[..]].concat(), 1));
        all.push(Case::reading(&[&file[..], &file[..]].concat(), 1));
        // The closing point once more, which the number of points does not count.
        all.push(Case::reading(&[&file[..], &file[file.len() - POINT..]].concat(), 1));
    }
    all
}

/// Something wrong with a file.
enum Fault {
    /// These bytes in this place.
    Put(usize, Vec<u8>),
    /// So many bytes less at the end.
    Less(usize),
    /// So many bytes more at the end.
    More(usize),
}

impl Fault {
    /// The file with this wrong.
    fn done(&self, file: &[u8]) -> Vec<u8> {
        match self {
            Self::Put(place, bytes) => patched(file, *place, bytes),
            Self::Less(bytes) => file[..file.len() - bytes].to_vec(),
            Self::More(bytes) => [file, &vec![0; *bytes]].concat(),
        }
    }
}

/// What can be wrong with the file of the triangle, or a zero's sign be another, by
/// where it is, the length last. The first three of each place are also put beside
/// those of the others.
fn faults(order: Order) -> Vec<Vec<Fault>> {
    let fields: [(usize, &[u32]); 3] = [
        (TYPE, &[1, 6, 0x0300_0000, 0, 2, 4, 1003, 0x8000_0003, 0x2000_0003]),
        (RINGS, &[0, 2, 0x0100_0000, u32::MAX]),
        (POINTS, &[3, 258, 5, 0, 257, 1 << 31, u32::MAX, 0x0400_0000, 0x1000_0004]),
    ];
    let past = 1e6_f64.next_up();
    let numbers: [(usize, &[f64]); 5] = [
        (HEAD, &[f64::NAN, f64::INFINITY, 5.0]),
        (HEAD + 8, &[past, -0.0]),
        (HEAD + 2 * POINT, &[-past, f64::NEG_INFINITY]),
        (HEAD + 3 * POINT, &[f64::NAN, 4.0_f64.next_up(), -4.0]),
        (HEAD + 3 * POINT + 8, &[-past, 5e-324, -0.0]),
    ];
    let mut all = vec![[2, 255, 1 - order.byte()].map(|byte| Fault::Put(0, vec![byte])).into()];
    for (place, values) in fields {
        let put = |&value: &u32| Fault::Put(place, order.field(value).to_vec());
        all.push(values.iter().map(put).collect());
    }
    for (place, values) in numbers {
        let put = |&value: &f64| Fault::Put(place, order.number(value).to_vec());
        all.push(values.iter().map(put).collect());
    }
    all.push(vec![Fault::Less(1), Fault::More(1), Fault::More(16), Fault::Less(16)]);
    all
}

/// The file of the triangle with each of these alone, and the first three of each
/// place beside those of every other place.
fn wrong(order: Order) -> Vec<Case> {
    let file = file_of(order, &closed(&TRIANGLE));
    let places = faults(order);
    let mut all = Vec::new();
    for (i, here) in places.iter().enumerate() {
        all.extend(here.iter().map(|fault| Case::reading(&fault.done(&file), TRIANGLE.len())));
        for there in &places[i + 1..] {
            for one in here.iter().take(3) {
                let once = one.done(&file);
                all.extend(there.iter().take(3).map(|two| Case::reading(&two.done(&once), 1)));
            }
        }
    }
    all
}

/// Files without points: whole heads and shorter ones, their fields fine and wrong.
fn heads(order: Order) -> Vec<Case> {
    let mut all = Vec::new();
    for byte in [order.byte(), 2] {
        for kind in [3, 0] {
            for rings in [1, 0] {
                let fields = [kind, rings, 4].map(|field| order.field(field)).concat();
                let head = [&[byte], &fields[..]].concat();
                all.extend([9, 12, 13].map(|n| Case::reading(&head[..n], 1)));
            }
        }
    }
    all
}

/// All of them.
pub fn cases() -> Vec<Case> {
    let mut all = flips();
    all.extend(cuts());
    for order in ORDERS {
        all.extend(wrong(order));
        all.extend(heads(order));
    }
    all
}
