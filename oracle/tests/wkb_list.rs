//! The replay list of well-known binary holds every refusal in both byte orders,
//! small files damaged in every place, and rings of every size.

use oracle::replay::bytes;
use oracle::replay::wkb::{records, HEADER, LIST, READ, WRITE};
use oracle::seeded::Seeded;
use oracle::wkb::{file_of, Order};
use std::collections::BTreeSet;

/// Both byte orders.
const ORDERS: [Order; 2] = [Order::Big, Order::Little];

/// The rings of the small files, closed.
const TRIANGLE: [f64; 8] = [4.0, 0.0, 0.0, 3.0, 0.0, 0.0, 4.0, 0.0];
const FOUR: [f64; 10] = [-0.0, 2.25, 1e6, -1e6, 0.1, 3.0, -7.5, 5e-324, -0.0, 2.25];

/// The number and the place of a record's refusal, zeros where there is none.
fn told(record: &[u64]) -> (u64, u64) {
    (record[3], record[5])
}

/// The records of this call.
fn of(call: u64, records: Vec<Vec<u64>>) -> Vec<Vec<u64>> {
    records.into_iter().filter(|record| record[0] == call).collect()
}

/// The file that a record of reading has.
fn file(record: &[u64]) -> Vec<u8> {
    let mut file = bytes(&record[HEADER..]);
    file.truncate(record[1] as usize);
    file
}

/// The number in this place of a file.
fn number(file: &[u8], place: usize) -> f64 {
    let bytes = file[place..place + 8].try_into().expect("eight bytes");
    if file[0] == 0 {
        f64::from_be_bytes(bytes)
    } else {
        f64::from_le_bytes(bytes)
    }
}

/// A long run with all the sizes and changed bytes that it goes through.
fn long() -> Vec<Vec<u64>> {
    let seeded = &mut Seeded::new(5);
    (0..5_000).map(|place| (LIST.long)(seeded, place)).collect()
}

/// The checks of the reader, in their order.
#[derive(Debug, Clone, Copy, PartialEq, Eq, PartialOrd, Ord)]
enum Check {
    Short,
    Order,
    Type,
    Rings,
    Points,
    Length,
    Coordinate,
    Closing,
}
use Check::{Closing, Coordinate, Length, Points, Rings, Short, Type};

/// Which check a refused file failed, told from the place and the file.
fn failed(file: &[u8], place: usize) -> Check {
    match place {
        0 if file.len() < 13 => Short,
        0 if file[0] > 1 => Check::Order,
        0 => Length,
        1 => Type,
        5 => Rings,
        9 => Points,
        _ if number(file, place).abs() <= 1e6 => {
            assert_eq!(place, file.len() - 16);
            Closing
        }
        _ => Coordinate,
    }
}

#[test]
fn every_check_fails_in_both_byte_orders() {
    let read = of(READ, records());
    let numbers: BTreeSet<_> = read.iter().map(|record| record[3]).collect();
    assert!(numbers.into_iter().eq([0, 4, 10]));
    let check = |record: &Vec<u64>| {
        let file = file(record);
        (file.first().copied(), failed(&file, record[5] as usize))
    };
    let met: BTreeSet<_> = read.iter().filter(|record| record[3] == 10).map(check).collect();
    for order in [0, 1] {
        for check in [Short, Type, Rings, Points, Length, Coordinate, Closing] {
            assert!(met.contains(&(Some(order), check)), "{order} {check:?}");
        }
    }
    assert!(met.contains(&(None, Short)));
    assert!([2, 255].iter().all(|&byte| met.contains(&(Some(byte), Check::Order))));
}

#[test]
fn writing_is_refused_in_every_way() {
    let written = of(WRITE, records());
    let numbers: BTreeSet<_> = written.iter().map(|record| record[3]).collect();
    assert!(numbers.into_iter().eq([0, 1, 2, 4, 8, 9]));
    assert!(written.iter().all(|record| record[5] == 0));
    for n in (0..=8).chain(511..=515) {
        let met: BTreeSet<_> =
            written.iter().filter(|record| record[1] == n).map(|record| record[3]).collect();
        let asked: &[u64] = match n {
            0 | 2 | 4 => &[8],
            514 => &[9],
            6 | 8 | 512 => &[0, 2, 4],
            _ => &[1],
        };
        assert!(met.iter().eq(asked), "{n}: {met:?}");
    }
}

#[test]
fn every_field_has_its_wrong_values() {
    let fields: [(usize, &[u32]); 3] = [
        (1, &[0, 1, 2, 4, 6, 1003, 0x8000_0003, 0x2000_0003, 0x0300_0000]),
        (5, &[0, 2, 0x0100_0000, u32::MAX]),
        (9, &[0, 1, 2, 3, 258, 260, 0x0400_0000, 0x1000_0004, 1 << 31, u32::MAX]),
    ];
    let read = of(READ, records());
    for order in ORDERS {
        for (place, values) in fields {
            for &value in values {
                let has = |record: &&Vec<u64>| {
                    let file = file(record);
                    file.get(place..place + 4) == Some(&order.field(value)[..])
                        && file[0] == order.byte()
                        && told(record) == (10, place as u64)
                };
                assert!(read.iter().any(|record| has(&record)), "{order:?} {place} {value}");
            }
        }
    }
}

/// The fields in which a file differs from this one, by their places; its length by
/// the length of this one.
fn differing(file: &[u8], fine: &[u8]) -> Vec<usize> {
    let ends = [1, 5, 9].into_iter().chain((13..=fine.len()).step_by(8));
    let mut start = 0;
    let mut all = Vec::new();
    for end in ends {
        let both = start.min(file.len())..end.min(file.len());
        if file[both.clone()] != fine[both] {
            all.push(start);
        }
        start = end;
    }
    if file.len() != fine.len() {
        all.push(fine.len());
    }
    all
}

#[test]
fn every_field_is_wrong_alone_and_every_two_together() {
    let read = of(READ, records());
    let places = [0, 1, 5, 9, 13, 21, 45, 61, 69, 77];
    for order in ORDERS {
        let fine = file_of(order, &TRIANGLE);
        let files = read.iter().map(|record| file(record)).filter(|file| !file.is_empty());
        let met: BTreeSet<_> = files.map(|file| differing(&file, &fine)).collect();
        for (i, &place) in places.iter().enumerate() {
            assert!(met.contains(&vec![place]), "{order:?} {place}");
            for &other in &places[i + 1..] {
                assert!(met.contains(&vec![place, other]), "{order:?} {place} {other}");
            }
        }
    }
}

#[test]
fn small_files_are_cut_off_after_every_byte_and_made_longer() {
    let files: BTreeSet<_> = of(READ, records()).iter().map(|record| file(record)).collect();
    for order in ORDERS {
        for fine in [file_of(order, &TRIANGLE), file_of(order, &FOUR)] {
            assert!((0..=fine.len()).all(|length| files.contains(&fine[..length])));
            for more in [1, 8, 16, 32] {
                assert!(files.contains(&[&fine[..], &vec![0; more]].concat()), "{more}");
            }
        }
    }
}

#[test]
fn the_long_run_changes_every_byte_of_the_small_files() {
    let read = of(READ, long());
    for order in ORDERS {
        for fine in [file_of(order, &TRIANGLE), file_of(order, &FOUR)] {
            let mut values = vec![BTreeSet::new(); fine.len()];
            for file in read.iter().map(|record| file(record)).filter(|f| f.len() == fine.len()) {
                let mut places = (0..fine.len()).filter(|&place| file[place] != fine[place]);
                if let (Some(place), None) = (places.next(), places.next()) {
                    values[place].insert(file[place]);
                }
            }
            assert!(values.iter().all(|values| values.len() >= 9));
        }
    }
}

#[test]
fn the_long_run_has_rings_of_every_size() {
    let met: BTreeSet<_> = long()
        .iter()
        .filter(|record| record[3] == 0)
        .map(|record| match record[0] {
            WRITE => (None, record[1] / 2),
            _ => (Some(file(record)[0]), record[4]),
        })
        .collect();
    for vertices in 3..=256 {
        for order in [None, Some(0), Some(1)] {
            assert!(met.contains(&(order, vertices)), "{order:?} {vertices}");
        }
    }
}

#[test]
fn edge_numbers_stand_in_every_coordinate() {
    let files: BTreeSet<_> = of(READ, records()).iter().map(|record| file(record)).collect();
    let rings: BTreeSet<_> =
        of(WRITE, records()).iter().map(|r| r[HEADER..HEADER + r[1] as usize].to_vec()).collect();
    let (points, ring) =
        ([4.0, 0.5, 0.0, 3.0, -0.0, 1.0, 4.0, 0.5], [4.0, 0.0, 0.0, 3.0, 0.0, 1.0]);
    let past = 1e6_f64.next_up();
    for number in [1e6, -1e6, past, -past, f64::INFINITY, f64::NEG_INFINITY, f64::NAN, 5e-324, -0.0]
    {
        for place in 0..8 {
            let mut points = points;
            points[place] = number;
            assert!(ORDERS.iter().all(|&order| files.contains(&file_of(order, &points))));
        }
        for place in 0..6 {
            let mut ring = ring.map(f64::to_bits).to_vec();
            ring[place] = number.to_bits();
            assert!(rings.contains(&ring), "{place} {number}");
        }
    }
}

#[test]
fn zeros_of_both_signs_close_a_ring_and_the_first_point_is_kept() {
    let zeros = [0.0, -0.0];
    let read = of(READ, records());
    for order in ORDERS {
        for ends in (0..16).map(|i| [0, 1, 2, 3].map(|bit| zeros[i >> bit & 1])) {
            let is = |record: &&Vec<u64>| {
                let file = file(record);
                let points = [&ends[..2], &[0.0, 3.0, -0.0, 1.0], &ends[2..]].concat();
                file == file_of(order, &points)
            };
            let record = read.iter().find(is).expect("the list has it");
            assert_eq!((told(record), record[4]), ((0, 0), 3));
            let handed = &record[record.len() - 6..record.len() - 4];
            assert_eq!(handed, [ends[0].to_bits(), ends[1].to_bits()]);
        }
    }
}

#[test]
fn rooms_are_short_exact_and_longer() {
    for (call, exact, others) in [(READ, 6, [0, 5, 7, 13]), (WRITE, 77, [0, 76, 78, 93])] {
        let lent = if call == READ { 77 } else { 6 };
        let all = of(call, records());
        for room in others.into_iter().chain([exact]) {
            let number = if room < exact { 4 } else { 0 };
            let is = |r: &&Vec<u64>| r[1] == lent && r[2] == room && r[3] == number;
            assert!(all.iter().any(|record| is(&record)), "{call} {room}");
        }
    }
}
