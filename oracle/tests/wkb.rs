//! The well-known binary: files written out by hand, each refusal with its place,
//! and that what was written is read again.

use oracle::refusals::{Answer, Refusal};
use oracle::seeded::Seeded;
use oracle::wkb::{file_of, read_wkb, write_wkb, Order};

/// A triangle, as lent.
const RING: [f64; 6] = [4.0, 0.0, 0.0, 3.0, 0.0, 0.0];

/// Its file, little-endian.
const LITTLE: [u8; 77] = [
    1, 3, 0, 0, 0, 1, 0, 0, 0, 4, 0, 0, 0, // byte order, type, rings, points
    0, 0, 0, 0, 0, 0, 0x10, 0x40, 0, 0, 0, 0, 0, 0, 0, 0, // (4, 0)
    0, 0, 0, 0, 0, 0, 0, 0, 0, 0, 0, 0, 0, 0, 0x08, 0x40, // (0, 3)
    0, 0, 0, 0, 0, 0, 0, 0, 0, 0, 0, 0, 0, 0, 0, 0, // (0, 0)
    0, 0, 0, 0, 0, 0, 0x10, 0x40, 0, 0, 0, 0, 0, 0, 0, 0, // (4, 0)
];

/// Its file, big-endian.
const BIG: [u8; 77] = [
    0, 0, 0, 0, 3, 0, 0, 0, 1, 0, 0, 0, 4, // byte order, type, rings, points
    0x40, 0x10, 0, 0, 0, 0, 0, 0, 0, 0, 0, 0, 0, 0, 0, 0, // (4, 0)
    0, 0, 0, 0, 0, 0, 0, 0, 0x40, 0x08, 0, 0, 0, 0, 0, 0, // (0, 3)
    0, 0, 0, 0, 0, 0, 0, 0, 0, 0, 0, 0, 0, 0, 0, 0, // (0, 0)
    0x40, 0x10, 0, 0, 0, 0, 0, 0, 0, 0, 0, 0, 0, 0, 0, 0, // (4, 0)
];

/// Both byte orders, each with its file of the triangle.
const BOTH: [(Order, [u8; 77]); 2] = [(Order::Big, BIG), (Order::Little, LITTLE)];

/// The file with these bytes put in this place.
fn put(file: &[u8], place: usize, bytes: &[u8]) -> Vec<u8> {
    let mut changed = file.to_vec();
    changed[place..place + bytes.len()].copy_from_slice(bytes);
    changed
}

/// What reading this file into a long room comes to; a refused one leaves it.
fn read(file: &[u8]) -> Answer<Vec<f64>> {
    let mut room = [7.5; 600];
    let answer = read_wkb(file, &mut room);
    if answer.is_err() {
        assert!(room.iter().all(|&x| x == 7.5));
    }
    answer.map(|vertices| {
        assert!(room[2 * vertices..].iter().all(|&x| x == 7.5));
        room[..2 * vertices].to_vec()
    })
}

/// That this file is refused with a fault in this place.
fn wrong(file: &[u8], place: u64) {
    assert_eq!(read(file), Err(Refusal::at(10, place)));
}

/// The bits of the numbers.
fn bits(numbers: &[f64]) -> Vec<u64> {
    numbers.iter().map(|x| x.to_bits()).collect()
}

#[test]
fn the_triangle_is_written_to_the_byte() {
    let mut room = [0xa5; 79];
    assert_eq!(write_wkb(&RING, &mut room), Ok(77));
    assert_eq!(room[..77], LITTLE);
    assert_eq!(room[77..], [0xa5, 0xa5]);
}

#[test]
fn both_byte_orders_are_read_alike() {
    for (order, file) in BOTH {
        assert_eq!(read(&file), Ok(RING.to_vec()));
        assert_eq!(file_of(order, &[&RING[..], &RING[..2]].concat()), file);
    }
}

#[test]
fn each_field_has_its_place() {
    for (order, file) in BOTH {
        for length in 0..13 {
            wrong(&file[..length], 0);
        }
        for byte in [2, 3, 0x80, 255] {
            wrong(&put(&file, 0, &[byte]), 0);
        }
        // The other byte order reads the type 3 as 0x0300_0000.
        wrong(&put(&file, 0, &[1 - order.byte()]), 1);
        for kind in [0, 1, 2, 4, 6, 1003, 2003, 0x8000_0003, 0x2000_0003, 0x0300_0000] {
            wrong(&put(&file, 1, &order.field(kind)), 1);
        }
        for rings in [0, 2, 0x0100_0000, u32::MAX] {
            wrong(&put(&file, 5, &order.field(rings)), 5);
        }
        for points in [0, 1, 2, 3, 258, 260, 0x1000_0004, 1 << 31, 0x8000_0004, u32::MAX] {
            wrong(&put(&file, 9, &order.field(points)), 9);
        }
        for points in [5, 6, 256, 257] {
            wrong(&put(&file, 9, &order.field(points)), 0);
        }
        for length in 13..77 {
            wrong(&file[..length], 0);
        }
        for more in [1, 2, 8, 16, 77] {
            wrong(&[&file[..], &vec![0; more]].concat(), 0);
        }
    }
}

#[test]
fn each_coordinate_has_its_place() {
    for (order, file) in BOTH {
        for place in (13..77).step_by(8) {
            for number in [f64::NAN, f64::INFINITY, f64::NEG_INFINITY, 1e6_f64.next_up(), -1e7] {
                wrong(&put(&file, place, &order.number(number)), place as u64);
            }
        }
        for number in [1e6, -1e6, 5e-324, -5e-324, -0.0] {
            let ring = [4.0, 0.0, number, 3.0, 0.0, number];
            let file = file_of(order, &[&ring[..], &ring[..2]].concat());
            assert_eq!(read(&file).map(|read| bits(&read)), Ok(bits(&ring)));
        }
    }
}

#[test]
fn the_closing_point_is_compared_as_numbers_and_left_off() {
    let zeros = [[0.0, 0.0], [-0.0, 0.0], [0.0, -0.0], [-0.0, -0.0]];
    for (order, file) in BOTH {
        for first in zeros {
            for last in zeros {
                let ring = [&first[..], &[1.0, 0.0, 0.0, 1.0]].concat();
                let file = file_of(order, &[&ring[..], &last].concat());
                assert_eq!(read(&file).map(|read| bits(&read)), Ok(bits(&ring)));
            }
        }
        for last in [[4.0_f64.next_up(), 0.0], [4.0, 5e-324], [0.0, 4.0], [0.0, 3.0], [-4.0, 0.0]] {
            wrong(&file_of(order, &[&RING[..], &last].concat()), 61);
        }
        // A NaN is no coordinate: it is told where it stands, and does not close.
        let both = put(&file, 13, &order.number(f64::NAN));
        wrong(&put(&both, 61, &order.number(f64::NAN)), 13);
    }
}

#[test]
fn only_the_one_closing_point_is_taken_off() {
    for order in [Order::Big, Order::Little] {
        let repeated = [&RING[..], &RING[..2]].concat();
        let file = file_of(order, &[&repeated[..], &RING[..2]].concat());
        assert_eq!((file.len(), read(&file)), (93, Ok(repeated)));
        assert_eq!(read(&file_of(order, &[1.5; 8])), Ok(vec![1.5; 6]));
        wrong(&file_of(order, &RING), 9); // three points, none of them closing
    }
    let mut room = [0; 93];
    assert_eq!(write_wkb(&[&RING[..], &RING[..2]].concat(), &mut room), Ok(93));
    assert_eq!(room[13..29], room[61..77]);
    assert_eq!(room[13..29], room[77..]);
}

#[test]
fn the_first_fault_is_told() {
    for (order, file) in BOTH {
        // Each fault is put beside those that are tested after it.
        let closing = put(&file, 69, &order.number(1.0));
        wrong(&closing, 61);
        let coordinate = put(&closing, 69, &order.number(f64::INFINITY));
        wrong(&coordinate, 69);
        let coordinate = put(&coordinate, 29, &order.number(-2e6));
        wrong(&coordinate, 29);
        let length = [&coordinate[..], &[0]].concat();
        wrong(&length, 0);
        let points = put(&length, 9, &order.field(3));
        wrong(&points, 9);
        let rings = put(&points, 5, &order.field(2));
        wrong(&rings, 5);
        let kind = put(&rings, 1, &order.field(6));
        wrong(&kind, 1);
        wrong(&put(&kind, 0, &[2]), 0);
        wrong(&kind[..12], 0);
    }
}

#[test]
fn other_geometries_are_refused() {
    for order in [Order::Big, Order::Little] {
        let fields = |kind: u32, more: &[u32]| {
            let all = [&[kind], more].concat();
            [vec![order.byte()], all.into_iter().flat_map(|n| order.field(n)).collect()].concat()
        };
        wrong(&fields(3, &[0]), 0); // an empty polygon has 9 bytes
        wrong(&[fields(1, &[]), vec![0; 16]].concat(), 1); // a point
        wrong(&[fields(1003, &[1, 4]), vec![0; 96]].concat(), 1); // with heights
        wrong(&[fields(0x2000_0003, &[4326, 1, 4]), vec![0; 64]].concat(), 1); // with an SRID
        wrong(&[fields(3, &[2, 4]), vec![0; 132]].concat(), 5); // with a hole
        wrong(&fields(6, &[0, 0]), 1); // no polygons together
    }
}

#[test]
fn faults_are_told_before_the_room() {
    for (order, file) in BOTH {
        for (length, answer) in
            [(6, Ok(3)), (7, Ok(3)), (5, Err(4)), (4, Err(4)), (1, Err(4)), (0, Err(4))]
        {
            let mut room = vec![7.5; length];
            assert_eq!(read_wkb(&file, &mut room), answer.map_err(Refusal::of));
            let left = if answer.is_ok() { 6 } else { 0 };
            assert!(room[left..].iter().all(|&x| x == 7.5));
        }
        let open = put(&file, 61, &order.number(5.0));
        assert_eq!(read_wkb(&open, &mut []), Err(Refusal::at(10, 61)));
    }
}

#[test]
fn what_cannot_be_written_is_told_in_order() {
    let long = [0.5; 516];
    let refused = |ring: &[f64], room: usize| {
        let mut held = vec![0xa5; room];
        let answer = write_wkb(ring, &mut held);
        assert!(answer.is_ok() || held.iter().all(|&byte| byte == 0xa5));
        answer.err()
    };
    for (n, number) in [(0, 8), (2, 8), (4, 8), (514, 9), (516, 9)] {
        assert_eq!(refused(&long[..n], 0), Some(Refusal::at(number, 0)));
    }
    for n in [1, 3, 5, 7, 511, 513, 515] {
        assert_eq!(refused(&long[..n], 9_000), Some(Refusal::at(1, 0)));
    }
    for number in [f64::NAN, f64::INFINITY, f64::NEG_INFINITY, -1e6_f64.next_up()] {
        for place in 0..6 {
            let mut ring = RING;
            ring[place] = number;
            assert_eq!(refused(&ring, 0), Some(Refusal::of(2)));
            assert_eq!(refused(&ring[..5], 0), Some(Refusal::at(1, 0)));
        }
    }
    for (room, answer) in [(0, Some(4)), (13, Some(4)), (76, Some(4)), (77, None), (78, None)] {
        assert_eq!(refused(&RING, room), answer.map(Refusal::of));
    }
    assert_eq!(refused(&[1e6, -1e6, 1e6, 1e6, -1e6, 0.0], 77), None);
}

#[test]
fn the_longest_file_has_4125_bytes() {
    let seeded = &mut Seeded::new(12);
    let ring: Vec<f64> = (0..512).map(|_| seeded.spread(1e6)).collect();
    let mut file = vec![0; 4_125];
    assert_eq!(write_wkb(&ring, &mut file[1..]), Err(Refusal::of(4)));
    assert_eq!(write_wkb(&ring, &mut file), Ok(4_125));
    assert_eq!(read(&file).as_ref(), Ok(&ring));
    assert_eq!(read_wkb(&file, &mut [0.0; 511]), Err(Refusal::of(4)));
    let closed = [&ring[..], &ring[..2]].concat();
    for order in [Order::Big, Order::Little] {
        assert_eq!(read(&file_of(order, &closed)).as_ref(), Ok(&ring));
        wrong(&file_of(order, &[&closed[..], &ring[..2]].concat()), 9); // 258 points
    }
}

#[test]
fn what_was_written_is_read_again() {
    let seeded = &mut Seeded::new(13);
    for round in 0..2_000 {
        let number = |seeded: &mut Seeded| seeded.pick(&[-0.0, 0.0, 1.0, -2.5, 1e6, 5e-324]);
        let ring: Vec<f64> = (0..6 + 2 * (round % 40)).map(|_| number(seeded)).collect();
        let mut file = vec![0; 29 + 8 * ring.len()];
        assert_eq!(write_wkb(&ring, &mut file), Ok(file.len()));
        assert_eq!(file, file_of(Order::Little, &[&ring[..], &ring[..2]].concat()));
        assert_eq!(read(&file).map(|read| bits(&read)), Ok(bits(&ring)));
    }
}
