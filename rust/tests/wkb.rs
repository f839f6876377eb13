//! Drawings in well-known binary through the safe calls: rings read and written,
//! and each fault of a file in both byte orders, with its place and its words.

use byrlygent::wkb::{read_wkb, write_wkb, Fault};
use byrlygent::{Entries, List, Point, Refusal};

const TRIANGLE: [Point; 3] = [(0.0, 0.0), (4.0, 0.0), (0.0, 3.0)];
const CLOSED: [Point; 4] = [(0.0, 0.0), (4.0, 0.0), (0.0, 3.0), (0.0, 0.0)];

/// The byte orders of a file.
const ORDERS: [u8; 2] = [0, 1];

/// A file of these words and points in this byte order; of an order that is not
/// known the fields are little-endian.
fn file(order: u8, words: &[u32], points: &[Point]) -> Vec<u8> {
    let word = |&word: &u32| if order == 0 { word.to_be_bytes() } else { word.to_le_bytes() };
    let float = |x: f64| if order == 0 { x.to_be_bytes() } else { x.to_le_bytes() };
    let mut bytes = vec![order];
    bytes.extend(words.iter().flat_map(word));
    bytes.extend(points.iter().flat_map(|&(x, y)| [float(x), float(y)].concat()));
    bytes
}

/// The file of one ring with these points, the closing one among them.
fn drawing(order: u8, points: &[Point]) -> Vec<u8> {
    file(order, &[3, 1, points.len() as u32], points)
}

/// So many points, no two of which are equal.
fn points(count: u32) -> Vec<Point> {
    (0..count).map(|i| (f64::from(i) / 3.0, -f64::from(i))).collect()
}

/// The bits of the points, one after the other.
fn bits(points: &[Point]) -> Vec<u64> {
    points.iter().flat_map(|point| [point.0.to_bits(), point.1.to_bits()]).collect()
}

/// Holds the reader to refusing the file with this fault at this place.
fn told(bytes: &[u8], place: usize, fault: Fault) {
    assert_eq!(read_wkb(bytes), Err(Refusal::Wkb { place, fault }), "{bytes:?}");
}

#[test]
fn rings_are_read_open_in_both_byte_orders() {
    for order in ORDERS {
        assert_eq!(read_wkb(&drawing(order, &CLOSED)), Ok(TRIANGLE.to_vec()));
        let mut long = points(256);
        long.push(long[0]);
        assert_eq!(
            read_wkb(&drawing(order, &long)).map(|ring| bits(&ring)),
            Ok(bits(&long[..256]))
        );
    }
}

#[test]
fn zeros_close_each_other_and_keep_their_signs() {
    for order in ORDERS {
        for (first, last) in [(0.0, -0.0), (-0.0, 0.0), (-0.0, -0.0)] {
            let closed = [(first, 1.0), (4.0, -0.0), (0.0, 3.0), (last, 1.0)];
            let ring = read_wkb(&drawing(order, &closed)).expect("both zeros are one number");
            assert_eq!(bits(&ring), bits(&closed[..3]));
        }
    }
}

#[test]
fn only_one_repeat_is_taken_off() {
    let twice = [CLOSED.as_slice(), &CLOSED[..1]].concat();
    for order in ORDERS {
        assert_eq!(read_wkb(&drawing(order, &twice)), Ok(CLOSED.to_vec()));
    }
    assert_eq!(write_wkb(&CLOSED), Ok(drawing(1, &twice)));
}

#[test]
fn what_is_written_is_little_endian_and_reads_the_same() {
    assert_eq!(write_wkb(&TRIANGLE), Ok(drawing(1, &CLOSED)));
    let zeros = [(-0.0, 0.0), (1e6, -1e6), (5e-324, -0.0)];
    for ring in [zeros.to_vec(), points(3), points(4), points(255), points(256)] {
        let bytes = write_wkb(&ring).expect("a polygon");
        assert_eq!(bytes, drawing(1, &[ring.as_slice(), &ring[..1]].concat()));
        assert_eq!(read_wkb(&bytes).map(|read| bits(&read)), Ok(bits(&ring)));
    }
    assert_eq!(write_wkb(&TRIANGLE.map(|(x, y)| [x, y])), write_wkb(&TRIANGLE));
}

#[test]
fn rings_to_write_have_3_to_256_vertices_in_bounds() {
    let entries = |has| Entries { list: List::Ring, has, least: 3, most: 256 };
    for has in [0, 1, 2] {
        assert_eq!(write_wkb(&points(has)), Err(Refusal::Few(entries(has as usize))));
    }
    assert_eq!(write_wkb(&points(257)), Err(Refusal::Many(entries(257))));
    for number in [f64::NAN, f64::INFINITY, -1e7] {
        assert_eq!(write_wkb(&[(0.0, 0.0), (4.0, number), (0.0, 3.0)]), Err(Refusal::Number));
    }
}

#[test]
fn each_field_is_told_at_its_place() {
    for order in ORDERS {
        let whole = drawing(order, &CLOSED);
        for has in 0..13 {
            told(&whole[..has], 0, Fault::Short(has));
        }
        for kind in [0, 1, 6, 17, 1003, 2003, 3003, 0x2000_0003, 0x8000_0003, u32::MAX] {
            told(&file(order, &[kind, 1, 4], &CLOSED), 1, Fault::Type(kind));
        }
        for rings in [0, 2, 3, u32::MAX] {
            told(&file(order, &[3, rings, 4], &CLOSED), 5, Fault::Rings(rings));
        }
        for count in [0, 1, 3, 258] {
            told(&drawing(order, &points(count)), 9, Fault::Points(count));
        }
        told(&file(order, &[3, 1, u32::MAX], &CLOSED), 9, Fault::Points(u32::MAX));
        for has in [13, 76] {
            told(&whole[..has], 0, Fault::Length { has, points: 4 });
        }
        told(&[whole.as_slice(), &[0]].concat(), 0, Fault::Length { has: 78, points: 4 });
        let five = file(order, &[3, 1, 5], &CLOSED);
        told(&five, 0, Fault::Length { has: 77, points: 5 });
    }
    for order in [2, 3, 0x80, 0xff] {
        told(&drawing(order, &CLOSED), 0, Fault::ByteOrder(order));
    }
}

#[test]
fn each_coordinate_is_told_at_its_first_byte() {
    let past = f64::from_bits(1e6_f64.to_bits() + 1);
    for order in ORDERS {
        for at in 0..8 {
            for number in [past, -past, f64::INFINITY, f64::NEG_INFINITY, f64::NAN] {
                let mut points = CLOSED;
                let point = &mut points[at / 2];
                *(if at % 2 == 0 { &mut point.0 } else { &mut point.1 }) = number;
                told(&drawing(order, &points), 13 + 8 * at, Fault::Coordinate);
            }
        }
    }
}

#[test]
fn a_ring_that_is_not_closed_is_told_at_its_last_point() {
    for order in ORDERS {
        for last in [(5e-324, 0.0), (0.0, -5e-324), (1e6, 0.0)] {
            let points = [CLOSED[0], CLOSED[1], CLOSED[2], last];
            told(&drawing(order, &points), 61, Fault::Open);
        }
        told(&drawing(order, &points(257)), 13 + 16 * 256, Fault::Open);
    }
}

#[test]
fn the_first_fault_speaks() {
    let wrong = [(f64::NAN, 0.0), CLOSED[1], CLOSED[2], (7.0, 0.0)];
    for order in ORDERS {
        told(&file(order, &[4, 2, 3], &wrong), 1, Fault::Type(4));
        told(&file(order, &[3, 2, 3], &wrong), 5, Fault::Rings(2));
        told(&file(order, &[3, 1, 3], &wrong), 9, Fault::Points(3));
        told(&file(order, &[3, 1, 5], &wrong), 0, Fault::Length { has: 77, points: 5 });
        told(&drawing(order, &wrong), 13, Fault::Coordinate);
        let last = [CLOSED[0], CLOSED[1], CLOSED[2], (7.0, f64::NAN)];
        told(&drawing(order, &last), 69, Fault::Coordinate);
    }
    told(&file(2, &[4, 2, 3], &wrong), 0, Fault::ByteOrder(2));
    told(&file(2, &[4, 2], &[]), 0, Fault::Short(9));
}

#[test]
fn the_words_name_the_field() {
    let words = [
        (Fault::Short(9), "it has 9 bytes, and 13 stand before the points alone"),
        (Fault::ByteOrder(2), "its byte order is 2, and may be 0 (big-endian) or 1"),
        (
            Fault::Type(1003),
            "its type is 1003 (0x3eb), and may only be 3, a polygon without Z, M or SRID",
        ),
        (Fault::Rings(2), "it has 2 rings, and may have one and no holes"),
        (Fault::Points(3), "its ring has 3 points, and may have 4 to 257, the last counted"),
        (Fault::Length { has: 78, points: 4 }, "it has 78 bytes, and with 4 points would have 77"),
        (Fault::Coordinate, "the coordinate is not finite, or not from -1000000 to 1000000"),
        (Fault::Open, "the last point does not equal the first: close the ring"),
    ];
    for (fault, words) in words {
        let refusal = Refusal::Wkb { place: 7, fault };
        assert_eq!(refusal.to_string(), format!("the drawing is wrong at byte 7: {words}"));
    }
}
