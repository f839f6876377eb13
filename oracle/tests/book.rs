//! The outline book: docs/SCOPE.md's example, the least reading, each refusal.

use oracle::answers::Point;
use oracle::book::{kept, layout, least_reading, old_file, parts_of, printed};
use oracle::book::{read_book, readings, write_book};
use oracle::calls::points_of;
use oracle::refusals::{Answer, Refusal};
use oracle::seeded::Seeded;

/// docs/SCOPE.md's ring, as lent.
const RING: [f64; 6] = [4.0, 0.0, 0.0, 3.0, 0.0, 0.0];

/// Its book with part 7: the rings, the entry (0, 3, 7), one ring, the entries from
/// byte 48.
const BOOK: [u8; 68] = [
    0, 0, 0, 0, 0, 0, 0, 0, 0, 0, 0, 0, 0, 0, 0, 0, // (0, 0)
    0, 0, 0, 0, 0, 0, 0, 0, 0, 0, 0, 0, 0, 0, 0x08, 0x40, // (0, 3)
    0, 0, 0, 0, 0, 0, 0x10, 0x40, 0, 0, 0, 0, 0, 0, 0, 0, // (4, 0)
    0, 0, 0, 0, 3, 0, 0, 0, 7, 0, 0, 0, 1, 0, 0, 0, 48, 0, 0, 0,
];

/// The book of these rings, with a room that is just long enough.
fn book_of(rings: &[&[f64]]) -> Vec<u8> {
    let counts: Vec<u32> = rings.iter().map(|ring| ring.len() as u32 / 2).collect();
    let coordinates = rings.concat();
    let mut room = vec![0; 8 * coordinates.len() + 12 * rings.len() + 8];
    let parts = parts_of(rings.len());
    assert_eq!(write_book(&coordinates, &counts, &parts, &mut room), Ok(room.len()));
    room
}

/// The book with this field put in this place.
fn with_field(book: &[u8], place: usize, value: u32) -> Vec<u8> {
    let mut changed = book.to_vec();
    changed[place..place + 4].copy_from_slice(&value.to_le_bytes());
    changed
}

/// The book with this coordinate put in this place.
fn with_number(book: &[u8], place: usize, number: f64) -> Vec<u8> {
    let mut changed = book.to_vec();
    changed[place..place + 8].copy_from_slice(&number.to_le_bytes());
    changed
}

/// A file that keeps these rings as they are.
fn laid(rings: &[Vec<Point>]) -> Vec<u8> {
    layout(rings, &parts_of(rings.len()))
}

/// What reading this book into long rooms comes to; refused ones leave them.
fn read(book: &[u8]) -> Answer<usize> {
    let (mut coordinates, mut counts, mut parts) = ([7.5; 4096], [9; 8], [11; 8]);
    let answer = read_book(book, &mut coordinates, &mut counts, &mut parts);
    if answer.is_err() {
        assert!(coordinates.iter().all(|&x| x == 7.5) && counts == [9; 8] && parts == [11; 8]);
    }
    answer
}

/// The points as numbers.
fn flat(points: &[Point]) -> Vec<f64> {
    points.iter().flat_map(|p| [p.0, p.1]).collect()
}

#[test]
fn the_example_is_written_to_the_byte() {
    let mut room = [0xa5; 70];
    assert_eq!(write_book(&RING, &[3], &[7], &mut room), Ok(68));
    assert_eq!(room[..68], BOOK);
    assert_eq!(room[68..], [0xa5, 0xa5]);
}

#[test]
fn the_example_is_read_and_printed() {
    let (mut coordinates, mut counts, mut parts) = ([7.5; 7], [9; 2], [11; 2]);
    assert_eq!(read_book(&BOOK, &mut coordinates, &mut counts, &mut parts), Ok(1));
    assert_eq!(coordinates, [0.0, 0.0, 0.0, 3.0, 4.0, 0.0, 7.5]);
    assert_eq!((counts, parts), ([3, 9], [7, 11]));
    let text = "rings 1\nring 0 vertices 3 part 7\n\
        0000000000000000 0000000000000000\n\
        0000000000000000 4008000000000000\n\
        4010000000000000 0000000000000000\n";
    assert_eq!(printed(&BOOK), text);
}

#[test]
fn several_rings_and_refused_books_are_printed() {
    let book = book_of(&[&RING, &[-0.0, 1.0, 0.0, -1.0, 2.0, 0.5]]);
    let text = "rings 2\nring 0 vertices 3 part 7\n\
        0000000000000000 0000000000000000\n\
        0000000000000000 4008000000000000\n\
        4010000000000000 0000000000000000\n\
        ring 1 vertices 3 part 0\n\
        0000000000000000 bff0000000000000\n\
        0000000000000000 3ff0000000000000\n\
        4000000000000000 3fe0000000000000\n";
    assert_eq!(printed(&book), text);
    for wrong in [vec![], vec![0; 67], vec![0; 32_873], vec![0; 100_000]] {
        assert_eq!(printed(&wrong), "refused 7 0\n");
    }
    assert_eq!(printed(&with_number(&BOOK, 40, f64::NAN)), "refused 7 40\n");
}

#[test]
fn a_ring_may_hold_its_lowest_vertex_twice() {
    let ring = [(0.0, 0.0), (1.0, 0.0), (0.0, 0.0), (0.0, 1.0)];
    let least = [(0.0, 0.0), (0.0, 1.0), (0.0, 0.0), (1.0, 0.0)];
    assert_eq!(readings(&ring).len(), 8);
    for reading in readings(&ring) {
        assert_eq!(least_reading(&reading), least);
        assert_eq!(book_of(&[&flat(&reading)]), laid(&[least.to_vec()]));
    }
}

#[test]
fn either_zero_is_kept_as_plus_zero() {
    let zeros = [0.0, 0.0, -0.0, 0.0, 0.0, -0.0];
    assert_eq!(book_of(&[&zeros]), laid(&[vec![(0.0, 0.0); 3]]));
    for number in [5e-324, -5e-324, f64::MIN_POSITIVE, -1.0, 1e6, -1e6] {
        assert_eq!(kept(number).to_bits(), number.to_bits());
    }
}

#[test]
fn the_sign_of_a_zero_does_not_choose_the_reading() {
    // By sign the ring would be read back from its first vertex.
    let ring = [0.0, -0.0, 1.0, 5.0, 2.0, 2.0, 0.0, 0.0, 1.0, 3.0];
    let least = [0.0, 0.0, 1.0, 3.0, 0.0, 0.0, 1.0, 5.0, 2.0, 2.0];
    assert_eq!(book_of(&[&ring]), laid(&[points_of(&least)]));
}

#[test]
fn a_closing_repeat_is_a_vertex() {
    let closed = [0.0, 0.0, 4.0, 0.0, 0.0, 3.0, 0.0, 0.0];
    assert_eq!(book_of(&[&closed]).len(), 68 + 16);
}

#[test]
fn wrong_lengths_are_told_by_number_and_place() {
    let square = [0.0, 0.0, 4.0, 0.0, 4.0, 4.0, 0.0, 4.0];
    let refused = |coordinates: &[f64], counts: &[u32]| {
        let mut room = [0xa5; 256];
        let answer = write_book(coordinates, counts, &parts_of(counts.len()), &mut room);
        assert!(answer.is_ok() || room == [0xa5; 256]);
        answer.err().map(|no| (no.number, no.place))
    };
    assert_eq!(refused(&square, &[4]), None);
    // The sum, an odd list included, is told at the number of rings.
    assert_eq!(refused(&square, &[3]), Some((1, 1)));
    assert_eq!(refused(&square, &[5]), Some((1, 1)));
    assert_eq!(refused(&square[..7], &[3]), Some((1, 1)));
    assert_eq!(refused(&square[..7], &[4]), Some((1, 1)));
    assert_eq!(refused(&square, &[3, 3]), Some((1, 2)));
    // A ring's count is told at the ring, whatever the list has.
    assert_eq!(refused(&square[..4], &[2]), Some((8, 0)));
    assert_eq!(refused(&square, &[4, 0]), Some((8, 1)));
    assert_eq!(refused(&square[..7], &[3, 257, 2]), Some((9, 1)));
    assert_eq!(refused(&[], &[1 << 31, 1 << 31]), Some((9, 0)));
    assert_eq!(refused(&RING, &[u32::MAX, 4]), Some((9, 0)));
    assert_eq!(refused(&[0.0; 514], &[257]), Some((9, 0)));
    // The number of rings is told first, at that number.
    assert_eq!(refused(&[], &[]), Some((8, 0)));
    assert_eq!(refused(&square[..7], &[]), Some((8, 0)));
    assert_eq!(refused(&[RING; 9].concat(), &[3; 9]), Some((9, 9)));
    assert_eq!(refused(&[], &[2; 16]), Some((9, 16)));
}

#[test]
fn lengths_numbers_and_rooms_are_refused_in_this_order() {
    let mut faulty = RING;
    faulty[5] = 1_000_000.0_f64.next_up();
    assert_eq!(write_book(&faulty, &[4], &[], &mut []), Err(Refusal::at(1, 1)));
    // Parts unlike the rings in number come after the sum and before the numbers.
    for parts in [&[][..], &[7, 8], &[7; 16]] {
        assert_eq!(write_book(&faulty, &[3], parts, &mut []), Err(Refusal::at(1, 1)));
        assert_eq!(write_book(&faulty, &[2], parts, &mut []), Err(Refusal::at(8, 0)));
    }
    assert_eq!(write_book(&faulty, &[3], &[7], &mut []), Err(Refusal::of(2)));
    let mut room = [0xa5; 67];
    assert_eq!(write_book(&RING, &[3], &[7], &mut room), Err(Refusal::of(4)));
    assert_eq!(room, [0xa5; 67]);
    for number in [f64::NAN, f64::INFINITY, f64::NEG_INFINITY, -1_000_000.0_f64.next_up()] {
        faulty[0] = number;
        assert_eq!(write_book(&faulty, &[3], &[7], &mut [0; 68]), Err(Refusal::of(2)));
    }
    let bounds = [-1e6, 1e6, 1e6, 1e6, 0.0, 0.0];
    assert_eq!(write_book(&bounds, &[3], &[7], &mut [0; 68]), Ok(68));
}

#[test]
fn each_fault_has_its_place() {
    let book = book_of(&[&RING, &[0.0, 0.0, 1.0, 0.0, 0.0, 0.0, 0.0, 1.0]]);
    let (length, entries) = (144, 112);
    assert_eq!((book.len(), read(&book)), (length, Ok(2)));
    let wrong =
        |book: &[u8], place: usize| assert_eq!(read(book), Err(Refusal::at(7, place as u64)));
    wrong(&book[..67], 0);
    wrong(&[&book[..], &[0; 32_729]].concat(), 0);
    for rings in [0, 9, u32::MAX] {
        wrong(&with_field(&book, length - 8, rings), length - 8);
    }
    for place in [0, 111, 113, 1 << 31, u32::MAX] {
        wrong(&with_field(&book, length - 4, place), length - 4);
    }
    wrong(&with_field(&book, length - 8, 1), length - 4); // then the entries begin elsewhere
    wrong(&with_field(&book, entries, 16), entries);
    wrong(&with_field(&book, entries + 4, 2), entries + 4);
    wrong(&with_field(&book, entries + 4, 257), entries + 4);
    wrong(&with_field(&book, entries + 4, 4), entries + 12); // the second then begins at 64
    wrong(&with_field(&book, entries + 12, 49), entries + 12);
    wrong(&with_field(&book, entries + 16, 0), entries + 16);
    wrong(&with_field(&book, entries + 16, 3), length - 4);
    wrong(&with_field(&book, entries + 16, 5), length - 4);
    // A part is any number.
    for part in [0, 3, 257, 1 << 31, u32::MAX] {
        assert_eq!(read(&with_field(&book, entries + 8, part)), Ok(2));
        assert_eq!(read(&with_field(&book, entries + 20, part)), Ok(2));
    }
    for place in (0..entries).step_by(8) {
        for number in [f64::NAN, f64::INFINITY, 1_000_000.0_f64.next_up(), -0.0] {
            wrong(&with_number(&book, place, number), place);
        }
    }
    wrong(&with_number(&book, 0, 1.0), 0); // the first vertex is not the least
    wrong(&with_number(&book, 48, 0.5), 48);
}

#[test]
fn the_first_fault_is_told() {
    let ring = |vertices: &[f64]| points_of(vertices);
    let turned = laid(&[ring(&RING), ring(&[1.0, 1.0, 0.0, 0.0, 0.0, 1.0])]);
    assert_eq!(read(&turned), Err(Refusal::at(7, 0)));
    // A coordinate of a later ring comes before an earlier ring's reading.
    assert_eq!(read(&with_number(&turned, 88, 2e6)), Err(Refusal::at(7, 88)));
    let minus = with_number(&turned, 88, -0.0);
    assert_eq!(read(&minus), Err(Refusal::at(7, 88)));
    assert_eq!(read(&with_number(&minus, 80, f64::NAN)), Err(Refusal::at(7, 80)));
    assert_eq!(read(&with_number(&minus, 40, -0.0)), Err(Refusal::at(7, 40)));
    let both = with_field(&with_field(&turned, 108, 8), 100, 2);
    assert_eq!(read(&both), Err(Refusal::at(7, 100)));
    assert_eq!(read(&with_field(&both, 124, 0)), Err(Refusal::at(7, 124)));
    assert_eq!(read(&with_field(&with_field(&both, 124, 0), 120, 0)), Err(Refusal::at(7, 120)));
}

#[test]
fn entries_never_begin_before_the_first_byte() {
    for length in 68..104_usize {
        let offset = (length as u32).wrapping_sub(8 + 12 * 8);
        let file = with_field(&with_field(&vec![0; length], length - 8, 8), length - 4, offset);
        assert_eq!(read(&file), Err(Refusal::at(7, length as u64 - 4)));
    }
}

#[test]
fn faults_are_told_before_rooms() {
    let wrong = with_number(&BOOK, 0, 1.0);
    assert_eq!(read_book(&wrong, &mut [], &mut [], &mut []), Err(Refusal::at(7, 0)));
    let fine = [(6, 1, 1, true), (7, 2, 2, true)];
    let short = [(5, 1, 1, false), (6, 0, 1, false), (6, 1, 0, false)];
    for (numbers, rings, labels, answer) in fine.into_iter().chain(short) {
        let (mut coordinates, mut counts) = (vec![7.5; numbers], vec![9; rings]);
        let mut parts = vec![11; labels];
        let read = read_book(&BOOK, &mut coordinates, &mut counts, &mut parts);
        assert_eq!(read, if answer { Ok(1) } else { Err(Refusal::of(4)) });
        assert!(answer || (coordinates == vec![7.5; numbers] && counts == vec![9; rings]));
        assert!(answer || parts == vec![11; labels]);
    }
}

#[test]
fn the_longest_book_has_32872_bytes() {
    let seeded = &mut Seeded::new(9);
    let rings: Vec<Vec<f64>> =
        (0..8).map(|_| (0..512).map(|_| seeded.spread(1e6)).collect()).collect();
    let book = book_of(&rings.iter().map(|ring| &ring[..]).collect::<Vec<_>>());
    assert_eq!((book.len(), read(&book)), (32_872, Ok(8)));
    let mut room = vec![0; 32_871];
    let written = write_book(&rings.concat(), &[256; 8], &[7; 8], &mut room);
    assert_eq!(written, Err(Refusal::of(4)));
    assert_eq!(read(&[&book[..], &[0]].concat()), Err(Refusal::at(7, 0)));
    let (mut coordinates, mut counts, mut parts) = ([0.0; 4096], [0; 8], [0; 8]);
    let short = read_book(&book, &mut coordinates[1..], &mut counts, &mut parts);
    assert_eq!(short, Err(Refusal::of(4)));
    assert_eq!(read_book(&book, &mut coordinates, &mut counts, &mut parts), Ok(8));
    // Writing what was read gives the same book.
    let mut again = vec![0; 32_872];
    assert_eq!(write_book(&coordinates, &counts, &parts, &mut again), Ok(32_872));
    assert!(again == book);
}

#[test]
fn all_readings_of_a_ring_give_one_book_and_only_it_is_read() {
    let seeded = &mut Seeded::new(10);
    for round in 0..400 {
        let n = 3 + round % 6;
        let ring: Vec<Point> = (0..n).map(|_| (seeded.whole(1), seeded.whole(1))).collect();
        let book = book_of(&[&flat(&ring)]);
        for reading in readings(&ring) {
            assert_eq!(book_of(&[&flat(&reading)]), book);
            let kept = laid(std::slice::from_ref(&reading));
            assert_eq!(read(&kept), if kept == book { Ok(1) } else { Err(Refusal::at(7, 0)) });
        }
    }
}

#[test]
fn books_are_the_same_only_with_the_same_parts() {
    let rings = [&RING[..], &[0.0, 0.0, 1.0, 0.0, 0.0, 0.0, 0.0, 1.0]].concat();
    let book = |parts: [u32; 2]| {
        let mut room = [0; 144];
        assert_eq!(write_book(&rings, &[3, 4], &parts, &mut room), Ok(144));
        room
    };
    let all = [[7, 8], [8, 7], [7, 7], [0, 0], [u32::MAX, 0], [0, u32::MAX]];
    for (i, parts) in all.into_iter().enumerate() {
        for (j, others) in all.into_iter().enumerate() {
            assert_eq!(book(parts) == book(others), i == j);
        }
        let mut read = [9; 2];
        let (numbers, counts) = (&mut [0.0; 14], &mut [0; 2]);
        assert_eq!(read_book(&book(parts), numbers, counts, &mut read), Ok(2));
        assert_eq!(read, parts);
    }
}

#[test]
fn old_books_are_refused_for_every_number_of_rings() {
    let triangle = [0.0, 0.0, 0.0, 3.0, 4.0, 0.0];
    let square = [0.0, 0.0, 0.0, 1.0, 1.0, 1.0, 1.0, 0.0];
    for rings in 1..=8 {
        for ring in [&triangle[..], &square[..]] {
            let old = old_file(&book_of(&vec![ring; rings]));
            assert_eq!(old.len(), rings * (8 * ring.len() + 8) + 8);
            let place = if old.len() == 64 { 0 } else { old.len() as u64 - 4 };
            assert_eq!(read(&old), Err(Refusal::at(7, place)));
        }
    }
}
