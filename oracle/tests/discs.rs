//! Discs: known entries and vertices, the circle and the way round, each refusal and
//! their order, and what a refusal leaves.

use oracle::discs::{entries, make_disc};
use oracle::refusals::{Answer, Refusal};
use oracle::replay::discs::{records, QUARTERS};
use std::collections::BTreeSet;

/// What a disc comes to in a room of this many numbers; a refusal leaves it.
fn made(centre: (f64, f64), radius: f64, m: u64, room: usize) -> Answer<Vec<f64>> {
    let mut room = vec![7.5; room];
    let answer = make_disc(centre, radius, m, &mut room);
    let written = answer.map_or(0, |vertices| 2 * vertices);
    assert!(room[written..].iter().all(|&x| x == 7.5));
    answer.map(|_| room[..written].to_vec())
}

/// The bits of the numbers.
fn bits(numbers: &[f64]) -> Vec<u64> {
    numbers.iter().map(|x| x.to_bits()).collect()
}

#[test]
fn entries_are_those_of_the_rule() {
    let (one, x, y) = (1 << 30, 644_245_094, 858_993_459);
    assert_eq!(entries(1), [(one, 0), (0, one), (-one, 0), (0, -one)]);
    assert_eq!(entries(2)[..4], [(one, 0), (x, y), (0, one), (-y, x)]);
    assert_eq!(entries(2)[4..], [(-one, 0), (-x, -y), (0, -one), (y, -x)]);
    assert_eq!(entries(64)[1], (1_073_217_663, 33_546_241));
}

#[test]
fn entries_lie_on_the_circle_and_go_round_to_the_left() {
    for m in QUARTERS {
        let entries = entries(m);
        assert_eq!(entries.len() as u64, 4 * m);
        for (i, &(x, y)) in entries.iter().enumerate() {
            let (u, v) = entries[(i + 1) % entries.len()];
            assert!(x * v > u * y, "{m}, {i}");
            let square = x * x + y * y;
            assert!(square <= 1 << 60 && square > ((1 << 30) - 2) * ((1 << 30) - 2));
        }
    }
}

#[test]
fn four_vertices_are_exact() {
    let four = [5.0, 2.0, 3.0, 4.0, 1.0, 2.0, 3.0, 0.0];
    assert_eq!(made((3.0, 2.0), 2.0, 1, 8), Ok(four.to_vec()));
    assert_eq!(made((3.0, 2.0), 2.0, 1, 600), Ok(four.to_vec()));
}

#[test]
fn no_entry_is_minus_zero() {
    let four = [1.0, 0.0, 0.0, 1.0, -1.0, 0.0, 0.0, -1.0];
    let disc = made((-0.0, -0.0), 1.0, 1, 8).expect("it is in bounds");
    assert_eq!(bits(&disc), bits(&four));
    // A product that rounds to zero keeps its sign.
    let tiny = made((-0.0, -0.0), 5e-324, 64, 512).expect("it is in bounds");
    assert!(tiny.iter().any(|x| x.to_bits() == (-0.0_f64).to_bits()));
}

#[test]
fn equal_vertices_are_made_all_the_same() {
    let disc = made((1e6, -1e6), 1e-12, 64, 512).expect("it is in bounds");
    assert!(disc.chunks_exact(2).all(|vertex| vertex == [1e6, -1e6]));
}

#[test]
fn refusals_speak_in_their_order() {
    let refused = |number| Err(Refusal::of(number));
    for m in [0, 3, 5, 65, 128, 1 << 32 | 1, u64::MAX] {
        assert_eq!(made((f64::NAN, 0.0), -1.0, m, 0), refused(12));
    }
    for radius in [0.0, -0.0, -1.0, f64::NAN, f64::INFINITY, f64::NEG_INFINITY] {
        assert_eq!(made((0.0, 0.0), radius, 1, 0), refused(2));
    }
    for wrong in [f64::NAN, f64::INFINITY, f64::NEG_INFINITY, 1e6_f64.next_up()] {
        assert_eq!(made((wrong, 0.0), 1.0, 1, 0), refused(2));
        assert_eq!(made((0.0, wrong), 1.0, 1, 0), refused(2));
    }
    assert_eq!(made((999_999.0, 0.0), 1.5, 4, 0), refused(2));
    assert_eq!(made((0.0, -999_999.0), 1.5, 4, 0), refused(2));
    assert_eq!(made((0.0, 0.0), 1e6_f64.next_up(), 1, 0), refused(2));
    assert_eq!(made((0.0, 0.0), 1e6, 1, 7), refused(4));
    assert!(made((0.0, 0.0), 1e6, 1, 8).is_ok());
    assert_eq!(made((0.0, 0.0), 1.0, 64, 511), refused(4));
}

#[test]
fn the_list_has_all_discs_and_every_refusal() {
    let met: BTreeSet<_> = records().iter().map(|record| (record[0], record[2])).collect();
    for m in QUARTERS {
        assert!([0, 2].iter().all(|&number| met.contains(&(m, number))), "{m}");
    }
    let numbers: BTreeSet<_> = met.into_iter().map(|pair| pair.1).collect();
    assert!(numbers.into_iter().eq([0, 2, 4, 12]));
}
