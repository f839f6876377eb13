//! Rings with repeated points: what remains, what is told of the rest, and which
//! refusal speaks.

use oracle::mend::{mend_ring, RUN, TRAILING};
use oracle::refusals::Refusal;

/// What mending writes: the ring, index and why of each dropped vertex, and its
/// point.
type Mended = (Vec<f64>, Vec<u64>, Vec<f64>);

/// What is written of the ring with rooms that hold all of it.
fn mended(ring: &[f64]) -> Result<Mended, Refusal> {
    let (mut room, mut whys, mut points) =
        (vec![0.0; ring.len()], vec![0; ring.len()], vec![0.0; ring.len()]);
    let (vertices, count) = mend_ring(ring, &mut room, &mut whys, &mut points)?;
    room.truncate(2 * vertices);
    whys.truncate(2 * count);
    points.truncate(2 * count);
    Ok((room, whys, points))
}

/// The bits of the numbers.
fn bits(list: &[f64]) -> Vec<u64> {
    list.iter().map(|x| x.to_bits()).collect()
}

#[test]
fn the_first_of_a_run_and_the_first_of_all_remain() {
    let ring = [0.0, 0.0, 4.0, 0.0, 4.0, -0.0, 4.0, 4.0, -0.0, 0.0, 0.0, -0.0];
    let (room, whys, points) = mended(&ring).expect("three remain");
    assert_eq!(bits(&room), bits(&[0.0, 0.0, 4.0, 0.0, 4.0, 4.0]));
    assert_eq!(whys, [2, RUN, 4, TRAILING, 5, RUN]);
    assert_eq!(bits(&points), bits(&[4.0, -0.0, -0.0, 0.0, 0.0, -0.0]));
    assert_eq!(mended(&room), Ok((room, vec![], vec![])));
}

#[test]
fn the_first_of_the_run_at_the_end_goes_as_trailing() {
    let ring = [1.0, 1.0, 1.0, 1.0, 2.0, 1.0, 2.0, 2.0, 1.0, 1.0, 1.0, 1.0, 1.0, 1.0];
    let (room, whys, _) = mended(&ring).expect("three remain");
    assert_eq!(room, [1.0, 1.0, 2.0, 1.0, 2.0, 2.0]);
    assert_eq!(whys, [1, RUN, 4, TRAILING, 5, RUN, 6, RUN]);
}

#[test]
fn each_refusal_comes_before_every_later_one() {
    let drawn = [0.0, 0.0, 4.0, 0.0, 4.0, 4.0, 0.0, 4.0];
    let wrong = [0.0, 0.0, 4.0, 0.0, f64::NAN, 4.0, 0.0, 4.0];
    let (long, line) = ([7.0; 515], [0.0, 0.0, 4.0, 0.0, 0.0, 0.0]);
    let mut long_wrong = long;
    long_wrong[513] = f64::INFINITY;
    let told: [(&[f64], u32); 14] = [
        (&drawn[..7], 1),        // before 5
        (&wrong[..7], 1),        // before 2
        (&long[..1], 1),         // before 8
        (&long[..5], 1),         // before 11
        (&long, 1),              // before 9
        (&[], 8),                // before 11 and 5
        (&long[..514], 9),       // before 11
        (&long_wrong[..514], 9), // before 2
        (&wrong, 2),             // before 5
        (&wrong[4..6], 2),       // before 11
        (&long[..512], 11),      // before 5
        (&line, 11),             // before 5
        (&drawn[..4], 11),       // before 5
        (&drawn, 5),
    ];
    for (ring, number) in told {
        let place =
            if matches!(number, 1 | 8 | 9) { Refusal::at(number, 0) } else { Refusal::of(number) };
        assert_eq!(mend_ring(ring, &mut [], &mut [], &mut []), Err(place), "{ring:?}");
    }
}

#[test]
fn one_short_room_leaves_all_three_as_they_were() {
    let ring = [0.0, 0.0, 4.0, 0.0, 4.0, 0.0, 4.0, 4.0];
    for (lengths, number) in
        [([6, 2, 2], 0), ([7, 3, 5], 0), ([5, 2, 2], 5), ([6, 1, 2], 5), ([6, 2, 1], 5)]
    {
        let (mut room, mut whys, mut points) =
            (vec![7.5; lengths[0]], vec![9; lengths[1]], vec![7.5; lengths[2]]);
        let answer = mend_ring(&ring, &mut room, &mut whys, &mut points);
        assert_eq!(answer.err().map_or(0, |no| no.number), number);
        if number != 0 {
            let kept = room.iter().chain(&points).all(|&x| x == 7.5);
            assert!(kept && whys.iter().all(|&why| why == 9));
        }
    }
}
