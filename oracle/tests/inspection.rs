//! The places that a shift inspects: known answers, each refusal, and the laws of
//! shifts one after the other.

use oracle::inspection::{next_places, Shift, MOST_INSPECTED, MOST_PLACES};
use oracle::refusals::Refusal;

/// What rooms hold before a call.
const HELD: u64 = 99_999;

/// The places of a shift and the following start.
fn shift(n: u64, k: u64, start: u64) -> (Vec<u64>, u64) {
    let mut room = [HELD; 64];
    let Shift { places, following } =
        next_places(n, k, start, &mut room).expect("all is within its bounds");
    assert!(room[places..].iter().all(|&word| word == HELD));
    (room[..places].to_vec(), following)
}

/// So many shifts one after the other.
fn shifts(n: u64, k: u64, start: u64, count: u64) -> Vec<Vec<u64>> {
    let mut from = start;
    let one = |_| {
        let (places, following) = shift(n, k, from);
        from = following;
        places
    };
    (0..count).map(one).collect()
}

/// How often each place of the path stands in these shifts.
fn times(n: u64, shifts: &[Vec<u64>]) -> Vec<u64> {
    let mut times = vec![0; n as usize];
    shifts.iter().flatten().for_each(|&place| times[place as usize] += 1);
    times
}

#[test]
fn five_shifts_of_five_inspect_a_path_of_24() {
    let all = shifts(24, 5, 0, 5);
    assert_eq!(all[..4].concat(), (0..20).collect::<Vec<_>>());
    assert_eq!(all[4], [20, 21, 22, 23, 0]);
    assert_eq!(shift(24, 5, 20).1, 1);
}

#[test]
fn a_short_path_is_inspected_whole_and_the_start_stays() {
    assert_eq!(shift(3, 5, 2), (vec![2, 0, 1], 2));
    assert_eq!(shift(3, 3, 1), (vec![1, 2, 0], 1));
    assert_eq!(shift(1, 64, 0), (vec![0], 0));
}

#[test]
fn each_number_keeps_its_bounds() {
    let told = |n, k, start, room| {
        let mut held = vec![HELD; room];
        let number = next_places(n, k, start, &mut held).map_or_else(|no| no.number, |_| 0);
        assert!(number == 0 || held.iter().all(|&word| word == HELD));
        number
    };
    for (n, number) in [(0, 13), (1, 0), (MOST_PLACES, 0), (MOST_PLACES + 1, 13), (u64::MAX, 13)] {
        assert_eq!(told(n, 1, 0, 1), number, "{n}");
    }
    for (k, number) in [(0, 13), (1, 0), (MOST_INSPECTED, 0), (MOST_INSPECTED + 1, 13)] {
        assert_eq!(told(100, k, 99, 64), number, "{k}");
    }
    for (start, number) in [(0, 0), (99, 0), (100, 13), (u64::MAX, 13)] {
        assert_eq!(told(100, 64, start, 64), number, "{start}");
    }
    for (room, number) in [(0, 5), (4, 5), (5, 0), (6, 0)] {
        assert_eq!(told(24, 5, 0, room), number, "{room}");
        assert_eq!(told(24, 5, 24, room), 13, "{room}");
    }
    assert_eq!(next_places(0, 1, 0, &mut []), Err(Refusal::of(13)));
}

#[test]
fn no_place_is_forgotten_or_inspected_too_often() {
    for n in 1..=12 {
        for k in 1..=14 {
            for start in 0..n {
                let all = shifts(n, k, start, n.div_ceil(k));
                assert!(all
                    .iter()
                    .all(|shift| times(n, &[shift.clone()]).iter().max() == Some(&1)));
                assert!(times(n, &all).iter().all(|&times| times >= 1), "{n} {k} {start}");
            }
            for count in 0..=2 * n {
                let times = times(n, &shifts(n, k, 0, count));
                let [least, most] = [times.iter().min(), times.iter().max()];
                assert!(most <= least.map(|times| times + 1).as_ref(), "{n} {k} {count}");
            }
        }
    }
}
