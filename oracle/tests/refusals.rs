//! The refusals of the calls that take polygons, and what rooms hold after them.

use oracle::calls;
use oracle::refusals::Refusal;

const S: [f64; 8] = [0.0, 0.0, 4.0, 0.0, 4.0, 4.0, 0.0, 4.0];
/// The smaller square where it first touches S.
const Q: [f64; 8] = [0.0, -2.0, 2.0, -2.0, 2.0, 0.0, 0.0, 0.0];
const TOLERANCE: f64 = 1e-6;

#[test]
fn contacts_fit_both_rooms_or_none() {
    for (lengths, number) in
        [([24, 12], 0), ([26, 13], 0), ([23, 12], 5), ([24, 11], 5), ([0, 0], 5)]
    {
        let (mut which, mut points) = (vec![9; lengths[0]], vec![7.5; lengths[1]]);
        let answer = calls::find_contacts(&S, &Q, TOLERANCE, &mut which, &mut points);
        assert_eq!(answer.err().map_or(0, |no| no.number), number);
        if number != 0 {
            assert!(which.iter().all(|&w| w == 9) && points.iter().all(|&p| p == 7.5));
        }
    }
    let far: Vec<f64> = Q.iter().map(|x| x - 100.0).collect();
    assert_eq!(calls::find_contacts(&S, &far, TOLERANCE, &mut [], &mut []), Ok(0));
}

#[test]
fn vectors_name_their_contacts() {
    let (mut vectors, mut sources) = ([7.5; 37], [99; 13]);
    let all = calls::compute_translation_vectors(&S, &Q, TOLERANCE, &mut vectors, &mut sources);
    assert_eq!(all, Ok(12));
    assert_eq!(sources, [0, 0, 1, 1, 2, 2, 3, 3, 4, 4, 5, 5, 99]);
    assert_eq!((vectors[..3].to_vec(), vectors[36]), (vec![1.0, 0.0, 2.0], 7.5));
    // Having been at (1, -2), no vector that leads there is left.
    let (visited, mut kept, mut from) = ([1.0, -2.0], [7.5; 36], [99; 12]);
    let reference = (0.0, -2.0);
    let few =
        calls::handle_perfect_fit(&S, &Q, reference, &visited, TOLERANCE, &mut kept, &mut from);
    assert_eq!(few, Ok(9));
    assert_eq!(from[..10], [0, 1, 2, 2, 3, 3, 4, 4, 5, 99]);
    assert_eq!(kept[..3], [-1.0, -0.0, 2.0]);
    assert_eq!(kept[27], 7.5);
}

#[test]
fn a_list_to_simplify_and_visited_positions_have_a_most() {
    let path = vec![0.5; 2 * 10_002];
    let mut room = vec![0.0; 2 * 10_002];
    assert_eq!(calls::simplify_polygon(&path[..20_002], TOLERANCE, &mut room), Ok(10_001));
    assert_eq!(calls::simplify_polygon(&path, TOLERANCE, &mut room), Err(Refusal::at(9, 0)));
    let simplified = calls::simplify_polygon(&path[..20_003], TOLERANCE, &mut room);
    assert_eq!(simplified, Err(Refusal::at(1, 0)));
    assert_eq!(calls::simplify_polygon(&[], TOLERANCE, &mut []), Ok(0));
    let fit = |visited: &[f64]| {
        let at = (0.0, -2.0);
        calls::handle_perfect_fit(&S, &Q, at, visited, TOLERANCE, &mut [0.0; 36], &mut [0; 12])
    };
    assert_eq!(fit(&path[..20_002]), Ok(12));
    assert_eq!(fit(&path), Err(Refusal::at(9, 2)));
    assert_eq!(fit(&path[..20_003]), Err(Refusal::at(1, 2)));
    assert_eq!(fit(&[1e300, f64::NAN]), Err(Refusal::of(2)));
    assert_eq!(fit(&[1e300, -1e300]), Ok(12));
}

#[test]
fn moves_and_positions_need_only_be_finite() {
    let refused = |number| Some(Refusal::of(number));
    let by = |x, y| calls::check_translation_collision(&S, &Q, (x, y), TOLERANCE).err();
    assert_eq!((by(1e300, 0.0), by(f64::MAX, f64::MIN)), (None, None));
    assert_eq!((by(f64::INFINITY, 0.0), by(0.0, f64::NAN)), (refused(2), refused(2)));
    let at = |x| calls::recover_contact(&S, &Q, (x, 0.0), TOLERANCE).err();
    assert_eq!((at(1e300), at(f64::NAN)), (None, refused(2)));
    let at = |x| calls::detect_interlocking_opportunity(&S, &Q, (x, 0.0), 2.0).err();
    assert_eq!((at(1e300), at(f64::NAN)), (refused(3), refused(2)));
}

#[test]
fn selection_takes_all_patterns_but_no_part_of_a_vector() {
    let select =
        |vectors: &[f64]| calls::select_translation_vector(vectors, None, (0.0, 0.0), (0.0, -2.0));
    assert_eq!(select(&[]), Ok(None));
    assert_eq!(select(&[1.0, 2.0]), Err(Refusal::at(1, 0)));
    assert_eq!(select(&[f64::NAN; 6]), Ok(Some(0)));
    assert_eq!(select(&[f64::NAN, 0.0, 1.0, 1.0, 0.0, 1.0, 1.0, 0.0, 1.0]), Ok(Some(1)));
    assert_eq!(select(&[1.0, 0.0, 1e-7, -1.0, 0.0, 1.0]), Ok(Some(1)));
}

/// The first so many numbers of S, again and again.
fn of_length(n: usize) -> Vec<f64> {
    S.iter().cycle().take(n).copied().collect()
}

#[test]
fn lists_are_gone_through_one_after_the_other() {
    let refused = |a: usize, b: usize| {
        let answer = calls::polygons_overlap(&of_length(a), &of_length(b));
        answer.err().map_or((0, 0), |no| (no.number, no.place))
    };
    // Of one list 1 comes first, then 8, then 9.
    for (n, number) in [(1, 1), (5, 1), (513, 1), (515, 1), (0, 8), (4, 8), (514, 9), (600, 9)] {
        assert_eq!(refused(n, 8), (number, 0), "{n}");
        assert_eq!(refused(8, n), (number, 1), "{n}");
        // What the second list is does not matter then.
        for other in [1, 4, 514] {
            assert_eq!(refused(n, other), (number, 0), "{n} and {other}");
        }
    }
    assert_eq!((refused(6, 512), refused(512, 6)), ((0, 0), (0, 0)));
}

#[test]
fn visited_positions_come_third() {
    let refused = |a: usize, b: usize, visited: usize| {
        let (a, b, visited) = (of_length(a), of_length(b), of_length(visited));
        let (at, mut room, mut from) = ((0.0, 0.0), [0.0; 300], [0; 100]);
        let answer =
            calls::handle_perfect_fit(&a, &b, at, &visited, TOLERANCE, &mut room, &mut from);
        answer.err().map_or((0, 0), |no| (no.number, no.place))
    };
    assert_eq!(refused(8, 8, 3), (1, 2));
    assert_eq!(refused(8, 8, 20_003), (1, 2));
    assert_eq!(refused(8, 8, 20_004), (9, 2));
    assert_eq!(refused(8, 514, 3), (9, 1));
    assert_eq!(refused(8, 4, 20_004), (8, 1));
    assert_eq!(refused(7, 514, 20_004), (1, 0));
    assert_eq!(refused(8, 8, 0), (0, 0));
}

#[test]
fn a_ring_may_have_no_vertex_but_not_too_many() {
    for (n, refusal) in [(513, Refusal::at(1, 0)), (514, Refusal::at(9, 0))] {
        let ring = of_length(n);
        assert_eq!(calls::mirror_polygon(&ring, &mut []), Err(refusal));
        assert_eq!(calls::open_ring(&ring, &mut []), Err(refusal));
        assert_eq!(calls::is_simple_polygon(&ring), Err(refusal));
        assert_eq!(calls::signed_area2(&ring), Err(refusal));
        assert_eq!(calls::signed_area_robust(&ring), Err(refusal));
        assert_eq!(calls::ring_distance(&ring, &S[..3]), Err(refusal));
        let second = Refusal { place: 1, ..refusal };
        assert_eq!(calls::ring_distance(&[], &ring), Err(second));
    }
    assert_eq!(calls::signed_area2(&[]), Ok(0.0));
}

#[test]
fn lengths_of_all_lists_come_before_numbers_and_these_before_tolerances() {
    let faulty = [f64::NAN; 8];
    assert_eq!(calls::polygons_overlap(&faulty, &Q[..4]), Err(Refusal::at(8, 1)));
    assert_eq!(calls::polygons_overlap(&faulty, &Q), Err(Refusal::of(2)));
    let within = |a: &[f64]| calls::polygons_overlap_with_tolerance(a, &Q, 0.0);
    assert_eq!(within(&faulty[..5]), Err(Refusal::at(1, 0)));
    assert_eq!(within(&faulty), Err(Refusal::of(2)));
    assert_eq!(within(&S), Err(Refusal::of(3)));
    assert_eq!(calls::polygons_overlap(&S, &Q), Ok(true));
}

#[test]
fn a_place_is_printed_where_one_is_told() {
    for (number, line) in [(1, "refused 1 7"), (2, "refused 2"), (6, "refused 6")] {
        assert_eq!(Refusal::at(number, 7).to_string(), line);
    }
    let told: Vec<u32> = (0..=11).filter(|&number| Refusal::of(number).tells_place()).collect();
    assert_eq!(told, [1, 7, 8, 9, 10]);
}
