//! The replay lists hold lists about the bounds of their length in every way, alone
//! and together, and each record tells what is wrong with the first wrong one.

use oracle::replay::{book, clear, drawn, list, paths, rings, sliding, traces};
use oracle::seeded::Seeded;
use std::collections::BTreeSet;

/// What a list's length is.
#[derive(Debug, Clone, Copy, PartialEq, Eq, PartialOrd, Ord)]
enum Way {
    Fine,
    Odd,
    Short,
    Long,
    OddAndShort,
    OddAndLong,
}
use Way::{Fine, Long, Odd, OddAndLong, OddAndShort, Short};

/// How many numbers an entry of a list has, and how many numbers the list has at
/// least and at most.
#[derive(Clone, Copy)]
struct Bounds(usize, usize, usize);

const RING: Bounds = Bounds(2, 0, 512);
const MENDABLE: Bounds = Bounds(2, 2, 512);
const POLYGON: Bounds = Bounds(2, 6, 512);
const PATH: Bounds = Bounds(2, 0, 20_002);
const CHECKED: Bounds = Bounds(2, 6, 20_002);
const LEGS: Bounds = Bounds(2, 4, 20_002);
const VECTORS: Bounds = Bounds(3, 0, usize::MAX);

/// The way of a list of so many numbers with these bounds.
fn way(n: usize, Bounds(width, least, most): Bounds) -> Way {
    match (n.is_multiple_of(width), n < least, n > most) {
        (true, true, _) => Short,
        (true, _, true) => Long,
        (true, ..) => Fine,
        (false, true, _) => OddAndShort,
        (false, _, true) => OddAndLong,
        (false, ..) => Odd,
    }
}

/// A record: its call, its lists with their ways, and what the refusal tells.
struct Met {
    call: u64,
    lists: Vec<Vec<f64>>,
    ways: Vec<Way>,
    told: (u64, u64),
}

impl Met {
    /// A record whose lists, of these lengths, begin at this word: those with
    /// bounds are the call's. The refusal's number and place are at these words.
    fn new(record: &[u64], at: usize, lent: &[(u64, Option<Bounds>)], told: [usize; 2]) -> Self {
        let (mut rest, mut lists, mut ways) = (&record[at..], Vec::new(), Vec::new());
        for &(n, bounds) in lent {
            let (words, others) = rest.split_at(n as usize);
            rest = others;
            if let Some(bounds) = bounds {
                lists.push(words.iter().map(|&word| f64::from_bits(word)).collect());
                ways.push(way(words.len(), bounds));
            }
        }
        Self { call: record[0], lists, ways, told: (record[told[0]], record[told[1]]) }
    }

    /// A record of the list `sliding`.
    fn sliding(record: &[u64]) -> Self {
        let bounds = match record[0] {
            sliding::SELECT => [None, None, Some(VECTORS)],
            sliding::SIMPLIFY => [None, None, Some(PATH)],
            sliding::PERFECT_FIT => [Some(POLYGON), Some(POLYGON), Some(PATH)],
            _ => [Some(POLYGON), Some(POLYGON), None],
        };
        let lent = [0, 1, 2].map(|i| (record[i + 1], bounds[i]));
        Self::new(record, sliding::HEADER, &lent, [7, sliding::PLACE_AT])
    }

    /// A record of the list `rings`.
    fn rings(record: &[u64]) -> Self {
        let bounds = match record[0] {
            rings::RING_DISTANCE => [Some(RING), Some(RING)],
            rings::MIRROR_POLYGON..=rings::SIGNED_AREA_ROBUST => [Some(RING), None],
            rings::MEND_RING => [Some(MENDABLE), None],
            _ => [None; 2],
        };
        let lent = [0, 1].map(|i| (record[i + 1], bounds[i]));
        Self::new(record, rings::HEADER, &lent, [4, 6])
    }

    /// A record of the list `traces`, which has one call.
    fn traces(record: &[u64]) -> Self {
        let lent = [0, 1].map(|i: usize| (record[i], Some(POLYGON)));
        Self { call: 0, ..Self::new(record, traces::HEADER, &lent, [7, 12]) }
    }

    /// A record of the list `paths`, which has one call.
    fn paths(record: &[u64]) -> Self {
        let bounds = [POLYGON, POLYGON, CHECKED].map(Some);
        let lent = [0, 1, 2].map(|i: usize| (record[i], bounds[i]));
        Self { call: 0, ..Self::new(record, paths::HEADER, &lent, [6, 9]) }
    }

    /// A record of the list `clear`: of its third list only a reason, which has a line for
    /// each stationary edge, and a path have bounds.
    fn clear(record: &[u64]) -> Self {
        let lines = 4 * (record[1] as usize / 2);
        let third = match record[0] {
            clear::CHECK_REASON => Some(Bounds(4, lines, lines)),
            clear::CLEAR_PATH => Some(CHECKED),
            _ => None,
        };
        let bounds = [Some(POLYGON), Some(POLYGON), third];
        let lent = [0, 1, 2].map(|i| (record[i + 1], bounds[i]));
        Self::new(record, clear::HEADER, &lent, [6, 10])
    }

    /// A record of the list `drawn`, the same but that a path may have one leg.
    fn drawn(record: &[u64]) -> Self {
        let lines = 4 * (record[1] as usize / 2);
        let third = match record[0] {
            drawn::CHECK_REASON => Some(Bounds(4, lines, lines)),
            drawn::CLEAR_PATH => Some(LEGS),
            _ => None,
        };
        let bounds = [Some(POLYGON), Some(POLYGON), third];
        let lent = [0, 1, 2].map(|i| (record[i + 1], bounds[i]));
        Self::new(record, drawn::HEADER, &lent, [10, 16])
    }

    /// A record of the list with this name.
    fn of(name: &str, record: &[u64]) -> Self {
        match name {
            "sliding" => Self::sliding(record),
            "rings" => Self::rings(record),
            "paths" => Self::paths(record),
            "clear" => Self::clear(record),
            "drawn" => Self::drawn(record),
            _ => Self::traces(record),
        }
    }

    /// The number and the place that its lists ask for.
    fn asked(&self) -> Option<(u64, u64)> {
        let place = self.ways.iter().position(|&way| way != Fine)?;
        let number = match self.ways[place] {
            Short => 8,
            Long => 9,
            _ => 1,
        };
        Some((number, place as u64))
    }

    /// Which of its lists has a number that is none, if one has.
    fn wrong(&self) -> Option<usize> {
        self.lists.iter().position(|list| list.iter().any(|x| x.is_nan()))
    }

    /// How long its lists are.
    fn lengths(&self) -> Vec<usize> {
        self.lists.iter().map(Vec::len).collect()
    }
}

/// The records that are stored of the list with this name.
fn stored(name: &str) -> Vec<Met> {
    let list = list(name).expect("it is a list");
    (list.stored)().iter().map(|record| Met::of(name, record)).collect()
}

/// Records of a long run of it, with all that such a run goes through.
fn long(name: &str) -> Vec<Met> {
    let (list, seeded) = (list(name).expect("it is a list"), &mut Seeded::new(5));
    (0..5_000).map(|place| Met::of(name, &(list.long)(seeded, place))).collect()
}

/// What this says of the records of a call.
fn all<T: Ord>(records: &[Met], call: u64, of: impl Fn(&Met) -> T) -> BTreeSet<T> {
    records.iter().filter(|record| record.call == call).map(of).collect()
}

/// Every two of these.
fn pairs<T: Copy>(of: &[T]) -> Vec<Vec<T>> {
    of.iter().flat_map(|&a| of.iter().map(move |&b| vec![a, b])).collect()
}

/// The calls that take two lists of vertices, by the name of their list, and the
/// ways that each can meet.
fn calls_with_two_lists() -> Vec<(&'static str, u64, &'static [Way])> {
    let polygons: &[Way] = &[Fine, Odd, Short, Long];
    let others = [sliding::SELECT, sliding::PERFECT_FIT, sliding::SIMPLIFY];
    let sliding = (0..=sliding::EXPLAIN).filter(|call| !others.contains(call));
    let mut calls: Vec<_> = sliding.map(|call| ("sliding", call, polygons)).collect();
    calls.extend([("traces", 0, polygons), ("rings", rings::RING_DISTANCE, &[Fine, Odd, Long])]);
    calls
}

#[test]
fn every_record_tells_its_first_wrong_list() {
    for name in ["rings", "sliding", "traces", "paths", "clear", "drawn"] {
        for record in stored(name).iter().chain(&long(name)) {
            let (call, told) = (record.call, record.told);
            match record.asked() {
                Some(asked) => assert_eq!(told, asked, "{name} {call}"),
                None if name == "drawn" && told == (14, 0) => {}
                None => assert!(matches!(told, (0 | 2..=6 | 11, 0)), "{name} {call} {told:?}"),
            }
        }
    }
}

#[test]
fn every_two_ways_are_met_by_every_call() {
    let records = ["rings", "sliding", "traces"].map(|name| (name, stored(name), long(name)));
    let calls = calls_with_two_lists();
    assert_eq!(calls.len(), 11);
    for (name, call, ways) in calls {
        let (_, stored, long) = records.iter().find(|list| list.0 == name).expect("its list");
        let met = all(stored, call, |record| record.ways.clone());
        assert!(pairs(ways).iter().all(|pair| met.contains(pair)), "{name} {call}: {met:?}");
        // With a wrong number in neither, in the first and in the second.
        let met = all(long, call, |record| (record.ways.clone(), record.wrong()));
        for pair in pairs(ways) {
            for wrong in [None, Some(0), Some(1)] {
                assert!(met.contains(&(pair.clone(), wrong)), "{name} {call}: {pair:?} {wrong:?}");
            }
        }
        let met = all(long, call, Met::lengths);
        let lengths = [0, 1, 3, 4, 5, 6, 7, 8, 511, 512, 513, 514, 515];
        assert!(pairs(&lengths).iter().all(|pair| met.contains(pair)), "{name} {call}");
    }
}

#[test]
fn stored_calls_meet_every_wrong_number_and_bound_together() {
    let mut records = stored("sliding");
    records.retain(|record| record.lists.len() > 1);
    let ways: BTreeSet<_> = records.iter().map(|met| (&met.ways[..2], met.wrong())).collect();
    for pair in pairs(&[Fine, Odd, Short, Long]) {
        for wrong in [None, Some(0), Some(1)] {
            assert!(ways.contains(&(&pair, wrong)), "{pair:?} {wrong:?}");
        }
    }
    let lengths: BTreeSet<_> =
        records.iter().map(|met| [met.lists[0].len(), met.lists[1].len()]).collect();
    for n in [0, 1, 3, 4, 5, 6, 7, 511, 512, 513, 514, 515] {
        assert!(lengths.contains(&[n, 8]) && lengths.contains(&[8, n]), "{n}");
    }
}

#[test]
fn visited_positions_are_met_in_every_way_beside_the_polygons() {
    let sets = [stored("sliding"), long("sliding")]
        .map(|records| all(&records, sliding::PERFECT_FIT, |record| record.ways.clone()));
    let beside: [&[Way]; 2] = [&[Fine, Odd], &[Fine, Odd, Long, OddAndLong]];
    for (met, visited) in sets.iter().zip(beside) {
        for pair in pairs(&[Fine, Odd, Short, Long]) {
            for &third in visited {
                assert!(met.contains(&[&pair[..], &[third]].concat()), "{pair:?} {third:?}");
            }
        }
    }
}

#[test]
fn paths_to_check_are_met_in_every_way_beside_the_polygons() {
    let every = [Fine, Odd, Short, Long, OddAndShort, OddAndLong];
    let [stored, long] = [stored("paths"), long("paths")];
    let [met, more] = [&stored, &long].map(|records| all(records, 0, |met| met.ways.clone()));
    for pair in pairs(&[Fine, Odd, Short, Long]) {
        assert!(met.contains(&[&pair[..], &[Odd]].concat()), "{pair:?}");
        for third in every {
            let ways = [&pair[..], &[third]].concat();
            assert!(more.contains(&ways), "{ways:?}");
            let few = pair.contains(&Long) || matches!(third, Long | OddAndLong);
            assert!(few || met.contains(&ways), "{ways:?}");
        }
    }
    // With a wrong number in neither polygon, in the first and in the second.
    let wrong = all(&long, 0, |met| (met.ways.clone(), met.wrong()));
    for pair in pairs(&[Fine, Odd, Short, Long]) {
        for which in [None, Some(0), Some(1)] {
            assert!(wrong.contains(&([&pair[..], &[Short]].concat(), which)), "{pair:?}");
        }
    }
    let polygons = all(&long, 0, |met| met.lengths()[..2].to_vec());
    let lengths = [0, 1, 3, 4, 5, 6, 7, 8, 511, 512, 513, 514, 515];
    assert!(pairs(&lengths).iter().all(|pair| polygons.contains(pair)));
    let lengths = [0, 1, 2, 3, 4, 5, 20_002, 20_003, 20_004, 20_005];
    let paths = all(&long, 0, |met| met.lengths()[2]);
    assert!(lengths.iter().all(|n| paths.contains(n)), "{paths:?}");
    let paths = all(&stored, 0, |met| met.lengths()[2]);
    assert!([0, 1, 2, 3, 4, 5, 6, 20_002, 20_004].iter().all(|n| paths.contains(n)), "{paths:?}");
}

/// That the lists of moves, reasons and paths are met in every way together, in a list
/// whose calls are those of `clear` in their order.
fn met_together(stored: &[Met], long: &[Met]) {
    for (call, thirds) in [
        (clear::CLEAR_MOVE, &[][..]),
        (clear::CHECK_REASON, &[Fine, Short, Long, OddAndShort, OddAndLong]),
        (clear::CLEAR_PATH, &[Fine, Odd, Short, OddAndShort]),
    ] {
        let [met, more] =
            [stored, long].map(|records| all(records, call, |record| record.ways.clone()));
        for pair in pairs(&[Fine, Odd, Short, Long]) {
            let few = pair.contains(&Long);
            let alone = |met: &BTreeSet<Vec<Way>>| met.iter().any(|ways| ways[..2] == pair);
            assert!(alone(&more) && (few || alone(&met)), "{call} {pair:?}");
            // Beside another stationary polygon a reason of one length is of another way.
            let fine = pair[0] == Fine || call != clear::CHECK_REASON;
            for &third in thirds.iter().filter(|_| fine) {
                let ways = [&pair[..], &[third]].concat();
                assert!(more.contains(&ways) && (few || met.contains(&ways)), "{call} {ways:?}");
            }
        }
        let lengths = all(long, call, |record| record.lengths()[..2].to_vec());
        for n in [0, 1, 3, 4, 5, 6, 7, 8, 511, 512, 513, 514, 515] {
            let met = |of: [usize; 2]| lengths.contains(of.as_slice());
            assert!(met([8, n]) && met([n, 8]), "{call} {n}");
        }
    }
    let paths = all(stored, clear::CLEAR_PATH, |record| record.lengths()[2]);
    assert!([20_002, 20_004].iter().all(|n| paths.contains(n)), "{paths:?}");
    let paths = all(long, clear::CLEAR_PATH, |record| record.lengths()[2]);
    assert!([20_003, 20_004].iter().all(|n| paths.contains(n)), "{paths:?}");
}

#[test]
fn lists_of_whole_moves_are_met_in_every_way_together() {
    met_together(&stored("clear"), &long("clear"));
}

#[test]
fn lists_of_drawn_moves_are_met_in_every_way_together() {
    let numbers = [drawn::CLEAR_MOVE, drawn::CHECK_REASON, drawn::CLEAR_PATH];
    assert_eq!(numbers, [clear::CLEAR_MOVE, clear::CHECK_REASON, clear::CLEAR_PATH]);
    met_together(&stored("drawn"), &long("drawn"));
}

#[test]
fn calls_with_one_list_meet_every_way() {
    let records = [stored("rings"), long("rings")];
    for call in (4..=9).filter(|&call| call != rings::RING_DISTANCE) {
        for records in &records {
            let met = all(records, call, |record| (record.ways[0], record.wrong().is_some()));
            for way in [Fine, Odd, Long, OddAndLong] {
                assert!(met.contains(&(way, false)), "{call} {way:?}");
            }
            assert!(met.contains(&(Odd, true)) && met.contains(&(Long, true)), "{call}");
        }
    }
    let lengths = all(&long("sliding"), sliding::SIMPLIFY, |record| record.lengths()[0]);
    assert!([0, 1, 2, 3, 20_002, 20_003, 20_004].iter().all(|n| lengths.contains(n)));
}

#[test]
fn selections_are_met_of_no_to_seven_numbers() {
    let records = sliding::records();
    for n in 0..8 {
        let of = |r: &&Vec<u64>| r[0] == sliding::SELECT && r[3] == n;
        let told: BTreeSet<_> =
            records.iter().filter(of).map(|r| (r[7], r[sliding::PLACE_AT])).collect();
        assert!(told.into_iter().eq([(u64::from(n % 3 != 0), 0)]), "{n}");
    }
}

/// A record of writing a book: the counts, how many numbers are lent, and what the
/// refusal tells.
struct Written {
    counts: Vec<u64>,
    numbers: u64,
    parts: u64,
    told: (u64, u64),
}

/// The records of writing among these.
fn written(records: Vec<Vec<u64>>) -> Vec<Written> {
    let of = |record: Vec<u64>| {
        let counts =
            book::HEADER + record[1] as usize..book::HEADER + (record[1] + record[2]) as usize;
        Written {
            counts: record[counts].to_vec(),
            numbers: record[1],
            parts: record[8],
            told: (record[5], record[7]),
        }
    };
    records.into_iter().filter(|record| record[0] == book::WRITE).map(of).collect()
}

/// The records of writing in a long run, with all the counts that it goes through.
fn long_written() -> Vec<Written> {
    let (list, seeded) = (list("book").expect("it is a list"), &mut Seeded::new(5));
    written((0..5_000).map(|place| (list.long)(seeded, place)).collect())
}

/// The number and the place that these counts ask for with so many numbers and so
/// many parts.
fn asked(counts: &[u64], numbers: u64, parts: u64) -> Option<(u64, u64)> {
    let rings = counts.len() as u64;
    let fault = |n: u64, least: u64, most: u64| match n {
        _ if n < least => Some(8),
        _ if n > most => Some(9),
        _ => None,
    };
    if let Some(number) = fault(rings, 1, 8) {
        return Some((number, rings));
    }
    let ring = |(i, &n): (usize, &u64)| Some((fault(n, 3, 256)?, i as u64));
    let sum = || (numbers != 2 * counts.iter().sum::<u64>()).then_some((1, rings));
    let all = || (parts != rings).then_some((1, rings));
    counts.iter().enumerate().find_map(ring).or_else(sum).or_else(all)
}

#[test]
fn every_book_record_tells_its_first_wrong_count() {
    for Written { counts, numbers, parts, told } in
        written(book::records()).into_iter().chain(long_written())
    {
        match asked(&counts, numbers, parts) {
            Some(asked) => assert_eq!(told, asked, "{counts:?} {numbers}"),
            None => assert!(matches!(told, (0 | 2 | 4, 0)), "{counts:?} {told:?}"),
        }
    }
}

/// Counts of two or three rings, of which two in every two places are of these
/// and the other is fine.
fn faulty_counts(of: &[u64]) -> BTreeSet<Vec<u64>> {
    let mut all = BTreeSet::new();
    for (rings, places) in [(2, [0, 1]), (3, [0, 1]), (3, [0, 2]), (3, [1, 2])] {
        for pair in pairs(of) {
            let mut counts = vec![3; rings];
            (counts[places[0]], counts[places[1]]) = (pair[0], pair[1]);
            all.insert(counts);
        }
    }
    all
}

/// That these counts are met with a list that adds up, the largest count taken for
/// -1, with one of a number or a vertex more or less, and with none.
fn met_with_every_sum(met: &BTreeSet<(Vec<u64>, u64)>, counts: &[u64]) {
    let value = |n: u64| if n == u64::from(u32::MAX) { -1 } else { n as i64 };
    let sum: i64 = counts.iter().map(|&n| 2 * value(n)).sum();
    for numbers in [sum - 2, sum - 1, sum, sum + 1, sum + 2, 0] {
        let numbers = numbers.max(0) as u64;
        assert!(met.contains(&(counts.to_vec(), numbers)), "{counts:?} {numbers}");
    }
}

#[test]
fn every_two_wrong_counts_are_met_with_every_sum() {
    let set = |records: Vec<Written>| -> BTreeSet<_> {
        records.into_iter().map(|record| (record.counts, record.numbers)).collect()
    };
    let most = u64::from(u32::MAX);
    let (stored, long) = (set(written(book::records())), set(long_written()));
    let (few, all) = (faulty_counts(&[3, 0, 2, most]), faulty_counts(&[3, 0, 2, 257, most]));
    assert_eq!((few.len(), all.len()), (16 + 37, 25 + 61));
    few.iter().for_each(|counts| met_with_every_sum(&stored, counts));
    all.iter().for_each(|counts| met_with_every_sum(&long, counts));
    assert!(all.iter().all(|counts| stored.contains(&(counts.clone(), 0))));
    for rings in [0, 1, 8, 9, 16] {
        met_with_every_sum(&stored, &vec![3; rings]);
        met_with_every_sum(&stored, &vec![2; rings]);
    }
}
