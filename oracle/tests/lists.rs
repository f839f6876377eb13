//! The replay lists in the repository are the ones that the oracle writes, keep
//! their bounds, and hold every outcome there is.

use oracle::replay::{
    book, bytes, clear, discs, drawn, grid, list, paths, places, rings, scalars, sliding, traces,
    whole, wkb,
};
use oracle::seeded::Seeded;
use std::collections::BTreeSet;

/// Most bytes of a stored list.
const MOST_BYTES: usize = 2_000_000;

/// The list that a replay program of the repository reads.
fn stored(program: &str) -> Vec<u8> {
    let place = format!("{}/../crates/{program}/stdin", env!("CARGO_MANIFEST_DIR"));
    std::fs::read(&place).unwrap_or_else(|fault| panic!("{place}: {fault}"))
}

/// That the stored list is the one the oracle writes, and not too long.
fn as_written(program: &str, records: Vec<Vec<u64>>) {
    let list = stored(program);
    assert!(list == bytes(&records.concat()));
    assert!(list.len() < MOST_BYTES, "{}", list.len());
}

/// Records of a long run of the list with this name.
fn long(name: &str, count: u64) -> Vec<Vec<u64>> {
    let list = list(name).expect("the list has a long form");
    let seeded = &mut Seeded::new(11);
    (0..count).map(|place| (list.long)(seeded, place)).collect()
}

/// The words of a record as lengths.
fn lengths<const N: usize>(record: &[u64], places: [usize; N]) -> [usize; N] {
    places.map(|place| record[place] as usize)
}

#[test]
fn scalars_are_as_written() {
    as_written("replay_scalars", scalars::records());
}

#[test]
fn rings_are_as_written() {
    as_written("replay_rings", rings::records());
}

#[test]
fn ring_records_keep_their_bounds() {
    for record in rings::records().into_iter().chain(long("rings", 4_000)) {
        let [a, b, room] = [1, 2, 3].map(|place| record[place] as usize);
        assert!(a <= 600 && b <= 600 && room <= 600);
        let common = rings::HEADER + a + b + 2 * room;
        if record[0] == rings::MEND_RING {
            let dropped = record[common + b] as usize;
            assert!(dropped <= 600);
            assert_eq!(record.len(), common + b + 1 + 2 * dropped);
        } else {
            assert_eq!(record.len(), common);
        }
    }
}

#[test]
fn discs_are_as_written() {
    as_written("replay_discs", discs::records());
}

#[test]
fn disc_records_keep_their_bounds() {
    for record in discs::records().into_iter().chain(long("discs", 4_000)) {
        let [room] = lengths(&record, [1]);
        assert!(room <= discs::MOST_ROOM);
        assert_eq!(record.len(), discs::HEADER + 2 * room);
    }
}

#[test]
fn whole_is_as_written() {
    as_written("replay_whole", whole::records());
}

#[test]
fn whole_records_keep_their_bounds() {
    for record in whole::records().into_iter().chain(long("whole", 4_000)) {
        let length = record[1] as usize;
        assert!(length <= 600);
        assert_eq!(record.len(), whole::HEADER + length);
        let numbers = record[whole::HEADER..].iter().map(|&word| word as i64);
        assert!(numbers.into_iter().all(|number| i32::try_from(number).is_ok()));
    }
}

#[test]
fn clear_is_as_written() {
    as_written("replay_clear", clear::records());
}

#[test]
fn clear_records_keep_their_bounds_and_meet_every_outcome() {
    for records in [clear::records(), long("clear", 4_000)] {
        let mut met = BTreeSet::new();
        for record in records {
            let [a, b, third] = lengths(&record, [1, 2, 3]);
            assert!(a <= clear::MOST_POLYGON && b <= clear::MOST_POLYGON);
            let most =
                if record[0] == clear::CLEAR_PATH { clear::MOST_PATH } else { clear::MOST_REASON };
            assert!(third <= most);
            let exit = if record[0] == clear::CLEAR_MOVE { third } else { 0 };
            assert_eq!(record.len(), clear::HEADER + a + b + third + exit);
            let numbers = record[clear::HEADER..].iter().map(|&word| word as i64);
            assert!(numbers.into_iter().all(|number| i32::try_from(number).is_ok()));
            met.extend((clear::LIST.counted)(&record));
        }
        for call in ["0 clear_move", "1 check_reason", "2 clear_path"] {
            let refusals = [1, 2, 8, 9].map(|number| format!("refusal {number}"));
            let grounds = ["clear", "edge", "enclosed"].map(str::to_string);
            for outcome in grounds.into_iter().chain(refusals) {
                assert!(met.contains(&format!("{call}: {outcome}")), "{call} {outcome}");
            }
        }
        assert!(met.contains("0 clear_move: refusal 5"));
    }
}

#[test]
fn whole_moves_are_met_that_end_at_every_edge_and_whole_paths_at_every_leg() {
    let records = clear::records();
    let met = |call: u64, n: u64, place: usize| -> BTreeSet<u64> {
        let of = |r: &&Vec<u64>| r[0] == call && r[6] == 0 && r[7] == 1;
        let of = records.iter().filter(of);
        of.filter(|r| n == if call == clear::CLEAR_PATH { r[3] } else { r[1] } / 2)
            .map(|r| r[place])
            .collect()
    };
    assert!(met(clear::CLEAR_MOVE, 4, 9).into_iter().eq(0..4));
    assert!(met(clear::CHECK_REASON, 4, 9).into_iter().eq(0..4));
    assert!(met(clear::CLEAR_PATH, 4, 8).into_iter().eq(0..4));
    assert!(met(clear::CLEAR_PATH, 10_001, 8).contains(&10_000));
}

#[test]
fn book_is_as_written() {
    as_written("replay_book", book::records());
}

#[test]
fn places_are_as_written() {
    as_written("replay_places", places::records());
}

#[test]
fn place_records_keep_their_bounds_and_meet_every_outcome() {
    for records in [places::records(), long("places", 4_000)] {
        let mut met = BTreeSet::new();
        for record in records {
            let room = record[3] as usize;
            assert!(room <= 80);
            assert_eq!(record.len(), places::HEADER + 2 * room);
            met.extend((places::LIST.counted)(&record));
        }
        let ends = ["within the path", "up to the last place", "round the end"];
        for outcome in ["refusal 0", "refusal 5", "refusal 13"].into_iter().chain(ends) {
            assert!(met.contains(&format!("next_places: {outcome}")), "{outcome}");
        }
    }
}

#[test]
fn drawn_is_as_written() {
    as_written("replay_drawn", drawn::records());
}

/// The bounds of a record of a drawn move, and what it is counted as.
fn drawn_counted(record: &[u64]) -> Vec<String> {
    let [call] = lengths(record, [0]);
    let [a, b, third] = lengths(record, [1, 2, 3]);
    assert!(a <= drawn::MOST_POLYGON && b <= drawn::MOST_POLYGON);
    let path = call as u64 == drawn::CLEAR_PATH;
    assert!(third <= if path { drawn::MOST_PATH } else { drawn::MOST_REASON });
    let exit = if call as u64 == drawn::CLEAR_MOVE { third } else { 0 };
    assert_eq!(record.len(), drawn::HEADER + a + b + third + exit);
    let integers = if path { &[][..] } else { &record[drawn::HEADER + a + b..] };
    assert!(integers.iter().all(|&word| i32::try_from(word as i64).is_ok()));
    assert!([8, 9].iter().all(|&place| u32::try_from(record[place]).is_ok()));
    (drawn::LIST.counted)(record)
}

#[test]
fn drawn_records_keep_their_bounds_and_meet_every_outcome() {
    let (stored, long) = (drawn::records(), long("drawn", 8_000));
    for records in [&stored, &long] {
        let met: BTreeSet<String> =
            records.iter().flat_map(|record| drawn_counted(record)).collect();
        for call in ["0 clear_move", "1 check_reason", "2 clear_path"] {
            let refusals = [1, 2, 3, 8, 9, 14].map(|number| format!("refusal {number}"));
            let grounds = ["clear", "edge", "enclosed"].map(str::to_string);
            for outcome in grounds.into_iter().chain(refusals) {
                assert!(met.contains(&format!("{call}: {outcome}")), "{call} {outcome}");
            }
        }
        assert!(met.contains("0 clear_move: refusal 5"));
    }
    // Every how decides: that a move is clear, and that it is enclosed.
    let met: BTreeSet<String> = stored.iter().flat_map(|record| drawn_counted(record)).collect();
    for how in 0..=20 {
        for told in ["clear", "enclosed"] {
            assert!(met.contains(&format!("clear_move, how {how:2}: {told}")), "{how} {told}");
        }
    }
}

#[test]
fn drawn_records_tell_every_depth_edge_and_leg() {
    let records = drawn::records();
    let told = |call: u64, ground: u64, place: usize| -> BTreeSet<u64> {
        let of = |r: &&Vec<u64>| r[0] == call && r[10] == 0 && r[11] == ground;
        records.iter().filter(of).map(|r| r[place]).collect()
    };
    for call in [drawn::CLEAR_MOVE, drawn::CHECK_REASON, drawn::CLEAR_PATH] {
        assert!(told(call, 0, 12).into_iter().eq([3, 5, 7]), "{call}");
        assert!((0..4).all(|edge| told(call, 1, 15).contains(&edge)), "{call}");
    }
    assert!((0..4).all(|leg| told(drawn::CLEAR_PATH, 1, 14).contains(&leg)));
    assert!(told(drawn::CLEAR_PATH, 1, 14).contains(&10_000));
    assert!(told(drawn::CLEAR_PATH, 2, 14).len() >= 2);
}

#[test]
fn grids_are_as_written() {
    as_written("replay_grid", grid::records());
}

#[test]
fn grid_records_keep_their_bounds_and_meet_every_outcome() {
    for (records, numbers) in [
        (grid::records(), &[0, 1, 2, 3, 5, 9, 14][..]),
        (long("grid", 4_000), &[0, 1, 2, 3, 5, 14][..]),
    ] {
        let mut met = BTreeSet::new();
        for record in records {
            let [n, room] = lengths(&record, [0, 2]);
            assert!(n <= grid::MOST && room <= grid::MOST);
            assert_eq!(record.len(), grid::HEADER + n + 2 * room);
            met.extend((grid::LIST.counted)(&record));
        }
        let refusals = numbers.iter().map(|number| format!("refusal {number}"));
        let others = ["a tie", "off the grid by less than half"].map(str::to_string);
        for outcome in refusals.chain(others) {
            assert!(met.contains(&format!("to_grid: {outcome}")), "{outcome}");
        }
    }
}

#[test]
fn paths_are_as_written() {
    as_written("replay_paths", paths::records());
}

#[test]
fn path_records_keep_their_bounds_and_meet_every_outcome() {
    for records in [paths::records(), long("paths", 4_000)] {
        let mut met = BTreeSet::new();
        for record in records {
            let [a, b, path] = lengths(&record, [0, 1, 2]);
            assert!(a <= paths::MOST_POLYGON && b <= paths::MOST_POLYGON);
            assert!(path <= paths::MOST_PATH);
            assert_eq!(record.len(), paths::HEADER + a + b + path);
            met.extend((paths::LIST.counted)(&record));
        }
        let faults = ["no contact at a point", "a leg blocked", "the last leg blocked"];
        let refusals = [1, 2, 3, 8, 9].map(|number| format!("refusal {number}"));
        let told = ["accepted"].iter().chain(&faults).map(|told| told.to_string());
        for outcome in told.chain(refusals) {
            assert!(met.contains(&format!("check_path: {outcome}")), "{outcome}");
        }
    }
}

/// The fault and the index of each stored path that is not refused, with its points.
fn judged() -> Vec<([u64; 2], u64)> {
    let answered = paths::records().into_iter().filter(|record| record[6] == 0);
    answered.map(|record| ([record[7], record[8]], record[2] / 2)).collect()
}

#[test]
fn paths_have_a_fault_at_every_place() {
    let judged = judged();
    for index in 0..12 {
        assert!(judged.contains(&([1, index], 12)), "point {index}");
        assert!(index == 11 || judged.contains(&([2, index], 12)), "leg {index}");
    }
    for points in 3..12 {
        assert!(judged.contains(&([2, points - 1], points)), "the last leg of {points}");
    }
    assert!(judged.contains(&([2, 10_000], 10_001)));
    assert!(judged.contains(&([0, 0], 3)));
}

#[test]
fn paths_are_met_whose_fault_depends_on_a_winding() {
    let records = paths::records();
    // The lists of a record, with one of its polygons turned round.
    let turned = |record: &[u64], which: usize| {
        let [a, b, path] = lengths(record, [0, 1, 2]);
        let (from, n) = if which == 0 { (paths::HEADER, a) } else { (paths::HEADER + a, b) };
        let ring: Vec<u64> =
            record[from..from + n].chunks_exact(2).rev().flatten().copied().collect();
        let lists = paths::HEADER + a + b + path;
        [&record[paths::HEADER..from], &ring, &record[from + n..lists]].concat()
    };
    for which in [0, 1] {
        let depends = |record: &&Vec<u64>| {
            let (lists, told) = (turned(record, which), &record[7..9]);
            let same =
                |other: &&Vec<u64>| other[..7] == record[..7] && other[paths::HEADER..] == lists;
            records.iter().find(same).is_some_and(|other| told != &other[7..9])
        };
        assert!(records.iter().any(|record| record[6] == 0 && depends(&record)), "{which}");
    }
}

#[test]
fn wkb_is_as_written() {
    as_written("replay_wkb", wkb::records());
}

#[test]
fn sliding_is_as_written() {
    as_written("replay_sliding", sliding::records());
}

#[test]
fn traces_are_as_written() {
    as_written("replay_traces", traces::records());
}

#[test]
fn book_records_keep_their_bounds() {
    for record in book::records().into_iter().chain(long("book", 4_000)) {
        let [a, b, room, counts, parts] = lengths(&record, [1, 2, 3, 4, 8]);
        let rest = if record[0] == book::WRITE {
            assert!(a <= 4_200 && b <= 16 && parts <= 16 && room <= 33_000 && counts == 0);
            a + b + parts + 2 * room.div_ceil(8)
        } else {
            assert!(a <= 33_000 && b == 0 && room <= 4_200 && counts <= 16 && parts <= 16);
            a.div_ceil(8) + 2 * (room + counts + parts)
        };
        assert_eq!(record.len(), book::HEADER + rest);
        assert_eq!(record[9..book::HEADER], [0; 3]);
    }
}

#[test]
fn wkb_records_keep_their_bounds() {
    for record in wkb::records().into_iter().chain(long("wkb", 20_000)) {
        let [lent, room] = lengths(&record, [1, 2]);
        let rest = if record[0] == wkb::WRITE {
            assert!(lent <= 600 && room <= 4_200);
            lent + 2 * room.div_ceil(8)
        } else {
            assert!(lent <= 4_200 && room <= 600);
            lent.div_ceil(8) + 2 * room
        };
        assert_eq!(record.len(), wkb::HEADER + rest);
    }
}

#[test]
fn sliding_records_keep_their_bounds() {
    for record in sliding::records().into_iter().chain(long("sliding", 4_000)) {
        let [a, b, list, extra, one, two] = lengths(&record, [1, 2, 3, 4, 5, 6]);
        assert!(a <= 600 && b <= 600 && list <= 20_100 && extra <= 8);
        assert!(one <= sliding::MOST_ROOM && two <= sliding::MOST_ROOM);
        assert_eq!(record.len(), sliding::HEADER + a + b + list + extra + 2 * (one + two));
    }
}

#[test]
fn trace_records_keep_their_bounds() {
    for record in traces::records().into_iter().chain(long("traces", 2_000)) {
        let [a, b, work, result] = lengths(&record, [0, 1, 2, 3]);
        assert!(a <= 600 && b <= 600);
        assert!(work <= traces::MOST_ROOM && result <= traces::MOST_ROOM);
        assert_eq!(record.len(), traces::HEADER + a + b + 2 * (work + result));
        assert_eq!(record[13..traces::HEADER], [0; 3]);
    }
}

/// The checks of a book's reader, in the order of docs/SCOPE.md.
#[derive(Debug, PartialEq, Eq, PartialOrd, Ord)]
enum Check {
    Length,
    RingCount,
    EntryOffset,
    RingOffset,
    Vertices,
    RingsEnd,
    Coordinate,
    Reading,
}

/// Which check a book of this record failed, told from the place and the file.
fn failed(record: &[u64]) -> Check {
    let (length, place) = (record[1] as usize, record[7] as usize);
    let file = bytes(&record[book::HEADER..]);
    let field = |at: usize| u32::from_le_bytes([0, 1, 2, 3].map(|i| file[at + i])) as usize;
    if !(68..=32_872).contains(&length) {
        return Check::Length;
    }
    let entries = (length - 8).checked_sub(12 * field(length - 8));
    if place == length - 8 {
        Check::RingCount
    } else if place == length - 4 && entries == Some(field(length - 4)) {
        Check::RingsEnd
    } else if place == length - 4 {
        Check::EntryOffset
    } else if place >= entries.expect("the entries are in the file") {
        let entry = (length - 8 - place) % 12;
        assert!(entry == 0 || entry == 8, "a part is no fault");
        if entry == 0 {
            Check::RingOffset
        } else {
            Check::Vertices
        }
    } else {
        let bits = record[book::HEADER + place / 8];
        if f64::from_bits(bits).abs() <= 1e6 && bits != 1 << 63 {
            Check::Reading
        } else {
            Check::Coordinate
        }
    }
}

#[test]
fn books_are_refused_in_every_way() {
    let records = book::records();
    let met: BTreeSet<_> = records.iter().map(|record| (record[0], record[5])).collect();
    let write = [0, 1, 2, 4, 8, 9].map(|number| (book::WRITE, number));
    let read = [0, 4, 7].map(|number| (book::READ, number));
    assert!(met.into_iter().eq(write.into_iter().chain(read)));
    let failed: BTreeSet<_> =
        records.iter().filter(|record| record[5] == 7).map(|record| failed(record)).collect();
    assert_eq!(failed.len(), 8, "{failed:?}");
    for rings in 1..=8 {
        assert!(records.iter().any(|record| record[0] == book::READ && record[6] == rings));
        assert!(records.iter().any(|record| record[..3] == [book::WRITE, 6 * rings, rings]));
    }
    for length in [68, 32_872] {
        assert!(records.iter().any(|record| record[0] == book::WRITE && record[6] == length));
        assert!(records.iter().any(|r| r[..2] == [book::READ, length] && r[5] == 0));
    }
}

#[test]
fn each_sliding_call_is_refused_and_answers() {
    let records = sliding::records();
    let met: BTreeSet<_> = records.iter().map(|record| (record[0], record[7])).collect();
    let numbers = |call: u64| -> &[u64] {
        match call {
            0..=2 => &[0, 1, 2, 3, 5, 8, 9],
            3 => &[0, 1],
            7 | 9 => &[0, 1, 2, 8, 9],
            10 => &[0, 1, 2, 3, 5, 9],
            _ => &[0, 1, 2, 3, 8, 9],
        }
    };
    for call in 0..=11 {
        let of_call = met.iter().filter(|pair| pair.0 == call).map(|pair| &pair.1);
        assert!(of_call.eq(numbers(call)), "call {call}");
        let found = |some: bool| {
            let is = |r: &&Vec<u64>| r[0] == call && r[7] == 0 && (r[8] != 0) == some;
            records.iter().any(|record| is(&record))
        };
        assert!(call == sliding::START || (found(true) && found(false)), "call {call}");
    }
}

#[test]
fn each_call_on_rings_is_refused_and_answers() {
    let met: BTreeSet<_> = rings::records().iter().map(|record| (record[0], record[4])).collect();
    let numbers = |call: u64| -> &[u64] {
        match call {
            rings::MIRROR_POLYGON | rings::OPEN_RING => &[0, 1, 2, 5, 9],
            rings::IS_SIMPLE_POLYGON..=rings::SIGNED_AREA_ROBUST => &[0, 1, 2, 9],
            rings::POINT_ON_SEGMENT => &[0, 2, 3],
            rings::MEND_RING => &[0, 1, 2, 5, 8, 9, 11],
            _ => &[0, 2],
        }
    };
    for call in 0..=14 {
        let of_call = met.iter().filter(|pair| pair.0 == call).map(|pair| &pair.1);
        assert!(of_call.eq(numbers(call)), "call {call}");
    }
}

#[test]
fn feet_sit_at_both_ends_and_between() {
    let records = rings::records();
    let feet = records.iter().filter(|r| r[0] == rings::PROJECTED_FOOT && r[4] == 0);
    let met: BTreeSet<_> = feet.map(|record| record[5]).collect();
    assert!(met.into_iter().eq([0, 1, 2]));
}

#[test]
fn each_call_in_whole_numbers_is_refused_and_answers() {
    let records = whole::records();
    let met: BTreeSet<_> = records.iter().map(|record| (record[0], record[2])).collect();
    let answers: BTreeSet<_> = records
        .iter()
        .filter(|record| record[2] == 0 && record[0] != whole::SIGNED_AREA2)
        .map(|record| (record[0], record[3] as i64))
        .collect();
    for call in 0..=5 {
        let takes_ring = call >= whole::IS_SIMPLE_POLYGON;
        let numbers: &[u64] = if takes_ring { &[0, 1, 2, 9] } else { &[0, 2] };
        assert!(met.iter().filter(|pair| pair.0 == call).map(|pair| &pair.1).eq(numbers));
        let turns = call <= whole::ORIENTATION;
        let few: &[i64] = if turns { &[-1, 0, 1] } else { &[0, 1] };
        let of_call = answers.iter().filter(|pair| pair.0 == call).map(|pair| &pair.1);
        assert!(call == whole::SIGNED_AREA2 || of_call.eq(few), "call {call}");
    }
}

#[test]
fn contacts_and_hits_are_of_every_kind() {
    let records = sliding::records();
    let (mut contacts, mut hits) = (BTreeSet::new(), BTreeSet::new());
    for record in records.iter().filter(|record| record[7] == 0) {
        let [a, b, list, extra, one, two] = lengths(record, [1, 2, 3, 4, 5, 6]);
        if record[0] == sliding::FIND_CONTACTS {
            let after = sliding::HEADER + a + b + list + extra + one + two;
            let which = &record[after..after + 4 * record[8] as usize];
            contacts.extend(which.chunks_exact(4).map(|contact| (contact[0], contact[3])));
        } else if record[0] == sliding::COLLISION && record[8] == 1 {
            hits.insert(record[10]);
        }
    }
    let each = (0..3).flat_map(|kind| (0..3).map(move |foot| (kind, foot)));
    assert_eq!(contacts.into_iter().collect::<Vec<_>>(), each.collect::<Vec<_>>());
    assert!(hits.into_iter().eq([0, 1]));
}

/// What the explanations among these records reach: the grounds, the kinds of hits,
/// and the most other pairs at a hit's distance.
fn explained(records: &[Vec<u64>]) -> (BTreeSet<u64>, BTreeSet<u64>, u64) {
    let (mut grounds, mut kinds, mut most) = (BTreeSet::new(), BTreeSet::new(), 0);
    for record in records.iter().filter(|r| r[0] == sliding::EXPLAIN && r[7] == 0) {
        let [ground, _, kind, _, _, others, near, between, far] =
            record[sliding::VALUES_AT..sliding::PLACE_AT]
        else {
            unreachable!("nine values")
        };
        grounds.insert(ground);
        if ground == 0 {
            assert!(others < between);
            kinds.insert(kind);
            most = most.max(others);
        } else {
            assert!(between == 0 && others == 0);
            assert_eq!((near > 0, far > 0), (matches!(ground, 3 | 5), matches!(ground, 4 | 5)));
        }
    }
    (grounds, kinds, most)
}

#[test]
fn explanations_reach_every_ground() {
    for records in [sliding::records(), long("sliding", 20_000)] {
        let (grounds, kinds, most) = explained(&records);
        assert!(grounds.into_iter().eq(0..=5));
        assert!(kinds.into_iter().eq([0, 1]));
        assert!(most >= 60, "{most}");
    }
}

/// Whether a record explains a move that is not shorter than the tolerance, and
/// shorter than two of them.
fn within_two_tolerances(record: &[u64]) -> bool {
    let extra = sliding::HEADER + (record[1] + record[2] + record[3]) as usize;
    let number = |place: usize| f64::from_bits(record[extra + place]);
    record[0] == sliding::EXPLAIN && record[7] == 0 && {
        let length = (number(0) * number(0) + number(1) * number(1)).sqrt();
        number(2) <= length && length < 2.0 * number(2)
    }
}

#[test]
fn moves_within_two_tolerances_have_no_hit_and_every_other_ground() {
    for records in [sliding::records(), long("sliding", 20_000)] {
        let within = records.iter().filter(|record| within_two_tolerances(record));
        let grounds: BTreeSet<_> = within.map(|record| record[sliding::VALUES_AT]).collect();
        assert!(grounds.into_iter().eq(2..=5));
    }
}

#[test]
fn traces_end_in_every_way() {
    let records = traces::records();
    let numbers: BTreeSet<_> = records.iter().map(|record| record[7]).collect();
    assert!(numbers.into_iter().eq([0, 1, 2, 3, 4, 5, 6, 8, 9]));
    let stops = |number: u64| -> BTreeSet<u64> {
        records.iter().filter(|record| record[7] == number).map(|record| record[11]).collect()
    };
    assert!(stops(0).into_iter().eq(1..=5));
    assert!(stops(6).into_iter().eq([1, 2, 3, 5]));
    assert!([1, 2, 3, 4, 5, 8, 9].map(stops).iter().all(|stops| stops.iter().eq(&[0])));
    let begun = records.iter().filter(|record| matches!(record[7], 0 | 5 | 6));
    let most = begun.filter(|record| record[6] > 200).count();
    assert!(most < 10, "{most} traces that begin have a limit above 200");
}

#[test]
fn long_runs_are_decided_by_the_seed() {
    for name in [
        "scalars", "rings", "whole", "discs", "grid", "drawn", "book", "wkb", "places", "sliding",
        "traces",
    ] {
        assert!(long(name, 50) == long(name, 50));
    }
    assert!(list("ring").is_none());
}
