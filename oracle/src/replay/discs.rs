//! The list `discs`. A record is seven words of header: m, rn, the refusal number, the
//! vertices answered (0 where refused), and the bits of the centre's x and y and of the
//! radius; after it the room of rn numbers at entry, and at exit.

use super::{bits, edge, float_room, once, List, EDGES, NANS};
use crate::discs::{make_disc, MOST_QUARTER};
use crate::refusals::LARGEST;
use crate::seeded::Seeded;

/// Words of the header.
pub const HEADER: usize = 7;

/// Most numbers of a room in the list.
pub const MOST_ROOM: usize = 600;

/// The list with both its forms.
pub const LIST: List = List { stored: records, long, counted };

/// The seven numbers of vertices in a quarter.
pub const QUARTERS: [u64; 7] = [1, 2, 4, 8, 16, 32, 64];

/// Numbers beside them.
const OTHERS: [u64; 16] =
    [0, 3, 5, 6, 7, 9, 12, 24, 48, 63, 65, 96, 128, 256, 1 << 32 | 1, u64::MAX];

/// Radii from the least above 0 to the largest that fits about the origin.
const RADII: [f64; 12] = [
    5e-324,
    1e-310,
    f64::MIN_POSITIVE,
    1e-160,
    1e-9,
    0.1,
    1.0,
    12.5,
    f64::from_bits(0x4009_21fb_5444_2d18),
    65_537.75,
    LARGEST.next_down(),
    LARGEST,
];

/// Coordinates of centres, zeros of both signs and the bounds among them.
const CENTRES: [f64; 10] =
    [0.0, -0.0, 0.1, -7.25, 1e-300, 999.999, -333_333.3, 5e-324, LARGEST, -LARGEST];

/// Radii that are refused whatever the centre is.
const WRONG: [f64; 9] = [
    0.0,
    -0.0,
    -1.0,
    -5e-324,
    f64::INFINITY,
    f64::NEG_INFINITY,
    f64::MAX,
    LARGEST.next_up(),
    2.0 * LARGEST,
];

/// A call with what is lent to it; of the room only the length.
#[derive(Clone, Copy)]
struct Case {
    centre: (f64, f64),
    radius: f64,
    m: u64,
    room: usize,
}

/// How many numbers a disc has, at most as many as the largest.
fn numbers(m: u64) -> usize {
    8 * m.min(MOST_QUARTER) as usize
}

impl Case {
    /// A disc with a room that is just long enough.
    fn of(centre: (f64, f64), radius: f64, m: u64) -> Self {
        Self { centre, radius, m, room: numbers(m) }
    }
}

/// A record: what is lent and both states of the room, as words.
fn record(case: &Case) -> Vec<u64> {
    let Case { centre, radius, m, room } = *case;
    let before = float_room(room);
    let mut after = before.clone();
    let answer = make_disc(centre, radius, m, &mut after);
    let number = answer.err().map_or(0, |no| u64::from(no.number));
    let told = [m, room as u64, number, answer.unwrap_or(0) as u64];
    [&told[..], &bits(&[centre.0, centre.1, radius]), &bits(&before), &bits(&after)].concat()
}

/// All seven discs, of every radius about the origin and of one about other centres;
/// the small ones of every radius about every centre.
fn discs() -> Vec<Case> {
    let mut all = Vec::new();
    for m in QUARTERS {
        all.extend(RADII.map(|radius| Case::of((0.0, 0.0), radius, m)));
        for (i, x) in CENTRES.into_iter().enumerate() {
            let y = CENTRES[(3 * i + 1) % CENTRES.len()];
            all.push(Case::of((x, y), 12.5, m));
            all.push(Case::of((x, y), 5e-324, m));
        }
    }
    for m in [1, 2] {
        for radius in RADII {
            for x in CENTRES {
                all.extend(CENTRES[..5].iter().map(|&y| Case::of((x, y), radius, m)));
            }
        }
    }
    all
}

/// Discs that touch the bound from either side, and that go past it on one side.
fn bounds() -> Vec<Case> {
    let mut all = Vec::new();
    for m in [1, 4, 64] {
        for reach in [LARGEST, LARGEST.next_up(), LARGEST.next_down()] {
            for centre in [990_000.0, -999_999.5, 0.25, LARGEST] {
                for (x, y) in [(centre, 0.0), (0.0, centre), (centre, -centre)] {
                    all.push(Case::of((x, y), reach - centre.abs(), m));
                }
            }
        }
        let past = LARGEST.next_up();
        all.extend([(past, 0.0), (0.0, -past)].map(|centre| Case::of(centre, 1e-12, m)));
    }
    all
}

/// Wrong numbers in every place, of both vertices' numbers that there are and others.
fn wrong() -> Vec<Case> {
    let mut all = Vec::new();
    for m in [1, 2, 3] {
        all.extend(WRONG.map(|radius| Case::of((1.0, -2.0), radius, m)));
        for number in EDGES.into_iter().chain(NANS.map(f64::from_bits)) {
            all.push(Case::of((number, 1.0), 3.0, m));
            all.push(Case::of((1.0, number), 3.0, m));
            all.push(Case::of((1.0, 2.0), number, m));
        }
    }
    all
}

/// Other numbers of vertices, alone, and with a wrong radius, and without room.
fn quarters() -> Vec<Case> {
    let mut all = Vec::new();
    for m in OTHERS {
        all.push(Case { room: 16, ..Case::of((1.0, 2.0), 3.0, m) });
        all.push(Case { room: 3, ..Case::of((1.0, f64::NAN), -3.0, m) });
        all.push(Case { room: 0, ..Case::of((1.0, 2.0), f64::NAN, m) });
    }
    all
}

/// Rooms that are empty, short, exact and longer, of a disc that is in bounds and of
/// one that is not.
fn rooms() -> Vec<Case> {
    let mut all = Vec::new();
    for m in [1, 2, 16] {
        let exact = numbers(m);
        for room in [0, 1, exact / 2, exact - 2, exact - 1, exact, exact + 1, exact + 7] {
            all.push(Case { room, ..Case::of((1.0, 2.0), 3.0, m) });
            all.push(Case { room, ..Case::of((LARGEST, 2.0), 3.0, m) });
        }
    }
    all.extend([511, 600].map(|room| Case { room, ..Case::of((1.0, 2.0), 3.0, 64) }));
    all
}

/// The list, record by record, none twice.
pub fn records() -> Vec<Vec<u64>> {
    let cases = [discs(), bounds(), wrong(), quarters(), rooms()].concat();
    once(cases.iter().map(record).collect())
}

/// A radius: of any size up to the bound, mostly one that fits.
fn radius(seeded: &mut Seeded) -> f64 {
    match seeded.below(8) {
        0 => f64::from_bits(seeded.bits() >> 1),
        1 => seeded.pick(&RADII),
        2 => f64::from_bits(seeded.bits() >> 12 >> seeded.below(52)),
        3 => edge(seeded),
        4 => seeded.unit() * LARGEST,
        _ => seeded.unit() * 1_000.0,
    }
}

/// A coordinate of a centre.
fn centre(seeded: &mut Seeded) -> f64 {
    match seeded.below(8) {
        0 => seeded.pick(&CENTRES),
        1 => edge(seeded),
        2 => seeded.spread(LARGEST),
        3 => seeded.whole(1_000_000),
        4 => seeded.pick(&[0.0, -0.0]),
        _ => seeded.spread(1_000.0),
    }
}

/// A record of a long run: now and then another number of vertices, or a room that is
/// not exact; of the rest all seven by turns.
fn long(seeded: &mut Seeded, place: u64) -> Vec<u64> {
    let mut case = Case::of(
        (centre(seeded), centre(seeded)),
        radius(seeded),
        QUARTERS[place as usize % QUARTERS.len()],
    );
    match seeded.below(24) {
        0 => case.m = seeded.pick(&OTHERS),
        1 => case.m = seeded.bits(),
        2 => case.room = seeded.below(MOST_ROOM + 1),
        3 => case.room -= 1,
        _ => {}
    }
    record(&case)
}

/// The number of vertices, with the refusal's number.
fn counted(record: &[u64]) -> Vec<String> {
    let kind = if QUARTERS.contains(&record[0]) {
        format!("{} vertices", 4 * record[0])
    } else {
        "other numbers".to_string()
    };
    vec![format!("{kind}: all"), format!("{kind}: refusal {}", record[2])]
}
