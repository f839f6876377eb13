//! Cases for the calls that take rings.

use super::Case;
use crate::replay::lengths::{self, Lengths, RINGS};
use crate::replay::{float_room, with, EDGES};
use crate::seeded::Seeded;
use crate::shapes::whole_shapes;
use crate::shapes::{closed, comb, knot, parabola, placed, reversed, seeded_ring, square};
use std::sync::LazyLock;

/// The calls that take one ring and no room.
const PLAIN_CALLS: [u64; 3] =
    [super::IS_SIMPLE_POLYGON, super::SIGNED_AREA2, super::SIGNED_AREA_ROBUST];
/// The calls that take one ring and a room.
const ROOM_CALLS: [u64; 2] = [super::MIRROR_POLYGON, super::OPEN_RING];

/// Which long ring gets a room of which length: short, exact and longer ones
/// for those that pass, and others for those that are refused before.
const LONG_ROOMS: [(usize, usize); 16] = [
    (0, 510),
    (1, 3),
    (1, 511),
    (1, 512),
    (1, 513),
    (2, 514),
    (3, 512),
    (4, 3),
    (5, 0),
    (7, 509),
    (7, 510),
    (7, 512),
    (10, 3),
    (11, 3),
    (12, 3),
    (13, 0),
];

/// Small rings with closing repeats, signed zeros, repeated points, and the
/// margin of 1e-9 between edges that are no neighbours.
fn special_rings() -> Vec<Vec<f64>> {
    let mut found = vec![
        vec![],
        vec![3.0, -7.0],
        vec![-0.0, -0.0],
        vec![1.0, 2.0, 3.0, 4.0],
        vec![1.0, 2.0, 1.0, 2.0],
        vec![0.0, 0.0, 4.0, 0.0, 0.0, 0.0],
        vec![0.0, 0.0, 4.0, 0.0, -0.0, 0.0],
        vec![0.0, 0.0, 4.0, 0.0, 0.0, 3.0, 0.0, 0.0],
        vec![0.0, 0.0, 4.0, 0.0, 0.0, 3.0, -0.0, -0.0],
        vec![-0.0, 0.0, 4.0, 0.0, 0.0, 3.0, 0.0, -0.0],
        vec![0.0, 0.0, 4.0, 0.0, 0.0, 3.0, 5e-324, 0.0],
        vec![0.0, 0.0, 4.0, 0.0, 0.0, 3.0, 0.0, 0.0, 0.0, 0.0],
        vec![7.0, 7.0, 7.0, 7.0, 7.0, 7.0, 7.0, 7.0],
        vec![0.0, 1.0, 0.0, -1.0, -0.0, -1.0, -0.0, 1.0],
        vec![0.0, 0.0, 0.0, -0.0, -0.0, -0.0, -0.0, 0.0],
        vec![-0.0, -0.0, -0.0, -0.0, -0.0, -0.0],
        vec![5e-324, 0.0, 0.0, 5e-324, -5e-324, -5e-324],
        vec![1e-160, 0.0, 1e-163, 1e-160, -1e-160, 1e-158],
        vec![1e6, 1e6, -1e6, 1e6, -1e6, -1e6, 1e6, -1e6],
        vec![1e6, 0.1, -1e6, 0.3, 0.7, -1e6],
        vec![1e6, 1e6, 1e6, 1e6 - 0.1, 0.1, 0.2, 1e-9, 1e6],
    ];
    for y in [1e-9, 1e-9_f64.next_up(), 0.5e-9, 0.5e-9_f64.next_up(), 0.0, -1e-9] {
        found.push(vec![0.0, 0.0, 2.0, 0.0, 2.0, 2.0, 1.0, y, 0.0, 2.0]);
    }
    found
}

/// Whole shapes as they are, turned round, closed, and placed on fractions.
fn shaped_rings() -> Vec<Vec<f64>> {
    let mut found = Vec::new();
    for shape in whole_shapes() {
        found.push(reversed(&shape));
        found.push(closed(&shape));
        found.push(placed(&shape, 0.1, 0.3, -0.7));
        found.push(placed(&shape, 1234.567, -9876.5, 0.001));
        found.push(placed(&shape, 1e-7, 0.0, 0.0));
        found.push(shape);
    }
    found
}

/// Rings with a fault or an edge number first, in the middle and last.
fn edged_rings() -> Vec<Vec<f64>> {
    let ring = square(4.0);
    let mut found = Vec::new();
    for number in EDGES {
        found.extend([0, 3, 7].map(|place| with(&ring, place, number)));
    }
    found.push(with(&with(&ring, 0, f64::NAN), 7, f64::INFINITY));
    found
}

/// Short lists that hold no whole number of points, some with a fault besides.
fn odd_lists() -> Vec<Vec<f64>> {
    let numbers = [1.0, 2.0, 3.0, 4.0, f64::NAN];
    vec![vec![1.0], vec![f64::NAN], numbers[..3].to_vec(), numbers.to_vec()]
}

/// Rings at and past the most vertices, with faults in some.
fn long_rings() -> Vec<Vec<f64>> {
    let full = comb(63); // 254 vertices
    let most = [&full[..], &[-1.0, 0.5, -0.5, 0.25]].concat();
    let fraction = placed(&most, 0.37, 0.11, -3.3);
    vec![
        parabola(255),
        parabola(256),
        parabola(257),
        most.clone(),
        fraction[..511].to_vec(),
        [&fraction[..], &[1.0]].concat(),
        knot(256),
        closed(&fraction[2..]),
        with(&most, 0, 1e6_f64.next_up()),
        with(&most, 257, f64::NEG_INFINITY),
        with(&most, 511, f64::NAN),
        with(&parabola(257), 513, f64::NAN),
        parabola(258)[..515].to_vec(),
        with(&parabola(257)[..513], 0, f64::NAN),
    ]
}

/// Seeded rings of 3 to 9 vertices, a few of them closed.
fn seeded_rings(seeded: &mut Seeded) -> Vec<Vec<f64>> {
    let one = |i: usize| {
        let n = 3 + seeded.below(7);
        let ring = seeded_ring(seeded, n);
        if i.is_multiple_of(8) {
            closed(&ring)
        } else {
            ring
        }
    };
    (0..140).map(one).collect()
}

/// The lengths of rooms to lend with a ring: short by one and two numbers, exact
/// with and without the last vertex, longer by one and more, empty.
fn room_lengths(ring: usize) -> Vec<usize> {
    let around = [ring.saturating_sub(3), ring.saturating_sub(2), ring.saturating_sub(1)];
    let mut lengths = [&around[..], &[ring, ring + 1, ring + 2, ring + 7, 0]].concat();
    lengths.sort();
    lengths.dedup();
    lengths
}

/// The cases with a room: all lengths for the small special rings, else one.
fn room_cases(small: &[Vec<f64>], others: &[Vec<f64>], long: &[Vec<f64>]) -> Vec<Case> {
    let mut all = Vec::new();
    for call in ROOM_CALLS {
        let mut lend = |ring: &[f64], length: usize| {
            all.push(Case { room: float_room(length), ..Case::of(call, ring) });
        };
        for ring in small {
            room_lengths(ring.len()).into_iter().for_each(|length| lend(ring, length));
        }
        others.iter().for_each(|ring| lend(ring, ring.len()));
        for (place, length) in LONG_ROOMS {
            lend(&long[place], length);
        }
    }
    all
}

/// Pairs of rings that are apart, touch, cross, lie in each other, or are lines
/// and points.
fn plain_pairs() -> Vec<[Vec<f64>; 2]> {
    let mut found = Vec::new();
    let small = [vec![], vec![3.0, 4.0], vec![0.0, 0.0, 1.0, 0.0], square(2.0)];
    for a in &small {
        found.extend(small.iter().map(|b| [a.clone(), placed(b, 1.0, 5.0, -1.0)]));
    }
    let shapes = whole_shapes();
    for (i, shape) in shapes.iter().enumerate() {
        let other = &shapes[(i * 7 + 3) % shapes.len()];
        found.push([shape.clone(), placed(other, 1.0, 9.0, 2.0)]);
        found.push([placed(other, 0.3, 0.1, 0.2), shape.clone()]);
        found.push([shape.clone(), shape.clone()]);
    }
    found.push([square(4.0), placed(&square(4.0), 1.0, 4.0, 0.0)]);
    found.push([square(4.0), placed(&square(1.0), 1.0, 1.0, 2.0)]);
    found.push([square(4.0), placed(&square(4.0), -1.0, -0.0, -0.0)]);
    found.push([placed(&square(1.0), 1.0, -1e6, -1e6), placed(&square(1.0), -1.0, 1e6, 1e6)]);
    found.push([vec![1e-160, 0.0, -1e-160, 0.0], vec![0.0, 1e-160, 0.0, 1e-162]]);
    found.push([vec![5e-324, 0.0, 0.0, 5e-324], vec![0.0, 0.0]]);
    found
}

/// Pairs with a fault of each kind, or none, in each ring.
fn faulty_pairs() -> Vec<[Vec<f64>; 2]> {
    let ring = square(4.0);
    let faults = [
        ring.clone(),
        ring[..7].to_vec(),
        with(&ring, 0, f64::NAN),
        with(&ring, 7, 1e6_f64.next_up()),
        with(&ring[..7], 3, f64::INFINITY),
        with(&ring, 4, -1e6),
    ];
    let mut found = Vec::new();
    for a in &faults {
        found.extend(faults.iter().map(|b| [a.clone(), b.clone()]));
    }
    found
}

/// Long rings against short ones and each other.
fn long_pairs(long: &[Vec<f64>]) -> Vec<[Vec<f64>; 2]> {
    let few = square(4.0);
    let mut found = vec![
        [long[1].clone(), placed(&long[3], 1.0, 0.25, -20.5)],
        [few.clone(), long[0].clone()],
        [few.clone(), long[10].clone()],
        [long[8].clone(), few[..3].to_vec()],
    ];
    found.extend(EDGES.map(|number| [with(&few, 5, number), placed(&few, 1.0, 9.0, 0.0)]));
    found.extend(EDGES.map(|number| [placed(&few, 1.0, 9.0, 0.0), with(&few, 2, number)]));
    found
}

/// Seeded pairs of small rings.
fn seeded_pairs(seeded: &mut Seeded) -> Vec<[Vec<f64>; 2]> {
    let one = |_| {
        let (n, m) = (1 + seeded.below(6), 1 + seeded.below(6));
        [seeded_ring(seeded, n), seeded_ring(seeded, m)]
    };
    (0..180).map(one).collect()
}

/// Two squares apart, or lists of these lengths in their places.
fn of_lengths(lengths: &Lengths<2>) -> [Vec<f64>; 2] {
    lengths.lists([&square(4.0), &placed(&square(4.0), 1.0, 9.0, 0.0)])
}

/// The case with this place among lists about the bounds of their length, alone
/// and in pairs, for a long run; nothing past the last.
pub fn swept(place: u64) -> Option<Case> {
    static ALL: LazyLock<Vec<(u64, Lengths<2>)>> = LazyLock::new(|| {
        let mut all = Vec::new();
        for call in PLAIN_CALLS.into_iter().chain(ROOM_CALLS) {
            let alone = |n| [None, Some(0)].map(|wrong| (call, Lengths { of: [n, 0], wrong }));
            all.extend(RINGS.into_iter().flat_map(alone));
        }
        let pairs = [lengths::ways(), lengths::lengths()].concat();
        all.extend(pairs.into_iter().map(|pair| (super::RING_DISTANCE, pair)));
        all
    });
    ALL.get(place as usize).map(|(call, lengths)| {
        let [a, b] = of_lengths(lengths);
        let room = if ROOM_CALLS.contains(call) { a.len() } else { 0 };
        Case { b, room: float_room(room), ..Case::of(*call, &a) }
    })
}

/// All cases of these calls.
pub fn cases(seeded: &mut Seeded) -> Vec<Case> {
    let special = [special_rings(), odd_lists()].concat();
    let others = [shaped_rings(), edged_rings(), seeded_rings(seeded)].concat();
    let long = long_rings();
    let mut all = room_cases(&special, &others, &long);
    for ring in special.iter().chain(&others).chain(&long) {
        all.extend(PLAIN_CALLS.map(|call| Case::of(call, ring)));
    }
    let about = [lengths::ways(), lengths::bounds()].concat().iter().map(of_lengths).collect();
    let pairs = [plain_pairs(), faulty_pairs(), long_pairs(&long), about, seeded_pairs(seeded)];
    let pairs = pairs.concat();
    all.extend(pairs.into_iter().map(|[a, b]| Case { b, ..Case::of(super::RING_DISTANCE, &a) }));
    all
}
