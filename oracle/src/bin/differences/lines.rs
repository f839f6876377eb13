//! How many lines the reasons of clear moves have, no two alike: of carriers as they are
//! drawn in the shop, of discs, stars and combs, all in micrometres.

use oracle::clear::{clear_move, Ground};
use oracle::seeded::Seeded;
use oracle::shapes::{carrier, comb, disc, placed, star};
use std::collections::BTreeSet;

/// Clear moves of each ring.
const MOVES: u32 = 10_000;

/// A ring in millimetres as one in micrometres.
fn micrometres(ring: &[f64]) -> Vec<i32> {
    ring.iter().map(|x| (1e3 * x).round() as i32).collect()
}

/// The rings that stay, by their names.
fn rings() -> Vec<(&'static str, Vec<i32>)> {
    let hexagon = [10.0, 0.0, 30.0, 0.0, 40.0, 15.0, 30.0, 30.0, 10.0, 30.0, 0.0, 15.0];
    let notched = [0.0, 0.0, 60.0, 0.0, 60.0, 40.0, 40.0, 40.0, 30.0, 17.5, 20.0, 40.0, 0.0, 40.0];
    let left = [0.0, 0.0, 40.0, 0.0, 40.0, 10.0, 12.0, 30.0, 0.0, 30.0];
    vec![
        ("the carrier with six corners", micrometres(&hexagon)),
        ("Monday's carrier, with a notch", micrometres(&carrier())),
        ("the notched plate", micrometres(&notched)),
        ("the left carrier", micrometres(&left)),
        ("the neighbour, a disc of 32 corners", micrometres(&disc(32, 15.0))),
        ("a disc of 256 corners", micrometres(&disc(256, 15.0))),
        ("a star of 7 points", micrometres(&star(7, 30.0, 12.0))),
        ("a star of 128 points", micrometres(&star(128, 30.0, 20.0))),
        ("a comb of 8 teeth", micrometres(&placed(&comb(8), 5.0, 0.0, 0.0))),
        ("a comb of 63 teeth", micrometres(&placed(&comb(63), 2.0, 0.0, 0.0))),
    ]
}

/// How many lines are different, if the move is clear.
fn lines(stationary: &[i32], orbiting: &[i32], by: (i32, i32)) -> Option<usize> {
    let mut reason = vec![0; 2 * stationary.len()];
    let ground = clear_move(stationary, orbiting, by, &mut reason).expect("within the bounds");
    let different: BTreeSet<&[i32]> = reason.chunks_exact(4).collect();
    (ground == Ground::Clear).then_some(different.len())
}

/// A disc of 32 corners with this radius somewhere about the ring's box, and its move.
fn drawn(seeded: &mut Seeded, ring: &[i32], radius: f64) -> (Vec<i32>, (i32, i32)) {
    let mut at = |axis: usize| {
        let all = || ring.iter().skip(axis).step_by(2).copied();
        let (low, high) = (all().min().expect("corners"), all().max().expect("corners"));
        let room = (high - low) as usize + 40_000;
        (low - 20_000 + seeded.below(room) as i32, seeded.whole(20_000) as i32)
    };
    let ((x, dx), (y, dy)) = (at(0), at(1));
    let corners = micrometres(&disc(32, radius));
    (corners.chunks_exact(2).flat_map(|p| [p[0] + x, p[1] + y]).collect(), (dx, dy))
}

/// A line of the table for each ring and radius.
pub fn print() {
    println!("| ring | edges | disc's radius | 1 | 2 | 3 | 4 | more | most |");
    println!("|---|---|---|---|---|---|---|---|---|");
    for (name, ring) in rings() {
        for radius in [5.0, 0.8] {
            let seeded = &mut Seeded::new(0x11e5);
            let mut counts = [0; 257];
            for _ in 0..MOVES {
                let found = loop {
                    let (orbiting, by) = drawn(seeded, &ring, radius);
                    if let Some(found) = lines(&ring, &orbiting, by) {
                        break found;
                    }
                };
                counts[found] += 1;
            }
            let more: u32 = counts[5..].iter().sum();
            let most = counts.iter().rposition(|&count| count > 0).expect("moves");
            let [_, a, b, c, d] = counts[..5] else { unreachable!() };
            let edges = ring.len() / 2;
            println!(
                "| {name} | {edges} | {radius} mm | {a} | {b} | {c} | {d} | {more} | {most} |"
            );
        }
    }
}
