//! The lines that `byr why` prints, checked with no more than the rules that the report
//! tells for a check by hand.

use byrlygent::wkb::read_wkb;
use std::collections::BTreeMap;
use std::path::Path;
use std::process::Command;

const SHOP: &str = concat!(env!("CARGO_MANIFEST_DIR"), "/shop");

type Spot = (i64, i64);

/// The corners of a drawing in units of a thousandth, moved.
fn units(name: &str, (x, y): Spot) -> Vec<Spot> {
    let bytes = std::fs::read(Path::new(SHOP).join(name)).expect("a drawing");
    let spot = |(px, py): &(f64, f64)| {
        ((px * 1000.0).round() as i64 + x, (py * 1000.0).round() as i64 + y)
    };
    read_wkb(&bytes).expect("a ring").iter().map(spot).collect()
}

/// The lines that are printed for a move to the right of so many millimetres.
fn lines(by: i64) -> Vec<[i64; 4]> {
    let output = Command::new(env!("CARGO_BIN_EXE_byr"))
        .args(["why", "neighbour.wkb", "rubber.wkb", "--at", "0,15", "--grid", "0.001", "--lines"])
        .args(["--by", &format!("{by},0")])
        .current_dir(SHOP)
        .output()
        .expect("run");
    let text = String::from_utf8(output.stdout).expect("text");
    let mut lines = BTreeMap::new();
    for line in text.lines().filter_map(|line| line.strip_prefix("  edges ")) {
        let (edges, numbers) = line.split_once(": ").expect("edges and numbers");
        let numbers: Vec<i64> = numbers.split(' ').map(|n| n.parse().expect("whole")).collect();
        for run in edges.split(", ") {
            let (first, last) = run.split_once('-').unwrap_or((run, run));
            let [first, last] = [first, last].map(|n| n.parse::<usize>().expect("an edge"));
            for edge in first..=last {
                let numbers: [i64; 4] = numbers.clone().try_into().expect("four numbers");
                assert_eq!(lines.insert(edge, numbers), None, "edge {edge} has one line");
            }
        }
    }
    lines.into_values().collect()
}

/// Whether these lines part each edge from the way, and balance.
fn holds(lines: &[[i64; 4]], carrier: &[Spot], way: &[Spot]) -> bool {
    let side =
        |&[px, py, qx, qy]: &[i64; 4], v: Spot| (qx - px) * (v.1 - py) - (qy - py) * (v.0 - px);
    let low = way.iter().map(|v| v.1).min().expect("corners");
    let mut balance = 0;
    for (at, line) in lines.iter().enumerate() {
        let (a, b) = (carrier[at], carrier[(at + 1) % carrier.len()]);
        let two = line[..2] != line[2..];
        let parted =
            way.iter().all(|&v| side(line, v) >= 0) && side(line, a).max(side(line, b)) <= 0;
        if !(two && parted) {
            return false;
        }
        if line[1] < line[3] {
            balance += i32::from(a.1 <= low && low < b.1) - i32::from(b.1 <= low && low < a.1);
        }
    }
    lines.len() == carrier.len() && balance == 0
}

/// The disc's corners before and after a move to the right.
fn way(by: i64) -> Vec<Spot> {
    [units("rubber.wkb", (0, 15_000)), units("rubber.wkb", (1000 * by, 15_000))].concat()
}

#[test]
fn the_printed_lines_part_the_disc_from_its_neighbour() {
    let carrier = units("neighbour.wkb", (0, 0));
    for by in [0, 1, 17, 31, 32] {
        assert!(holds(&lines(by), &carrier, &way(by)), "by {by}");
    }
}

#[test]
fn no_lines_are_printed_for_a_move_that_leads_through() {
    assert!(lines(33).is_empty());
    let carrier = units("neighbour.wkb", (0, 0));
    assert!(!holds(&lines(31), &carrier, &way(33)));
}
