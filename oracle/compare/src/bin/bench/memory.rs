//! The most memory that a process holds which makes one trace.

use crate::rows::Lent;
use crate::traces::{by_library, by_rust, storing, MOST_PASSES};
use oracle::shapes::disc;
use std::hint::black_box;
use std::process::Command;

/// The traces that are tried, with their names.
const NAMES: [&str; 2] = ["disc 256 x 256, limit 20", "10,001 points stored"];

/// The pair and the pass limit of the trace with this name.
fn trace(name: &str) -> ([Lent; 2], usize) {
    if name == NAMES[0] {
        ([0, 1].map(|_| Lent::new(disc(256, 10.0))), 20)
    } else {
        (storing(), MOST_PASSES)
    }
}

/// The kibibytes of memory that this process held at most.
fn most_held() -> u64 {
    let status = std::fs::read_to_string("/proc/self/status").expect("Linux tells it");
    let line = status.lines().find(|line| line.starts_with("VmHWM:")).expect("the line is there");
    let number = line.split_whitespace().nth(1).expect("the line has a number");
    number.parse().expect("it is a number")
}

/// The kibibytes that this process holds at most having made the trace by one
/// side, or by `neither`.
pub fn peak(name: &str, side: &str) -> u64 {
    let (pair, passes) = trace(name);
    match side {
        "rust" => drop(black_box(by_rust(&pair, passes))),
        "library" => {
            let room = 2 * (passes + 1);
            let (mut work, mut result) = (vec![0.0; room], vec![0.0; room]);
            black_box(by_library(&pair, passes, &mut work, &mut result));
        }
        _ => drop(black_box(pair)),
    }
    most_held()
}

/// What a process of its own says of this trace and side.
fn asked(name: &str, side: &str) -> String {
    let program = std::env::current_exe().expect("this program has a path");
    let output = Command::new(program).args(["memory", name, side]).output();
    let output = output.expect("this program can be run");
    assert!(output.status.success());
    String::from_utf8(output.stdout).expect("a number").trim().to_string()
}

/// Prints the table.
pub fn table() {
    println!("## Memory\n\nMost kibibytes that a process holds which makes one trace; its rooms are counted.\n");
    println!("| trace | no trace made | the Rust | the library |\n|---|---|---|---|");
    for name in NAMES {
        let [neither, rust, library] = ["neither", "rust", "library"].map(|side| asked(name, side));
        println!("| {name} | {neither} | {rust} | {library} |");
    }
}
