//! Times the Rust and the library beside each other: the oracle's text over the
//! fixed helpers, called straight, against the exported function with its
//! refusals; the check of a path against the text's pieces put together; the
//! library's explanation of a collision against its check; its calls in whole numbers
//! against those in floats, and against plain Rust in i64; whole moves, and floats on a
//! grid, against plain Rust; and moves of drawings against their whole moves, and a path
//! against its legs.
//! `bench [PART]` measures the rows whose name has this part, all of them without
//! it, and prints tables of them.

mod drawn;
mod grids;
mod memory;
mod moves;
mod paths;
mod plain_book;
mod plain_clear;
mod plain_whole;
mod plain_wkb;
mod rows;
mod timing;
mod traces;

use rows::Row;
use timing::{measured, shown};

/// What the columns of both sides are called, and that of the first side's time over
/// the second's.
type Heads = [&'static str; 3];

/// The Rust beside the library: a ratio above 1 is the library being faster.
const RUST: Heads = ["the Rust", "the library", "Rust / library"];

/// The Rust's pieces put together beside the library's check of a path.
const CHECKED: Heads = ["the Rust", "the library", "Rust / library, at least 1.5"];

/// Two calls of the library: the ratio is what the explanation costs, and may be 1.25
/// at most.
const EXPLAINED: Heads = ["explained", "checked", "explained / checked, at most 1.25"];

/// Two calls of the library on the same numbers: whole numbers may not be the slower.
const FLOATS: Heads = ["floats", "whole numbers", "floats / whole numbers, at least 1"];

/// Plain Rust in i64 beside the library in whole numbers.
const INTEGERS: Heads = ["the Rust in i64", "the library", "Rust / library, at least 0.8"];

/// Plain Rust in i64 beside the library's whole moves, whose bars are times.
const MOVES: Heads = ["the Rust in i64", "the library", "Rust / library"];

/// Plain Rust beside the library's floats on a grid, whose bar is 4 ns a number.
const GRIDS: Heads = ["the Rust", "the library", "Rust / library"];

/// Two calls of the library on the same grid: the whole move, and the drawing.
const DRAWN: Heads = ["the whole move", "the drawing", "whole move / drawing"];

/// Two ways of asking the library about the legs of a path.
const LEGS: Heads = ["leg by leg", "the path", "leg by leg / path"];

/// Prints a table of these rows, as they are measured.
fn table(title: &str, [first, second, ratio]: Heads, rows: Vec<Row>, part: &str) {
    let wanted: Vec<Row> = rows.into_iter().filter(|row| row.name.contains(part)).collect();
    if wanted.is_empty() {
        return;
    }
    println!("## {title}\n\n| call | {first} | {second} | {ratio} |\n|---|---|---|---|");
    for row in wanted {
        let (mut sides, note) = (row.sides)();
        let [one, other] = measured(&mut sides);
        println!("| {}{note} | {} | {} | {:.3} |", row.name, shown(one), shown(other), one / other);
    }
    println!();
}

fn main() {
    compare::hold_interface();
    let arguments: Vec<String> = std::env::args().skip(1).collect();
    let words: Vec<&str> = arguments.iter().map(|word| &word[..]).collect();
    if let ["memory", name, side] = words[..] {
        println!("{}", memory::peak(name, side));
        return;
    }
    let part = words.first().copied().unwrap_or("");
    println!("Median of {} runs by turns, one process, time of one call.\n", timing::RUNS);
    table("Calls", RUST, rows::calls(), part);
    table("A path that another program traced", CHECKED, paths::paths(), part);
    table("Explain against the collision call", EXPLAINED, rows::explanations(), part);
    table("Whole numbers against floats", FLOATS, rows::whole_and_floats(), part);
    table("Whole numbers against plain Rust", INTEGERS, rows::whole_and_plain(), part);
    table("Whole moves", MOVES, moves::moves(), part);
    table("Floats on a grid", GRIDS, grids::grids(), part);
    table("Moves of a drawing", DRAWN, drawn::moves(), part);
    table("Paths of a drawing", LEGS, drawn::paths(), part);
    table("Traces", RUST, traces::traces(), part);
    table("Growth of a trace with vertices, 50 passes", RUST, traces::by_vertices(), part);
    table("Growth of a trace with passes, a point stored in each", RUST, traces::by_passes(), part);
    if "memory".contains(part) {
        memory::table();
    }
}
