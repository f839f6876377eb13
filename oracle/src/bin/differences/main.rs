//! Runs the text over the fixed helpers beside the text over the others, prints
//! for each function how often the answers differ and a smallest input where
//! they do, and then what the text itself is seen to do. `differences moves` prints the
//! last part alone: what the exact answer to whole moves tells of the rule.
//! `differences lines` prints how many lines the reasons of clear moves have.

mod answers;
mod findings;
mod inputs;
mod lines;
mod mirrors;
mod moves;
mod paths;

use answers::{Answer, Function, FUNCTIONS, PASSES};
use inputs::Input;

/// True if the numbers are the same, bit for bit; all NaNs are one.
fn same(a: &[f64], b: &[f64]) -> bool {
    let alike = |(x, y): (&f64, &f64)| x.to_bits() == y.to_bits() || (x.is_nan() && y.is_nan());
    a.len() == b.len() && a.iter().zip(b).all(alike)
}

/// True if the answers differ by more than rounding can explain.
fn far(a: &[f64], b: &[f64]) -> bool {
    a.len() != b.len() || a.iter().zip(b).any(|(x, y)| (x - y).abs() > 1e-9)
}

/// The inputs on which two answers differ: how many, and a smallest.
#[derive(Default)]
struct Found<'a> {
    count: usize,
    smallest: Option<&'a Input>,
}

impl<'a> Found<'a> {
    /// Counts the input, and keeps it if it is the smallest so far.
    fn add(&mut self, input: &'a Input) {
        self.count += 1;
        if self.smallest.is_none_or(|best| input.size() < best.size()) {
            self.smallest = Some(input);
        }
    }
}

/// Where two answers differ at all, and where by more than rounding.
fn compare<'a>(one: Answer, other: Answer, inputs: &'a [Input]) -> [Found<'a>; 2] {
    let mut found = [Found::default(), Found::default()];
    for input in inputs {
        let answers = [one(input), other(input)];
        if !same(&answers[0], &answers[1]) {
            found[0].add(input);
            if far(&answers[0], &answers[1]) {
                found[1].add(input);
            }
        }
    }
    found
}

/// The first numbers of an answer, and how many more there are.
fn shortened(answer: &[f64]) -> String {
    let shown = answer.len().min(14);
    let more = answer.len() - shown;
    let tail = if more > 0 { format!(" and {more} more") } else { String::new() };
    format!("{:?}{tail}", &answer[..shown])
}

/// Prints an input with both answers.
fn show(input: &Input, one: Answer, other: Answer) {
    println!("    a {:?}", input.a);
    println!("    b {:?}", input.b);
    let bits = [input.point.0, input.point.1].map(f64::to_bits);
    println!("    point {:?} ({:x?}), tolerance {:e}", input.point, bits, input.tolerance);
    println!("    fixed {}", shortened(&one(input)));
    println!("    other {}", shortened(&other(input)));
}

/// Compares every function over the fixed helpers with it over the others.
fn report(groups: &[Vec<Input>; 3], other: fn(&Function) -> Answer) {
    for function in FUNCTIONS {
        let inputs = &groups[function.group as usize];
        let [all, far] = compare(function.fixed, other(&function), inputs);
        let tried = inputs.len();
        println!("{}: {tried} tried, {} differ, {} far", function.name, all.count, far.count);
        let mut smallest = vec![all.smallest, far.smallest];
        smallest.dedup_by(|x, y| x.map(Input::size) == y.map(Input::size));
        for input in smallest.into_iter().flatten() {
            println!("  smallest:");
            show(input, function.fixed, other(&function));
        }
    }
}

fn main() {
    // One part alone, if asked for.
    match std::env::args().nth(1).as_deref() {
        Some("moves") => return moves::print(),
        Some("lines") => return lines::print(),
        _ => {}
    }
    let groups = [inputs::numbers(), inputs::rings(), inputs::pairs()];
    println!("Traces take at most {PASSES} passes; far is by more than 1e-9.");
    println!("\n== fixed and repository");
    report(&groups, |function| function.repository);
    println!("\n== fixed and swapped zeros");
    report(&groups, |function| function.swapped);
    println!("\n== findings");
    findings::print();
    mirrors::print();
    paths::print();
    moves::print();
}
