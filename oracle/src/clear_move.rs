//! The program that says whether a whole move of a book's second ring is clear of the
//! first, and why: what it prints for an input, the inputs that the repository stores
//! with their outputs, and spoilt outputs for the check of a printed reason.

use crate::book::{book_of, file_of, read_book, MOST_BYTES};
use crate::clear::{clear_move, Ground};
use crate::refusals::{entries, unless, Answer, Refusal, LARGEST, LEAST_VERTICES, MOST_VERTICES};
use crate::shapes::{comb, disc, placed, square, star};
use crate::stored::{Cases, Files, Program};
use crate::whole::Spot;

/// The program, with its stored cases.
pub const PROGRAM: Program = Program { example, cases, printed, others };

/// Bytes of the move before the book.
const MOVE: usize = 8;

// ---------------------------------------------------------------------------
// The program
// ---------------------------------------------------------------------------

/// The numbers as whole ones, or refusal 2.
fn whole(numbers: &[f64]) -> Answer<Vec<i32>> {
    unless(numbers.iter().all(|x| *x == x.trunc()), Refusal::of(2))?;
    Ok(numbers.iter().map(|&x| x as i32).collect())
}

/// The answer for an input, and the reason where it is clear: 7 at place 0 for an input
/// too short for the move, the book's refusal, 8 for a book of one ring, 2 unless all
/// coordinates of the book are whole, and then that of the call.
fn answered(input: &[u8]) -> Answer<(Ground, Vec<i32>)> {
    unless(input.len() >= MOVE, Refusal::at(7, 0))?;
    let (words, book) = input.split_at(MOVE);
    let word = |at: usize| i32::from_le_bytes(words[at..at + 4].try_into().expect("four bytes"));
    let (mut coordinates, mut counts) = ([0.0; 4096], [0; 8]);
    read_book(book, &mut coordinates, &mut counts, &mut [0; 8])?;
    entries(counts[1] as usize, LEAST_VERTICES, MOST_VERTICES, 1)?;
    let all: u32 = counts.iter().sum();
    let numbers = whole(&coordinates[..2 * all as usize])?;
    let (stationary, rest) = numbers.split_at(2 * counts[0] as usize);
    let orbiting = &rest[..2 * counts[1] as usize];
    let mut reason = vec![0; 2 * stationary.len()];
    let ground = clear_move(stationary, orbiting, (word(0), word(4)), &mut reason)?;
    Ok((ground, reason))
}

/// What is printed for an input.
pub fn printed(input: &[u8]) -> String {
    match answered(input) {
        Err(refusal) => format!("{refusal}\n"),
        Ok((Ground::Clear, reason)) => clear_text(&reason),
        Ok((Ground::Edge(edge), _)) => format!("edge {edge}\n"),
        Ok((Ground::Enclosed, _)) => "enclosed\n".to_string(),
    }
}

/// What is printed of a reason: how many lines there are, and each once, with the edges
/// that have it.
fn clear_text(reason: &[i32]) -> String {
    let mut lines: Vec<(&[i32], Vec<usize>)> = vec![];
    for (edge, line) in reason.chunks_exact(4).enumerate() {
        match lines.iter_mut().find(|(other, _)| *other == line) {
            Some((_, edges)) => edges.push(edge),
            None => lines.push((line, vec![edge])),
        }
    }
    let shown = |(n, edges): &(&[i32], Vec<usize>)| {
        format!("edges {}: {} {} {} {}\n", ranges(edges), n[0], n[1], n[2], n[3])
    };
    let each: String = lines.iter().map(shown).collect();
    format!("clear lines {}\n{each}", lines.len())
}

/// Rising numbers, each run of them by its first and its last.
fn ranges(numbers: &[usize]) -> String {
    let runs = numbers.chunk_by(|a, b| a + 1 == *b);
    let shown = |run: &[usize]| match run {
        [one] => one.to_string(),
        _ => format!("{}-{}", run[0], run[run.len() - 1]),
    };
    runs.map(shown).collect::<Vec<_>>().join(", ")
}

// ---------------------------------------------------------------------------
// The stored cases
// ---------------------------------------------------------------------------

/// The move as bytes.
fn words(by: Spot) -> Vec<u8> {
    [by.0.to_le_bytes(), by.1.to_le_bytes()].concat()
}

/// This move before the book of these rings.
fn input_of(by: Spot, rings: &[Vec<f64>]) -> Vec<u8> {
    [words(by), book_of(rings)].concat()
}

/// The same before a file that keeps the rings as they are.
fn unchecked(by: Spot, rings: &[Vec<f64>]) -> Vec<u8> {
    [words(by), file_of(rings)].concat()
}

/// A disc of 32 corners with a radius of 15 mm, in micrometres, about this point.
pub fn disc_at(x: f64, y: f64) -> Vec<f64> {
    let rounded: Vec<f64> = disc(32, 15_000.0).iter().map(|x| x.round()).collect();
    placed(&rounded, 1.0, x, y)
}

/// A block with a slot of this width that is open above.
fn slot(width: f64) -> Vec<f64> {
    let right = width + 30.0;
    let walls = [right, 50.0, width, 50.0, width, 0.0, 0.0, 0.0, 0.0, 50.0, -30.0, 50.0];
    [&[-30.0, -20.0, right, -20.0], &walls[..]].concat()
}

/// docs/SCOPE.md's squares, the small one at this point.
fn squares(x: f64, y: f64) -> [Vec<f64>; 2] {
    [square(4.0), placed(&square(2.0), 1.0, x, y)]
}

/// A triangle between the wings of a bow tie, where each edge has a line of its own.
fn between_the_wings(by: Spot) -> Vec<u8> {
    let bow = vec![0.0, 0.0, 8.0, 8.0, 8.0, 0.0, 0.0, 8.0];
    input_of(by, &[bow, vec![3.0, 9.0, 5.0, 9.0, 4.0, 6.0]])
}

/// The input of the gate: a disc slides 31 mm along its neighbour, which it touches.
pub fn example() -> Vec<u8> {
    input_of((0, 31_000), &[disc_at(0.0, 0.0), disc_at(30_000.0, -15_500.0)])
}

/// A tab on the carrier's edge, as a book holds it.
pub const TAB: [f64; 8] = [21e3, 0.0, 23e3, 5e3, 27e3, 5e3, 29e3, 0.0];

/// Moves that are clear, by their names.
fn clear() -> Cases {
    let far = 996_000.0;
    let corner = [placed(&square(4.0), 1.0, -1e6, -1e6), placed(&square(4.0), 1.0, far, -1e6)];
    let part = placed(&square(10.0), 1.0, 0.0, 60.0);
    let wound = [square(12.0), vec![0.0, 0.0, 0.0, 12.0, 12.0, 12.0, 12.0, 0.0]].concat();
    let large = [placed(&disc(256, 4e5), 1.0, -5e5, 0.0), placed(&disc(256, 4e5), 1.0, 4e5, 0.0)];
    let large = large.map(|ring| ring.iter().map(|x| x.round()).collect::<Vec<f64>>());
    vec![
        ("touching", input_of((0, 9), &squares(4.0, 0.0))),
        ("touching_and_no_move", input_of((0, 0), &squares(4.0, 4.0))),
        ("slot_as_wide", input_of((0, -60), &[slot(10.0), part.clone()])),
        ("slot_one_wider", input_of((1, -60), &[slot(11.0), part])),
        ("third_ring_unused", input_of((9, 9), &[&squares(7.0, 0.0)[..], &[square(3.0)]].concat())),
        ("round_and_back", input_of((1, 1), &[wound, placed(&square(2.0), 1.0, 3.0, 3.0)])),
        ("between_the_wings", between_the_wings((0, -2))),
        ("from_end_to_end", input_of((0, 1_996_000), &corner)),
        (
            "disc_to_its_neighbour",
            input_of((31_000, 0), &[disc_at(62e3, 15e3), disc_at(0.0, 15e3)]),
        ),
        ("flat", input_of((0, -3), &[square(4.0), vec![0.0, -1.0, 2.0, -1.0, 1.0, -1.0]])),
        (
            "longest",
            input_of((-100_000, 300_000), &[&large[..], &vec![large[0].clone(); 6]].concat()),
        ),
    ]
}

/// Moves that are not, by their names.
fn not_clear() -> Cases {
    let part = placed(&square(10.0), 1.0, 0.0, 60.0);
    let comb: Vec<f64> = placed(&comb(4), 4.0, 0.0, 0.0);
    let star: Vec<f64> = star(7, 900.0, 300.0).iter().map(|x| x.round()).collect();
    let between = [disc_at(0.0, 0.0), disc_at(30_000.0, -15_500.0)];
    vec![
        ("one_aside", input_of((-1, 9), &squares(4.0, 0.0))),
        ("through", input_of((10, 0), &squares(-5.0, 1.0))),
        ("slot_one_narrower", input_of((0, -60), &[slot(9.0), part.clone()])),
        ("slot_one_too_deep", input_of((0, -61), &[slot(10.0), part])),
        ("disc_one_nearer", input_of((-1, 31_000), &between)),
        ("tab_in_between", input_of((31_000, 0), &[TAB.to_vec(), disc_at(0.0, 15e3)])),
        ("comb", input_of((5, 0), &[comb, placed(&square(3.0), 1.0, -4.0, 6.0)])),
        ("star", input_of((0, 0), &[star, placed(&square(400.0), 1.0, 500.0, 0.0)])),
        ("on_its_equal", input_of((0, 0), &[square(4.0), square(4.0)])),
        ("within", input_of((1, 1), &squares(1.0, 1.0))),
        ("within_a_disc", input_of((900, -900), &[disc_at(0.0, 0.0), square(800.0)])),
        ("within_and_out", input_of((9, 0), &squares(1.0, 1.0))),
    ]
}

/// Inputs that are refused for a number, or for want of a second ring, by their names.
fn refused() -> Cases {
    let [s, q] = squares(4.0, 0.0);
    let half = vec![0.0, 0.0, 4.0, 0.0, 4.0, 3.5];
    vec![
        ("one_ring", input_of((1, 0), std::slice::from_ref(&s))),
        ("one_ring_and_not_whole", input_of((1, 0), std::slice::from_ref(&half))),
        ("stationary_not_whole", input_of((1, 0), &[half.clone(), q.clone()])),
        ("orbiting_not_whole", input_of((1, 0), &[s.clone(), half.clone()])),
        ("third_ring_not_whole", input_of((1, 0), &[s.clone(), q.clone(), half])),
        ("end_out_of_bounds", input_of((999_995, 0), &[s.clone(), q.clone()])),
        ("least_move", input_of((i32::MIN, i32::MIN), &[s.clone(), q.clone()])),
        ("greatest_move", input_of((0, i32::MAX), &[s, q])),
    ]
}

/// Inputs that are too short, or whose book is wrong, by their names.
fn wrong() -> Cases {
    let by = (1, 0);
    let least = vec![0.0, 0.0, 0.0, 4.0, 4.0, 4.0, 4.0, 0.0];
    let turned = [&least[2..], &least[..2]].concat();
    let right = input_of(by, &squares(4.0, 0.0));
    let far = vec![0.0, 0.0, 0.0, 4.0, LARGEST + 1.0, 4.0];
    let minus = vec![0.0, 0.0, 0.0, 4.0, 4.0, -0.0];
    vec![
        ("empty", vec![]),
        ("move_cut_off", right[..MOVE - 1].to_vec()),
        ("no_book", right[..MOVE].to_vec()),
        ("book_cut_off", right[..right.len() - 1].to_vec()),
        ("one_byte_more", [&right[..], &[0]].concat()),
        ("not_the_least", unchecked(by, &[least.clone(), turned])),
        ("coordinate_too_large", unchecked(by, &[far, least.clone()])),
        ("minus_zero", unchecked(by, &[least, minus])),
        ("too_long", [words(by), vec![0; MOST_BYTES + 1]].concat()),
        ("far_too_long", [words(by), vec![0; 5 * MOST_BYTES]].concat()),
    ]
}

/// All stored cases, by their names.
pub fn cases() -> Cases {
    [clear(), not_clear(), refused(), wrong()].concat()
}

// ---------------------------------------------------------------------------
// Spoilt outputs
// ---------------------------------------------------------------------------

/// Inputs with outputs that are no reason for them, by their names.
pub fn spoilt() -> Vec<(&'static str, Vec<u8>, String)> {
    let slide = |by| input_of(by, &[slot(10.0), placed(&square(10.0), 1.0, 0.0, 60.0)]);
    let text = "clear lines 3\nedges 0-2: 0 1 0 0\nedges 3, 7: 0 0 1 0\nedges 4-6: 10 0 10 1\n";
    assert_eq!(printed(&slide((0, -60))), text);
    // One part of the text replaced by another.
    let with = |part: &str, other: &str| {
        assert_eq!(text.matches(part).count(), 1, "{part}");
        (slide((0, -60)), text.replace(part, other))
    };
    let more = "edges 4-6: 10 0 10 1\nedges 0-2: 0 1 0 0\n";
    let own =
        "clear lines 4\nedges 0: 0 0 0 4\nedges 1: 0 4 4 4\nedges 2: 4 4 4 0\nedges 3: 4 0 0 0\n";
    let mirrored =
        "clear lines 4\nedges 0: 0 4 0 0\nedges 1: 4 4 0 4\nedges 2: 4 0 4 4\nedges 3: 0 0 4 0\n";
    let named = |name, (input, text)| (name, input, text);
    let of = |name, input, text: &str| (name, input, text.to_string());
    vec![
        named("one_number_off", with("10 0 10 1", "10 0 11 1")),
        named("one_point_twice", with("0 0 1 0", "9 9 9 9")),
        named("one_line_turned", with("0 1 0 0", "0 0 0 1")),
        named(
            "lines_exchanged",
            with(
                "edges 0-2: 0 1 0 0\nedges 3, 7: 0 0 1 0",
                "edges 0-2: 0 0 1 0\nedges 3, 7: 0 1 0 0",
            ),
        ),
        named("one_line_missing", with("edges 3, 7: 0 0 1 0\n", "")),
        named("one_line_more", with("edges 4-6: 10 0 10 1\n", more)),
        named("edge_left_out", with("edges 4-6", "edges 4-5")),
        named("edge_listed_twice", with("edges 3, 7", "edges 2-3, 7")),
        named("edge_past_the_last", with("edges 3, 7", "edges 3, 7-8")),
        named("range_turned", with("edges 4-6", "edges 6-4")),
        named("other_number_of_lines", with("clear lines 3", "clear lines 8")),
        of("no_reason", slide((0, -60)), "clear lines 0\n"),
        named("no_number", with("10 0 10 1", "10 0 10 x")),
        named("another_word", with("clear lines 3", "edge 0")),
        of("another_move", slide((0, -61)), text),
        of("not_balanced", input_of((0, 0), &[square(4.0), square(4.0)]), mirrored),
        of("not_balanced_within", input_of((1, 1), &squares(1.0, 1.0)), mirrored),
        of("way_right_of_the_lines", input_of((0, 0), &[square(4.0), square(4.0)]), own),
    ]
}

/// The spoilt outputs as files, each with its input.
fn others() -> Files {
    let pair = |(name, input, text): (&str, Vec<u8>, String)| {
        let file = |end: &str| format!("spoilt/{name}.{end}");
        [(file("in"), input), (file("out"), text.into_bytes())]
    };
    spoilt().into_iter().flat_map(pair).collect()
}
