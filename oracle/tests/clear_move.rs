//! What `clear_move` must print: its stored cases end in every way there is, what it
//! prints of a clear move is a reason, and what is spoilt is none.

use oracle::book::read_book;
use oracle::clear::{check_reason, Ground};
use oracle::clear_move::{cases, example, printed, spoilt};
use std::collections::BTreeSet;

/// What is printed for the stored case with this name.
fn of(name: &str) -> String {
    let (_, input) = cases().into_iter().find(|case| case.0 == name).expect("it is a case");
    printed(&input)
}

/// The numbers of a printed reason of so many edges; nothing of what is none.
fn numbers(text: &str, edges: usize) -> Option<Vec<i32>> {
    let mut lines = text.lines();
    let count: usize = lines.next()?.strip_prefix("clear lines ")?.parse().ok()?;
    let mut reason: Vec<Option<[i32; 4]>> = vec![None; edges];
    for line in lines.clone() {
        let (which, words) = line.strip_prefix("edges ")?.split_once(": ")?;
        let numbers = words.split(' ').map(str::parse).collect::<Result<Vec<i32>, _>>().ok()?;
        for run in which.split(", ") {
            let (first, last) = run.split_once('-').unwrap_or((run, run));
            let [first, last] = [first, last].map(|word| word.parse::<usize>().ok());
            for edge in first?..=last? {
                let cell = reason.get_mut(edge)?;
                if cell.replace(numbers.clone().try_into().ok()?).is_some() {
                    return None;
                }
            }
        }
    }
    let all: Vec<[i32; 4]> = reason.into_iter().collect::<Option<_>>()?;
    (lines.count() == count).then(|| all.concat())
}

/// The ground of a printed reason for an input; nothing of what is no reason at all.
fn judged(input: &[u8], text: &str) -> Option<Ground> {
    let word = |at: usize| i32::from_le_bytes(input[at..at + 4].try_into().expect("a word"));
    let (mut coordinates, mut counts) = ([0.0; 4096], [0; 8]);
    read_book(&input[8..], &mut coordinates, &mut counts, &mut [0; 8]).ok()?;
    let [n, m] = [counts[0], counts[1]].map(|n| 2 * n as usize);
    let reason = numbers(text, n / 2)?;
    let whole = coordinates.map(|x| x as i32);
    check_reason(&whole[..n], &whole[n..n + m], (word(0), word(4)), &reason).ok()
}

#[test]
fn the_cases_end_in_every_way() {
    let first = |text: String| text.lines().next().expect("a line").to_string();
    let ends: BTreeSet<_> = cases().iter().map(|(_, input)| first(printed(input))).collect();
    for end in
        ["clear lines 1", "clear lines 4", "enclosed", "refused 2", "refused 7 0", "refused 8 1"]
    {
        assert!(ends.contains(end), "{end}");
    }
    let starting = |with: &str| ends.iter().filter(|end| end.starts_with(with)).count();
    assert!(starting("edge ") > 5 && starting("refused 7 ") > 4, "{ends:?}");
}

#[test]
fn what_is_printed_of_a_clear_move_is_its_reason() {
    let mut inputs: Vec<Vec<u8>> = cases().into_iter().map(|(_, input)| input).collect();
    inputs.push(example());
    let texts = inputs.iter().map(|input| (input, printed(input)));
    let clear: Vec<_> = texts.filter(|(_, text)| text.starts_with("clear ")).collect();
    assert_eq!(clear.len(), 12);
    for (input, text) in clear {
        assert_eq!(judged(input, &text), Some(Ground::Clear), "{text}");
    }
    for (name, input, text) in spoilt() {
        assert_ne!(judged(&input, &text), Some(Ground::Clear), "{name}");
    }
}

#[test]
fn spoilt_ones_are_of_every_kind() {
    let grounds: Vec<_> = spoilt().iter().map(|(_, input, text)| judged(input, text)).collect();
    let edges = |ground: &&Option<Ground>| matches!(ground, Some(Ground::Edge(_)));
    assert!(grounds.iter().filter(edges).count() >= 5, "{grounds:?}");
    assert_eq!(grounds.iter().filter(|ground| **ground == Some(Ground::Enclosed)).count(), 2);
    assert!(grounds.iter().filter(|ground| ground.is_none()).count() >= 4, "{grounds:?}");
}

#[test]
fn a_short_input_comes_first_then_the_book_the_rings_and_the_numbers() {
    for length in 0..=75 {
        assert_eq!(printed(&vec![0xff; length]), "refused 7 0\n", "{length}");
    }
    assert_eq!(printed(&[0xff; 76]), "refused 7 60\n");
    assert_eq!(of("one_ring_and_not_whole"), "refused 8 1\n");
    assert_eq!(of("third_ring_not_whole"), "refused 2\n");
    assert_eq!(of("end_out_of_bounds"), "refused 2\n");
}

#[test]
fn slots_and_discs() {
    for (name, answer) in [
        ("slot_as_wide", "clear lines 3"),
        ("slot_one_wider", "clear lines 3"),
        ("slot_one_narrower", "edge 4"),
        ("slot_one_too_deep", "edge 3"),
        ("disc_one_nearer", "edge 15"),
        ("within_a_disc", "enclosed"),
    ] {
        assert_eq!(of(name).lines().next(), Some(answer), "{name}");
    }
    assert_eq!(printed(&example()), "clear lines 1\nedges 0-31: 15000 1 15000 0\n");
    assert_eq!(of("round_and_back").lines().nth(1), Some("edges 0, 7: 3 1 3 0"));
}
