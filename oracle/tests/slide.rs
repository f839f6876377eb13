//! What `slide_trace` must print: its stored cases end in every way there is.

use oracle::slide::{cases, printed};
use std::collections::BTreeSet;

#[test]
fn the_cases_end_in_every_way() {
    let first_words = |line: &str| -> String {
        let words: Vec<_> = line.split(' ').collect();
        if words[0] == "path" {
            format!("stop {}", words[5])
        } else {
            words[..2].join(" ")
        }
    };
    let ends: BTreeSet<_> = cases()
        .iter()
        .map(|(_, input)| first_words(printed(input).lines().next().expect("a line")))
        .collect();
    let refusals = [3, 6, 7, 8].map(|number| format!("refused {number}"));
    let stops = [1, 2, 3, 4, 5].map(|reason| format!("stop {reason}"));
    assert!(ends.into_iter().eq(refusals.into_iter().chain(stops)));
}

#[test]
fn a_short_input_has_no_book() {
    for length in 0..=24 {
        assert_eq!(printed(&vec![0; length]), "refused 7 0\n");
    }
}

#[test]
fn a_book_of_one_ring_has_too_few_vertices_to_orbit() {
    let (_, input) = cases().into_iter().find(|case| case.0 == "one_ring").expect("it is a case");
    assert_eq!(printed(&input), "refused 8 1\n");
}
