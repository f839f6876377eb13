//! What `explain_move` must print: its stored cases end in every way there is.

use oracle::explain::{cases, example, printed};
use std::collections::BTreeSet;

/// What is printed for the stored case with this name.
fn of(name: &str) -> String {
    let (_, input) = cases().into_iter().find(|case| case.0 == name).expect("it is a case");
    printed(&input)
}

#[test]
fn the_cases_end_in_every_way() {
    let first_words = |line: &str| line.split(' ').take(2).collect::<Vec<_>>().join(" ");
    let ends: BTreeSet<_> =
        cases().iter().map(|(_, input)| first_words(printed(input).trim_end())).collect();
    let clear = [1, 2, 3, 4, 5].map(|ground| format!("clear {ground}"));
    let hits = [0, 1].map(|kind| format!("hit {kind}"));
    let refusals = [1, 2, 3, 7, 8].map(|number| format!("refused {number}"));
    assert!(ends.into_iter().eq(clear.into_iter().chain(hits).chain(refusals)));
}

#[test]
fn the_disc_and_the_carrier() {
    assert!(printed(&example()).starts_with("hit 0 3 14 "));
    assert_eq!(of("disc_hit"), format!("hit 0 4 18 {:016x} 0\n", 2.5_f64.to_bits()));
    assert_eq!(of("disc_clear"), "clear 4\n");
    assert_eq!(of("disc_passes_by"), "clear 2\n");
}

#[test]
fn others_are_printed_up_to_dozens() {
    for (name, others) in
        [("disc_hit", 0), ("squares", 1), ("combs", 7), ("combs_of_ten_teeth", 79)]
    {
        assert!(of(name).ends_with(&format!(" {others}\n")), "{name}");
    }
}

#[test]
fn a_short_input_comes_first_and_then_the_book() {
    for length in 0..24 {
        assert_eq!(printed(&vec![0xff; length]), "refused 1\n");
    }
    for length in 24..=87 {
        assert_eq!(printed(&vec![0xff; length]), "refused 7\n");
    }
}

#[test]
fn refusals_come_in_their_order() {
    let pairs = [
        ("words_cut_off_and_no_numbers", 1),
        ("book_cut_off_and_no_numbers", 7),
        ("one_ring_cut_off", 7),
        ("one_ring_and_infinite_move", 8),
        ("one_ring_and_no_tolerance", 8),
        ("infinite_move_and_no_tolerance", 2),
        ("short_and_large_tolerance", 3),
    ];
    for (name, number) in pairs {
        assert_eq!(of(name), format!("refused {number}\n"), "{name}");
    }
}
