//! Compares the static library with the oracle: `compare COUNT SEED` makes every
//! call of the stored replay lists, every small case in whole numbers, every small
//! ring to mend, every shift on a path of up to 40 places, and COUNT seeded ones
//! besides, through both; counts out the laws of shifts one after the other; and
//! makes a million seeded roots, whatever COUNT is.
//! Calls of some lists are held to laws besides, which call the library twice.
//! The table counts cases by call, refusal, stop reason and ground; it ends in how
//! many agree. The status is 1 unless all do, every exported call was made, and
//! explanations of every ground, with hits of both kinds and dozens of other pairs
//! at one distance, paths with each fault and with none, and moves, reasons and paths of
//! every ground, in whole numbers and drawn, were among them.

use compare::lists::{check_rings, check_whole, places, scalars, Checked, LISTS};
use compare::tally::{Compared, Tally};
use compare::{ffi, hold_interface, ABI_VERSION};
use oracle::replay::scalars::seeded_root;
use oracle::replay::{list, places::every as every_shift, rings, whole};
use oracle::seeded::Seeded;
use std::collections::BTreeSet;
use std::process::ExitCode;

/// The declarations of the exported functions.
const HEADER: &str = include_str!("../../../include/byrlygent.h");

/// The exported functions that were not compared, without their prefix.
fn missing(tally: &Tally) -> BTreeSet<&'static str> {
    let names = HEADER.split("byr_").skip(1).filter_map(|rest| Some(rest.split_once('(')?.0));
    let is_name = |name: &&str| name.chars().all(|c| c.is_ascii_alphanumeric() || c == '_');
    names.filter(is_name).filter(|name| !tally.has(name)).collect()
}

/// How many roots are compared besides.
const ROOTS: u64 = 1_000_000;

/// Most places of the paths of which every shift is compared.
const SMALL_PATH: u64 = 40;

/// Compares a record of the list, and holds its call to the laws.
fn compare(tally: &mut Tally, checked: &Checked, record: &[u64], origin: impl Fn() -> String) {
    tally.add((checked.check)(record), &origin);
    let held = checked.laws.iter().filter_map(|law| law(record));
    held.for_each(|compared| tally.add(compared, &origin));
}

/// Compares the stored records of each list, and its share of so many seeded ones; every
/// small case in whole numbers, and every small ring to mend; every shift on a small
/// path, and the laws of shifts; and the roots.
fn run(count: u64, seed: u64) -> Tally {
    let mut tally = Tally::default();
    // SAFETY: the function takes nothing.
    let number = unsafe { ffi::byr_abi_version() };
    tally.add(Compared::of("abi_version", 0, ABI_VERSION, number), || "the interface".to_string());
    for checked in LISTS {
        let list = list(checked.name).expect("each of these is a list");
        for (place, record) in (list.stored)().iter().enumerate() {
            let origin = || format!("{}, stored record {place}", checked.name);
            compare(&mut tally, &checked, record, origin);
        }
        let seeded = &mut Seeded::new(seed);
        for place in 0..count * checked.share / 100 {
            let record = (list.long)(seeded, place);
            let origin = || format!("{}, seed {seed}, record {place}", checked.name);
            compare(&mut tally, &checked, &record, origin);
        }
    }
    for (place, record) in whole::every().enumerate() {
        tally.add(check_whole(&record), || format!("whole, small case {place}"));
    }
    for (place, record) in rings::every().enumerate() {
        tally.add(check_rings(&record), || format!("rings, small ring {place} to mend"));
    }
    for (place, record) in every_shift(SMALL_PATH).enumerate() {
        tally.add(places::check(&record), || format!("places, small case {place}"));
    }
    for run in places::runs() {
        tally.add(places::laws(run), || format!("places, n, k, start and shifts {run:?}"));
    }
    let seeded = &mut Seeded::new(seed);
    for place in 0..ROOTS {
        let record = seeded_root(seeded);
        tally.add(scalars::check(&record), || format!("seed {seed}, root {place}: {record:x?}"));
    }
    tally
}

/// The count and the seed that the arguments give.
fn arguments() -> Option<(u64, u64)> {
    let mut words = std::env::args().skip(1);
    let (count, seed) = (words.next()?.parse().ok()?, words.next()?.parse().ok()?);
    words.next().is_none().then_some((count, seed))
}

fn main() -> ExitCode {
    let Some((count, seed)) = arguments() else {
        eprintln!("give how many seeded cases to compare, and a seed");
        return ExitCode::FAILURE;
    };
    hold_interface();
    println!("seed {seed}");
    let tally = run(count, seed);
    println!("{tally}");
    let missing = missing(&tally);
    missing.iter().for_each(|name| println!("{name} was not compared"));
    let unreached = tally.unreached();
    unreached.iter().for_each(|told| println!("{told}"));
    let (cases, agree) = tally.totals();
    if agree == cases && missing.is_empty() && unreached.is_empty() {
        ExitCode::SUCCESS
    } else {
        ExitCode::FAILURE
    }
}
