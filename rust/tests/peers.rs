//! Replays the files that GEOS, GDAL and PostGIS wrote, `peers/` at the root:
//! stored.txt has for each what the reader says.

use byrlygent::wkb::{read_wkb, write_wkb};
use byrlygent::Refusal;
use std::collections::BTreeSet;
use std::fs;
use std::path::Path;

const FOLDER: &str = concat!(env!("CARGO_MANIFEST_DIR"), "/../peers");

/// Of each listed file its name, the program that wrote it, and what is said of it.
fn listed() -> Vec<[String; 3]> {
    let list = fs::read_to_string(Path::new(FOLDER).join("stored.txt")).expect("a list");
    let block = |block: &str| {
        let lines: Vec<&str> = block.lines().map(str::trim).collect();
        let [name, program, _command, says] = lines[..] else { panic!("four lines: {block}") };
        [name, program, says].map(String::from)
    };
    list.split("\n\n").filter(|block| !block.starts_with('#')).map(block).collect()
}

/// The bytes of a file.
fn bytes(name: &str) -> Vec<u8> {
    fs::read(Path::new(FOLDER).join(name)).unwrap_or_else(|error| panic!("{name}: {error}"))
}

/// What the reader says of a file, in the words of the list.
fn said(wkb: &[u8]) -> String {
    match read_wkb(wkb) {
        Ok(ring) => {
            let numbers = ring.iter().flat_map(|point| [point.0, point.1]);
            let bits = numbers.map(|number| format!(" {:016x}", number.to_bits()));
            format!("ring{}", bits.collect::<String>())
        }
        Err(Refusal::Wkb { place, .. }) => format!("refused 10 {place}"),
        Err(refusal) => panic!("{refusal}"),
    }
}

#[test]
fn every_stored_file_is_listed_once() {
    let names: Vec<String> = listed().into_iter().map(|[name, ..]| name).collect();
    let entries = fs::read_dir(FOLDER).expect("a folder of files");
    let files = entries.map(|entry| entry.expect("an entry").file_name().into_string());
    let files: BTreeSet<String> = files.map(|name| name.expect("a name that is text")).collect();
    let stored = files.into_iter().filter(|name| name.ends_with(".wkb"));
    let mut sorted = names.clone();
    sorted.sort();
    assert_eq!(sorted, stored.collect::<Vec<_>>());
}

#[test]
fn every_stored_file_is_read_as_listed() {
    for [name, _, says] in listed() {
        assert_eq!(said(&bytes(&name)), says, "{name}");
    }
}

#[test]
fn what_is_written_of_a_ring_is_what_the_peers_write() {
    for [name, program, _] in listed() {
        let file = bytes(&name);
        let Ok(ring) = read_wkb(&file) else { continue };
        let written = write_wkb(&ring).expect("a ring that was read");
        assert_eq!(said(&written), said(&file), "{name}");
        let same_ends = file[13..29] == file[file.len() - 16..];
        assert_eq!(written == file, file[0] == 1 && same_ends, "{name}, {program}");
    }
}

#[test]
fn the_list_has_each_program_and_each_field_of_the_head_in_both_orders() {
    let files = listed();
    let any = |program: &str, order: u8, length: usize, words: &str| {
        files.iter().any(|[name, by, says]| {
            let file = bytes(name);
            let fits = file[0] == order && file.len() >= length;
            fits && by.starts_with(program) && format!("{says} ").starts_with(words)
        })
    };
    for order in [0, 1] {
        for program in ["GEOS", "GDAL", "PostGIS"] {
            assert!(any(program, order, 0, "ring "), "{program}, {order}");
            assert!(any(program, order, 0, "refused 10 1 "), "{program}, {order}");
        }
        assert!(any("", order, 13 + 16 * 257, "ring "), "256 vertices, {order}");
        for place in [0, 5, 9] {
            assert!(any("", order, 0, &format!("refused 10 {place} ")), "{place}, {order}");
        }
    }
}
