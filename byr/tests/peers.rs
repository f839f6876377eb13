//! The drawings that GEOS, GDAL and PostGIS wrote, `peers/` at the root, go through `book`,
//! `same` and `show`, or are told with the byte that `stored.txt` has for them.

use std::path::Path;
use std::process::Command;

const PEERS: &str = concat!(env!("CARGO_MANIFEST_DIR"), "/../peers");

/// Of each listed file its name, and what the reader says of it.
fn listed() -> Vec<(String, String)> {
    let list = std::fs::read_to_string(Path::new(PEERS).join("stored.txt")).expect("a list");
    let block = |block: &str| {
        let lines: Vec<&str> = block.lines().map(str::trim).collect();
        (lines[0].to_string(), lines[lines.len() - 1].to_string())
    };
    list.split("\n\n").filter(|block| !block.starts_with('#')).map(block).collect()
}

/// The status and the words of a command on files of the folder.
fn byr(words: &[&str]) -> (i32, String) {
    let mut command = Command::new(env!("CARGO_BIN_EXE_byr"));
    let output = command.args(words).current_dir(PEERS).output().expect("run");
    let words = [output.stdout, output.stderr].concat();
    (output.status.code().expect("no signal"), String::from_utf8(words).expect("text"))
}

#[test]
fn every_drawing_goes_through_or_is_told_with_its_byte() {
    let book = Path::new(env!("CARGO_TARGET_TMPDIR")).join("peers.book");
    let book = book.to_str().expect("a name");
    let (mut through, mut told) = (0, 0);
    for (name, says) in listed() {
        let show = byr(&["show", &name]);
        let write = byr(&["book", book, &name]);
        if let Some(place) = says.strip_prefix("refused 10 ") {
            for (status, words) in [show, write] {
                assert_eq!(status, 2, "{name}");
                assert!(words.contains(&format!("wrong at byte {place}: ")), "{name}: {words}");
                assert_eq!(words.lines().count(), 1, "{name}: {words}");
            }
            told += 1;
        } else {
            for (status, words) in [show, write] {
                assert_eq!(status, i32::from(words.contains("\nWARNING: ring 0")), "{name}");
            }
            assert!(byr(&["same", book, &name]).1.starts_with("the same\n"), "{name}");
            through += 1;
        }
    }
    assert!(through > 10 && told > 10, "{through} through, {told} told");
}
