//! The stored inputs of the programs are the oracle's, and so is what they must
//! print for each.

use oracle::stored::Program;
use std::collections::BTreeSet;
use std::path::PathBuf;

/// That the files of this crate are the program's, and that there are no others.
fn as_written(name: &str, program: &Program) {
    let directory = PathBuf::from(env!("CARGO_MANIFEST_DIR")).join("../crates").join(name);
    let mut written = BTreeSet::new();
    for (place, held) in program.files() {
        let file = directory.join(&place);
        let stored = std::fs::read(&file).unwrap_or_else(|fault| panic!("{place}: {fault}"));
        assert!(stored == held, "{place}");
        written.insert(file);
    }
    let folders: BTreeSet<_> = written.iter().filter_map(|file| file.parent()).collect();
    assert!(folders.contains(&directory.join("cases").as_path()));
    for folder in folders.into_iter().filter(|folder| *folder != directory) {
        for file in std::fs::read_dir(folder).expect("the files are there") {
            let file = file.expect("a file").path();
            assert!(written.contains(&file), "{}", file.display());
        }
    }
}

#[test]
fn slide_trace_is_as_written() {
    as_written("slide_trace", &oracle::slide::PROGRAM);
}

#[test]
fn explain_move_is_as_written() {
    as_written("explain_move", &oracle::explain::PROGRAM);
}

#[test]
fn ring_printer_is_as_written() {
    as_written("ring_printer", &oracle::printer::PROGRAM);
}

#[test]
fn clear_move_is_as_written() {
    as_written("clear_move", &oracle::clear_move::PROGRAM);
}

#[test]
fn the_pictures_are_as_written() {
    let directory = PathBuf::from(env!("CARGO_MANIFEST_DIR")).join("../docs");
    for (name, held) in oracle::pictures::files() {
        assert!(std::fs::read(directory.join(&name)).is_ok_and(|stored| stored == held), "{name}");
    }
}
