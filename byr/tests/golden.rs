//! Runs the stored transcripts, `golden/NAME.txt`, and compares what each command prints and
//! its status. A transcript begins in a folder of its own with the shop's drawings, `shop/`,
//! and the drawings of other programs, `peers/`. `BYR_WRITE=1 cargo test` writes the
//! transcripts anew.

use std::fs;
use std::path::{Path, PathBuf};
use std::process::Command;

const ROOT: &str = env!("CARGO_MANIFEST_DIR");

/// Copies the files of a folder.
fn copy(from: &Path, into: &Path) {
    for entry in fs::read_dir(from).expect("a folder") {
        let path = entry.expect("an entry").path();
        if path.is_file() {
            let name = path.file_name().expect("a name");
            fs::copy(&path, into.join(name)).expect("a copy");
        }
    }
}

/// A new folder with the shop's drawings, and those of other programs in `peers`.
fn folder(name: &str) -> PathBuf {
    let folder = Path::new(env!("CARGO_TARGET_TMPDIR")).join(name);
    let _ = fs::remove_dir_all(&folder);
    fs::create_dir_all(folder.join("peers")).expect("a folder");
    copy(&Path::new(ROOT).join("shop"), &folder);
    copy(&Path::new(ROOT).join("../peers"), &folder.join("peers"));
    folder
}

/// What a command prints in a folder, and its status.
fn printed(command: &str, folder: &Path) -> String {
    let byr = Path::new(env!("CARGO_BIN_EXE_byr")).parent().expect("a folder");
    let path = format!("{}:{}", byr.display(), std::env::var("PATH").unwrap_or_default());
    let output = Command::new("sh")
        .args(["-c", &format!("{{ {command}; }} 2>&1")])
        .env("PATH", path)
        .current_dir(folder)
        .output()
        .expect("a shell");
    let mut text = String::from_utf8(output.stdout).expect("text");
    if !text.is_empty() && !text.ends_with('\n') {
        text.push('\n');
    }
    match output.status.code() {
        Some(0) => text,
        status => format!("{text}status {}\n", status.expect("no signal")),
    }
}

/// The transcript with what its commands print now: `$` begins a command, `##` a remark.
fn replayed(transcript: &str, folder: &Path) -> String {
    let mut text = String::new();
    for line in transcript.lines() {
        if let Some(command) = line.strip_prefix("$ ") {
            text += &format!("{line}\n{}", printed(command, folder));
        } else if line.starts_with("## ") {
            let gap = if text.is_empty() { "" } else { "\n" };
            text += &format!("{gap}{line}\n");
        }
    }
    text
}

/// The first line in which two texts differ.
fn difference(a: &str, b: &str) -> String {
    let (mut a, mut b) = (a.lines(), b.lines());
    loop {
        match (a.next(), b.next()) {
            (x, y) if x != y => return format!("stored {x:?}, now {y:?}"),
            (None, None) => return "the ends of lines".into(),
            _ => {}
        }
    }
}

#[test]
fn every_transcript_prints_what_is_stored() {
    let mut transcripts = 0;
    for entry in fs::read_dir(Path::new(ROOT).join("tests/golden")).expect("a folder") {
        let path = entry.expect("an entry").path();
        let name = path.file_stem().expect("a name").to_string_lossy().into_owned();
        let stored = fs::read_to_string(&path).expect("a transcript");
        let now = replayed(&stored, &folder(&name));
        if std::env::var_os("BYR_WRITE").is_some() {
            fs::write(&path, &now).expect("written");
        } else {
            assert!(stored == now, "{name}: {}", difference(&stored, &now));
        }
        transcripts += 1;
    }
    assert!(transcripts >= 10, "{transcripts} transcripts");
}
