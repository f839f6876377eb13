//! The pictures of the README, `docs/byr_NAME.svg`, are what the command draws now;
//! `tools/byr_pictures` makes them anew. What they say stands in text in each.

use std::fs;
use std::path::Path;
use std::process::Command;

const ROOT: &str = concat!(env!("CARGO_MANIFEST_DIR"), "/..");

/// The commands of `tools/byr_pictures`: each picture's name, and the words before it.
fn listed() -> Vec<(String, Vec<String>)> {
    let tool = fs::read_to_string(Path::new(ROOT).join("tools/byr_pictures")).expect("the tool");
    let command = |line: &str| {
        let words = line.strip_prefix("draw ")?;
        let (name, words) = words.split_once(' ')?;
        Some((name.to_string(), words.split(' ').map(String::from).collect()))
    };
    tool.lines().filter_map(command).collect()
}

#[test]
fn the_pictures_are_drawn_as_stored() {
    let listed = listed();
    assert!(listed.len() >= 3);
    for (name, words) in listed {
        let drawn = Path::new(env!("CARGO_TARGET_TMPDIR")).join(format!("{name}.svg"));
        let output = Command::new(env!("CARGO_BIN_EXE_byr"))
            .args(words)
            .arg("--svg")
            .arg(&drawn)
            .current_dir(Path::new(ROOT).join("byr/shop"))
            .output()
            .expect("run");
        assert!(matches!(output.status.code(), Some(0 | 1)), "{name}: {output:?}");
        let stored = Path::new(ROOT).join(format!("docs/byr_{name}.svg"));
        let [stored, drawn] = [stored, drawn].map(|path| fs::read_to_string(path).expect("drawn"));
        assert!(stored == drawn, "{name}: run tools/byr_pictures");
        assert!(drawn.contains("<title>") && drawn.contains("<desc>"), "{name}");
    }
}
