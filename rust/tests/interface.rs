//! The example against other archives: one from before there was a number, and
//! one of another number. Neither may get as far as a call.

use std::path::{Path, PathBuf};
use std::process::{Command, Output};
use std::{env, fs};

/// The archive that this package links.
const ARCHIVE: &str = env!("BYRLYGENT_ARCHIVE");

/// The interface that this package is written for.
const OWN: u32 = 5;

/// Runs a command that must succeed.
fn done(program: &str, words: &[&str]) {
    let status = Command::new(program).args(words).status();
    assert!(status.is_ok_and(|status| status.success()), "{program} {words:?}");
}

/// The folder of the archive without its number, and the archive's path.
fn without_number(name: &str) -> (PathBuf, String) {
    let folder = Path::new(env!("CARGO_TARGET_TMPDIR")).join(name);
    fs::create_dir_all(&folder).expect("a folder for an archive");
    let archive = folder.join("libbyrlygent.a").to_str().expect("a path that is text").to_string();
    done("objcopy", &["--redefine-sym", "byr_abi_version=byr_before", ARCHIVE, &archive]);
    (folder, archive)
}

/// The folder of the archive with this number in place of its own.
fn with_number(number: u32) -> PathBuf {
    let (folder, archive) = without_number(&format!("number_{number}"));
    let [source, object] = ["number.c", "number.o"].map(|file| folder.join(file));
    let text = format!("unsigned byr_abi_version(void) {{ return {number}; }}\n");
    fs::write(&source, text).expect("a file of C");
    let [source, object] = [&source, &object].map(|path| path.to_str().expect("text"));
    done("cc", &["-c", "-fPIC", source, "-o", object]);
    done("ar", &["qs", &archive, object]);
    folder
}

/// What building and running the example with the archive of a folder gives.
fn slide(folder: &Path) -> Output {
    let mut cargo = Command::new(env!("CARGO"));
    cargo.args(["run", "--quiet", "--example", "slide", "--manifest-path"]);
    cargo.arg(concat!(env!("CARGO_MANIFEST_DIR"), "/Cargo.toml"));
    cargo.arg("--target-dir").arg(Path::new(env!("CARGO_TARGET_TMPDIR")).join("slide"));
    cargo.env("BYRLYGENT_LIB", folder).output().expect("cargo runs")
}

#[test]
fn an_archive_of_another_interface_is_never_called() {
    let said = |output: &Output| String::from_utf8_lossy(&output.stderr).into_owned();
    let own = slide(Path::new(ARCHIVE).parent().expect("it stands in a folder"));
    assert!(own.status.success(), "{}", said(&own));
    assert!(own.stdout.starts_with(b"8 passes, ended back at the start\n4 -4\n"));

    let same = slide(&with_number(OWN));
    assert!(same.status.success() && same.stdout == own.stdout, "{}", said(&same));

    let before = slide(&without_number("without").0);
    assert!(!before.status.success() && before.stdout.is_empty());
    assert!(said(&before).contains("byr_abi_version"), "{}", said(&before));

    let past = OWN - 1;
    let other = slide(&with_number(past));
    assert!(!other.status.success() && other.stdout.is_empty());
    let words = format!("libbyrlygent.a has interface {past}, and this crate is written for {OWN}");
    assert!(said(&other).contains(&words), "{}", said(&other));
}
