//! Links the static library: from the folder that BYRLYGENT_LIB names, or else
//! from the nearest `target/native` above this package, where `tools/staticlib`
//! leaves it.

use std::env;
use std::path::{Path, PathBuf};

const LIBRARY: &str = "libbyrlygent.a";

/// The folder that holds the library, if it is where it should be.
fn folder(package: &Path) -> Option<PathBuf> {
    if let Some(named) = env::var_os("BYRLYGENT_LIB") {
        let named = PathBuf::from(named);
        return named.join(LIBRARY).is_file().then_some(named);
    }
    let natives = package.ancestors().map(|above| above.join("target/native"));
    natives.into_iter().find(|folder| folder.join(LIBRARY).is_file())
}

fn main() {
    println!("cargo:rerun-if-env-changed=BYRLYGENT_LIB");
    let package = PathBuf::from(env::var_os("CARGO_MANIFEST_DIR").expect("cargo sets it"));
    let Some(folder) = folder(&package) else {
        panic!("no {LIBRARY}: run tools/staticlib, or set BYRLYGENT_LIB to the folder that has it");
    };
    println!("cargo:rerun-if-changed={}", folder.join(LIBRARY).display());
    println!("cargo:rustc-link-search=native={}", folder.display());
    println!("cargo:rustc-link-lib=static=byrlygent");
    println!("cargo:rustc-env=BYRLYGENT_ARCHIVE={}", folder.join(LIBRARY).display());
}
