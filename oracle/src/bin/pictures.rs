//! Writes the pictures of a whole move. `pictures DIRECTORY` gives where to.

use std::path::Path;
use std::process::ExitCode;

fn main() -> ExitCode {
    let Some(directory) = std::env::args().nth(1) else {
        eprintln!("give the directory of the pictures");
        return ExitCode::FAILURE;
    };
    for (name, held) in oracle::pictures::files() {
        if let Err(fault) = std::fs::write(Path::new(&directory).join(&name), held) {
            eprintln!("{name} could not be written: {fault}");
            return ExitCode::FAILURE;
        }
    }
    ExitCode::SUCCESS
}
