//! The command `byr`.

use std::process::ExitCode;

fn main() -> ExitCode {
    byr::run(std::env::args_os().skip(1))
}
