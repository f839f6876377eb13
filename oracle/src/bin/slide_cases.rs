//! Writes the stored inputs and outputs of the program `slide_trace`: the one of
//! the gate and the cases beside it. `slide_cases DIRECTORY` gives its crate.

fn main() -> std::process::ExitCode {
    oracle::slide::PROGRAM.write_to_argument()
}
