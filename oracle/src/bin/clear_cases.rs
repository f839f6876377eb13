//! Writes the stored inputs and outputs of the program `clear_move`: the one of the gate,
//! the cases beside it, and the spoilt outputs. `clear_cases DIRECTORY` gives its crate.

fn main() -> std::process::ExitCode {
    oracle::clear_move::PROGRAM.write_to_argument()
}
