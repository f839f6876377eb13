//! Writes the stored inputs and outputs of the program `explain_move`: the one of
//! the gate and the cases beside it. `explain_cases DIRECTORY` gives its crate.

fn main() -> std::process::ExitCode {
    oracle::explain::PROGRAM.write_to_argument()
}
