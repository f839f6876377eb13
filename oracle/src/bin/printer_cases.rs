//! Writes the stored inputs and outputs of the program `ring_printer`: the one of
//! the gate and the cases beside it. `printer_cases DIRECTORY` gives its crate.

fn main() -> std::process::ExitCode {
    oracle::printer::PROGRAM.write_to_argument()
}
