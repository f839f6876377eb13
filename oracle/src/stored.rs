//! The stored inputs of a program of the repository and what it must print for
//! them: the one of the gate, and the cases beside it.

use std::io::Result;
use std::path::Path;
use std::process::ExitCode;

/// Inputs by their names.
pub type Cases = Vec<(&'static str, Vec<u8>)>;

/// Files by their places in a crate.
pub type Files = Vec<(String, Vec<u8>)>;

/// A program that reads standard input and prints.
pub struct Program {
    /// The input of the gate.
    pub example: fn() -> Vec<u8>,
    /// The inputs beside it.
    pub cases: fn() -> Cases,
    /// What is printed for an input.
    pub printed: fn(&[u8]) -> String,
    /// Files that are stored besides.
    pub others: fn() -> Files,
}

impl Program {
    /// The stored files, by their places in the program's crate.
    pub fn files(&self) -> Files {
        let pair = |given: String, expected: String, input: Vec<u8>| {
            let text = (self.printed)(&input).into_bytes();
            [(given, input), (expected, text)]
        };
        let beside = (self.cases)().into_iter().flat_map(|(name, input)| {
            pair(format!("cases/{name}.in"), format!("cases/{name}.out"), input)
        });
        let gate = pair("stdin".into(), "stdout".into(), (self.example)());
        gate.into_iter().chain(beside).chain((self.others)()).collect()
    }

    /// Writes them to the program's crate.
    fn write(&self, directory: &Path) -> Result<()> {
        for (name, held) in self.files() {
            let file = directory.join(name);
            std::fs::create_dir_all(file.parent().expect("a file stands in a folder"))?;
            std::fs::write(file, held)?;
        }
        Ok(())
    }

    /// Writes them to the directory that the first argument names.
    pub fn write_to_argument(&self) -> ExitCode {
        let Some(directory) = std::env::args().nth(1) else {
            eprintln!("give the directory of the crate");
            return ExitCode::FAILURE;
        };
        if let Err(fault) = self.write(Path::new(&directory)) {
            eprintln!("the cases could not be written: {fault}");
            return ExitCode::FAILURE;
        }
        ExitCode::SUCCESS
    }
}
