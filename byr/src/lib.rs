//! The shop's own command: each job is one that a person has. It reads files by what is in
//! them, computes an answer, and says it in words, pictures and pages. What is computed comes
//! from the proved library; here files are read and written, and answers told.
//!
//! `jobs` read what is asked for and write what is wanted, `answers` are values, `words` turn
//! them into lines, `pictures` into drawings and `page` into the auditor's file.
//!
//! The status is 0 where all is well, 1 where the answer is no or something warns, and 2 where
//! there is no answer: then one line says why.

#![forbid(unsafe_code)]

mod answers;
mod asked;
pub mod drawing;
mod fault;
mod files;
mod foreign;
mod grid;
mod help;
mod jobs;
mod nearest;
mod page;
mod pictures;
mod plain;
mod shelf;
mod text;
mod told;
mod walk;
mod wkt;
mod words;

pub use fault::{Fault, Result};

use std::ffi::OsString;
use std::io::{ErrorKind, Write};
use std::process::ExitCode;
use told::Told;

/// Does what the arguments ask for; the status of the command.
pub fn run(arguments: impl Iterator<Item = OsString>) -> ExitCode {
    match answered(arguments) {
        Ok(told) => ExitCode::from(u8::from(!told.well)),
        Err(fault) => {
            // Where standard error is closed nobody can be told.
            let _ = writeln!(std::io::stderr(), "byr: {fault}");
            ExitCode::from(2)
        }
    }
}

/// What the arguments' job says, once it is on standard output.
fn answered(arguments: impl Iterator<Item = OsString>) -> Result<Told> {
    // A word with such a sign, the name of a file say, would spoil the lines that tell of it.
    let unseen = |word: &str| word.contains(char::is_control);
    let text = |word: OsString| match word.into_string() {
        Ok(word) if unseen(&word) => {
            Err(Fault::new(format!("{word:?} has a sign that cannot be seen: name it otherwise")))
        }
        Ok(word) => Ok(word),
        Err(word) => Err(Fault::new(format!("{word:?} is no text: name it otherwise"))),
    };
    let arguments = arguments.map(text).collect::<Result<Vec<String>>>()?;
    let told = jobs::called(&arguments)?;
    match print(&told::printed(&told.lines)) {
        // A reader that has seen enough, as `head`, is no fault.
        Err(error) if error.kind() == ErrorKind::BrokenPipe => Ok(told),
        Err(error) => Err(Fault::of("standard output", files::spoken(&error))),
        Ok(()) => Ok(told),
    }
}

/// Writes the words to standard output, whole.
pub(crate) fn print(words: &str) -> std::io::Result<()> {
    let mut out = std::io::stdout().lock();
    out.write_all(words.as_bytes())?;
    out.flush()
}
