//! The jobs: of each one record, from which it is called, its words are read and its help is
//! made.

mod book;
mod check;
mod disc;
mod inspect;
mod mend;
mod report;
mod same;
mod show;
mod slide;
mod why;

use crate::asked::Asked;
use crate::nearest::close;
use crate::told::Told;
use crate::{help, Fault, Result};

/// A job.
pub struct Job {
    /// Its name.
    pub name: &'static str,
    /// The words behind it.
    pub usage: &'static str,
    /// What it is for.
    pub what: &'static str,
    /// More about it.
    pub more: &'static str,
    /// An example.
    pub example: &'static str,
    /// The options that have a value.
    pub valued: &'static [&'static str],
    /// The options that have none.
    pub flags: &'static [&'static str],
    /// What it answers to the words behind it.
    pub call: fn(&Asked) -> Result<Told>,
}

/// All of them, in the order in which a shop uses them.
pub const JOBS: [&Job; 10] = [
    &book::JOB,
    &same::JOB,
    &show::JOB,
    &mend::JOB,
    &disc::JOB,
    &slide::JOB,
    &why::JOB,
    &check::JOB,
    &inspect::JOB,
    &report::JOB,
];

/// Does what the words ask for.
pub fn called(words: &[String]) -> Result<Told> {
    let Some((first, rest)) = words.split_first() else {
        return Err(Fault::new("no job is named: byr help says what there is"));
    };
    match first.as_str() {
        "help" | "--help" | "-h" => helped(rest),
        "version" | "--version" if rest.is_empty() => Ok(Told::of(help::version())),
        "version" | "--version" => Err(Fault::new("version: takes nothing behind it (byr help)")),
        name => {
            let job = find(name)?;
            if rest.iter().take_while(|word| *word != "--").any(|word| asks_help(word)) {
                return Ok(Told::of(help::of(job)));
            }
            (job.call)(&Asked::of(job, rest)?)
        }
    }
}

/// Whether a word asks for help.
fn asks_help(word: &str) -> bool {
    word == "--help" || word == "-h"
}

/// The job of this name.
fn find(name: &str) -> Result<&'static Job> {
    if let Some(job) = JOBS.into_iter().find(|job| job.name == name) {
        return Ok(job);
    }
    let known: Vec<&str> = JOBS.iter().map(|job| job.name).chain(["help"]).collect();
    let like = close(name, &known).map_or(String::new(), |like| format!(": {like} is one"));
    Err(Fault::new(format!("no job \"{name}\"{like} (byr help)")))
}

/// The help for all, or for one.
fn helped(words: &[String]) -> Result<Told> {
    Ok(Told::of(match words {
        [] => help::all(),
        [name] if name == "help" || asks_help(name) => help::all(),
        [name] => help::of(find(name)?),
        _ => return Err(Fault::new("help: takes one job at most (byr help)")),
    }))
}
