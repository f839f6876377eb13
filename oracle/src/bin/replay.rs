//! Writes a replay list to standard output: `replay NAME` the list that the
//! repository stores, `replay NAME long COUNT SEED` so many seeded records of
//! the same form, one after the other. What they hold is counted on standard
//! error.

use oracle::replay::{bytes, list, List};
use oracle::seeded::Seeded;
use std::collections::BTreeMap;
use std::io::{BufWriter, Result, Write};
use std::process::ExitCode;

const USAGE: &str = "give the name of a list: scalars, rings, whole, clear, grid, drawn, discs,
book, wkb, places, sliding, traces or paths;
after it, `long COUNT SEED` for so many seeded records";

/// Writes records and counts what they hold.
struct Writer<W> {
    out: W,
    counts: BTreeMap<String, u64>,
    written: u64,
}

impl<W: Write> Writer<W> {
    /// A writer to this stream.
    fn new(out: W) -> Self {
        Self { out, counts: BTreeMap::new(), written: 0 }
    }

    /// Writes a record.
    fn add(&mut self, list: &List, record: &[u64]) -> Result<()> {
        for label in (list.counted)(record) {
            *self.counts.entry(label).or_default() += 1;
        }
        self.written += 8 * record.len() as u64;
        self.out.write_all(&bytes(record))
    }

    /// Says what was written.
    fn report(&mut self) -> Result<()> {
        self.out.flush()?;
        self.counts.iter().for_each(|(label, count)| eprintln!("{label}: {count}"));
        eprintln!("{} bytes", self.written);
        Ok(())
    }
}

/// Writes the list that the repository stores.
fn stored(list: &List, out: impl Write) -> Result<()> {
    let mut writer = Writer::new(out);
    for record in (list.stored)() {
        writer.add(list, &record)?;
    }
    writer.report()
}

/// Writes so many records that the seed decides.
fn long(list: &List, count: u64, seed: u64, out: impl Write) -> Result<()> {
    let seeded = &mut Seeded::new(seed);
    let mut writer = Writer::new(out);
    for place in 0..count {
        writer.add(list, &(list.long)(seeded, place))?;
    }
    writer.report()
}

/// Writes what the arguments ask for; nothing if they ask for nothing there is.
fn run(arguments: &[&str]) -> Option<Result<()>> {
    let out = BufWriter::new(std::io::stdout().lock());
    match *arguments {
        [name] => Some(stored(&list(name)?, out)),
        [name, "long", count, seed] => {
            Some(long(&list(name)?, count.parse().ok()?, seed.parse().ok()?, out))
        }
        _ => None,
    }
}

fn main() -> ExitCode {
    let arguments: Vec<String> = std::env::args().skip(1).collect();
    let arguments: Vec<&str> = arguments.iter().map(|argument| &argument[..]).collect();
    match run(&arguments) {
        Some(Ok(())) => ExitCode::SUCCESS,
        Some(Err(fault)) => {
            eprintln!("the list could not be written: {fault}");
            ExitCode::FAILURE
        }
        None => {
            eprintln!("{USAGE}");
            ExitCode::FAILURE
        }
    }
}
