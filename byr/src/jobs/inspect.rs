//! Which places of a path does this shift inspect? What was given out is kept in a state
//! file, which is replaced whole. The places are printed before it is: a shift that is
//! interrupted in between inspects them again, and none is forgotten.

use super::Job;
use crate::answers::shift::State;
use crate::asked::Asked;
use crate::drawing::Ring;
use crate::shelf::Shelf;
use crate::told::{printed, Told};
use crate::{files, print, words, Fault, Result};
use byrlygent::Point;
use std::fs::{File, OpenOptions, TryLockError};
use std::io::ErrorKind;
use std::path::Path;
use std::time::{Duration, Instant};

pub const JOB: Job = Job {
    name: "inspect",
    usage: "PATH --per-shift K --state FILE [--new]",
    what: "which places does this shift inspect?",
    more: "FILE keeps where the next shift starts, and is replaced whole. --new begins one at place 0:\n\
           without it there must be one, of this path and this K. FILE.lock keeps two shifts apart.",
    example: "byr inspect path.txt --per-shift 5 --state places.state --new",
    valued: &["per-shift", "state"],
    flags: &["new"],
    call: called,
};

/// How long a shift waits for another that is under way.
const PATIENCE: Duration = Duration::from_secs(3);

/// The places of this shift, once the state is kept for the next one.
fn called(asked: &Asked) -> Result<Told> {
    let [name] = asked.files(["PATH"])?;
    let per_shift = asked.count("per-shift")?;
    let Some(file) = asked.value("state") else {
        return Err(asked.fault("--state is missing: it keeps where the next shift starts"));
    };
    if file == "-" {
        return Err(asked.fault("--state is a file's name, and standard output is none"));
    }
    asked.apart(&[name], &[file])?;
    files::kept_at(file)?;
    let Ring { points: path, opened, .. } = Shelf::default().path(name)?;
    let refused = |refusal: byrlygent::Refusal| asked.fault(refusal.to_string());
    // What is no inspection is told before anything is left beside the state.
    state(asked, file, &path, per_shift)?.next().map_err(refused)?;
    let _lock = lock(file)?;
    let shift = state(asked, file, &path, per_shift)?.next().map_err(refused)?;
    let told = words::shift::given_out(&shift, &path, opened);
    print(&printed(&told)).map_err(|error| {
        let words = files::spoken(&error);
        Fault::of("standard output", format!("{words}: the state is as it was"))
    })?;
    files::write_held(file, shift.after.written().as_bytes())
        .map_err(|fault| Fault::new(format!("{fault}: the places above count as not given out")))?;
    Ok(Told::of(Vec::new()))
}

/// The state in a file, which must be of this path; with --new the first one, where there
/// must be no file yet.
fn state(asked: &Asked, file: &str, path: &[Point], per_shift: u64) -> Result<State> {
    match (Path::new(file).exists(), asked.has("new")) {
        (false, true) => Ok(State::first(path, per_shift)),
        (false, false) => {
            Err(Fault::of(file, "there is no such state: --new begins one at place 0"))
        }
        (true, true) => {
            let kept = kept(file, path, per_shift);
            let words = match kept {
                Ok(_) => "the state is there already, of this path: leave --new away to go on",
                Err(_) => {
                    "is there already, and of no use here: --new begins a state of another name"
                }
            };
            Err(Fault::of(file, words))
        }
        (true, false) => kept(file, path, per_shift),
    }
}

/// The state in a file, which must be of this path.
pub fn kept(file: &str, path: &[Point], per_shift: u64) -> Result<State> {
    let first = State::first(path, per_shift);
    let state = State::read(&files::read(file)?).map_err(|words| {
        let what = "bring back a copy, or begin a state of another name with --new";
        Fault::of(file, format!("{words}: {what}"))
    })?;
    if !state.is_of_path(&first) {
        let words =
            "the state is of another path: name the path that it is of, or begin a state of \
                     another name with --new";
        return Err(Fault::of(file, words));
    }
    if state.per_shift != per_shift {
        let has = state.per_shift;
        let words = format!("the state is of {has} places a shift: keep --per-shift {has}");
        return Err(Fault::of(file, words));
    }
    Ok(state)
}

/// Holds the state for this shift alone, until the file that is handed out is dropped: the
/// system takes it back even from a shift that is killed.
fn lock(state: &str) -> Result<File> {
    let place = std::fs::canonicalize(state).unwrap_or_else(|_| state.into());
    let name = format!("{}.lock", place.display());
    let wrong = |error: std::io::Error| Fault::of(&name, files::spoken(&error));
    let file = match OpenOptions::new().create(true).append(true).open(&name) {
        // A lock that someone else made need only be read to be held.
        Err(error) if error.kind() == ErrorKind::PermissionDenied => File::open(&name),
        opened => opened,
    };
    let file = file.map_err(wrong)?;
    let begun = Instant::now();
    loop {
        match file.try_lock() {
            Ok(()) => return Ok(file),
            Err(TryLockError::Error(error)) => return Err(wrong(error)),
            Err(TryLockError::WouldBlock) if begun.elapsed() > PATIENCE => {
                let words = "another shift is being given out: wait until it is done";
                return Err(Fault::of(state, words));
            }
            Err(TryLockError::WouldBlock) => std::thread::sleep(Duration::from_millis(20)),
        }
    }
}
