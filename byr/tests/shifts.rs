//! Shifts that are interrupted, and shifts at the same time: the state is the old one or
//! the new one, and no place is forgotten.

use std::fs;
use std::path::{Path, PathBuf};
use std::process::{Command, Stdio};
use std::time::{Duration, Instant};

/// A new folder with a path of so many points.
fn folder(name: &str, points: usize) -> PathBuf {
    let folder = Path::new(env!("CARGO_TARGET_TMPDIR")).join(name);
    let _ = fs::remove_dir_all(&folder);
    fs::create_dir_all(&folder).expect("a folder");
    let lines: String = (0..points).map(|at| format!("{at} 0\n")).collect();
    fs::write(folder.join("path.txt"), lines).expect("written");
    folder
}

/// The next shift of five places.
fn shift(folder: &Path, new: bool) -> Command {
    let mut command = Command::new(env!("CARGO_BIN_EXE_byr"));
    command.args(["inspect", "path.txt", "--per-shift", "5", "--state", "places.state"]);
    command.args(new.then_some("--new")).current_dir(folder);
    command.stdout(Stdio::piped()).stderr(Stdio::piped());
    command
}

/// The number behind this word of the state.
fn kept(folder: &Path, word: &str) -> u64 {
    let state = fs::read_to_string(folder.join("places.state")).expect("a state");
    let line = state.lines().find_map(|line| line.strip_prefix(word)).expect("the word");
    line.trim().parse().expect("a number")
}

/// What stands beside the state while a new one is written.
fn beside(folder: &Path) -> PathBuf {
    folder.join(".places.state.byr.new")
}

/// Kills a shift as soon as its moment has come, or it has ended; how many shifts the state
/// has more, which is none or one.
fn killed(folder: &Path, mut moment: impl FnMut() -> bool) -> u64 {
    let before = kept(folder, "shifts");
    let mut child = shift(folder, false).spawn().expect("begun");
    while !moment() && child.try_wait().expect("asked").is_none() {
        std::hint::spin_loop();
    }
    let _ = child.kill();
    child.wait().expect("ended");
    let more = kept(folder, "shifts") - before;
    assert!(more <= 1, "{more} shifts at once");
    assert_eq!(kept(folder, "start"), 5 * kept(folder, "shifts") % 1000);
    more
}

/// The places that a shift printed.
fn places(printed: &[u8]) -> Vec<u64> {
    let text = String::from_utf8_lossy(printed);
    let place = |line: &str| line.strip_prefix("place ")?.split(':').next()?.parse().ok();
    text.lines().filter_map(place).collect()
}

#[test]
fn a_killed_shift_leaves_the_old_state_or_the_new_one() {
    let folder = folder("killed", 1000);
    assert!(shift(&folder, true).status().expect("run").success());
    let mut new = 1;
    for delay in 0..120 {
        let begun = Instant::now();
        new += killed(&folder, || begun.elapsed() >= Duration::from_micros(25 * delay));
    }
    // At once it has done nothing, but on a machine that is too busy to kill it at once.
    let at_once: Vec<u64> = (0..20).map(|_| killed(&folder, || true)).collect();
    assert!(at_once.contains(&0));
    // Left to itself it comes to its end.
    assert_eq!(killed(&folder, || false), 1);
    assert_eq!(kept(&folder, "shifts"), new + at_once.iter().sum::<u64>() + 1);
}

#[test]
fn a_shift_that_is_killed_between_its_steps_leaves_nothing_that_stays() {
    let folder = folder("between", 1000);
    assert!(shift(&folder, true).status().expect("run").success());
    let old = fs::read(folder.join("places.state")).expect("a state");
    let mut left = 0;
    // The new state is begun, and may be renamed before it is seen: the more often, the faster the disc.
    for tries in 1..=3000 {
        killed(&folder, || beside(&folder).exists());
        left += u32::from(beside(&folder).exists());
        if tries >= 100 && left > 0 {
            break;
        }
    }
    assert!(left > 0, "none was killed between its steps");
    // The next shift takes away what was left, and were it half a state.
    fs::write(beside(&folder), &old[..old.len() / 2]).expect("written");
    let before = kept(&folder, "shifts");
    assert!(shift(&folder, false).status().expect("run").success());
    assert_eq!(kept(&folder, "shifts"), before + 1);
    let mut names: Vec<_> = fs::read_dir(&folder).expect("a folder").flatten().collect();
    names.sort_by_key(|entry| entry.file_name());
    let names: Vec<_> = names.iter().map(|entry| entry.file_name()).collect();
    assert_eq!(names, ["path.txt", "places.state", "places.state.lock"]);
}

#[test]
fn shifts_at_the_same_time_get_places_of_their_own() {
    let folder = folder("together", 1000);
    assert!(shift(&folder, true).status().expect("run").success());
    let children: Vec<_> = (0..8).map(|_| shift(&folder, false).spawn().expect("begun")).collect();
    let mut all = Vec::new();
    let mut done = 1;
    for child in children {
        let output = child.wait_with_output().expect("ended");
        match output.status.code() {
            Some(0) => {
                done += 1;
                all.extend(places(&output.stdout));
            }
            Some(2) => assert!(String::from_utf8_lossy(&output.stderr).contains("another shift")),
            other => panic!("{other:?}"),
        }
    }
    all.sort_unstable();
    assert_eq!(all, (5..5 * done).collect::<Vec<u64>>());
    assert_eq!(kept(&folder, "shifts"), done);
}

#[test]
fn a_shift_that_holds_the_state_is_waited_for_or_told() {
    let folder = folder("held", 24);
    assert!(shift(&folder, true).status().expect("run").success());
    let lock = fs::File::open(folder.join("places.state.lock")).expect("a lock");
    lock.lock().expect("held");
    let output = shift(&folder, false).output().expect("run");
    assert_eq!(output.status.code(), Some(2));
    let words = "byr: places.state: another shift is being given out: wait until it is done\n";
    assert_eq!(String::from_utf8_lossy(&output.stderr), words);
    assert_eq!((kept(&folder, "shifts"), places(&output.stdout)), (1, vec![]));
    drop(lock);
    assert!(shift(&folder, false).status().expect("run").success());
}

#[test]
fn a_shift_that_is_stopped_as_it_writes_leaves_the_old_state() {
    let folder = folder("stopped", 24);
    assert!(shift(&folder, true).status().expect("run").success());
    let state = fs::read(folder.join("places.state")).expect("a state");
    // No file may grow here: the system kills the shift in the middle of the new state.
    let script = "ulimit -f 0; exec \"$0\" inspect path.txt --per-shift 5 --state places.state";
    let mut stopped = Command::new("sh");
    stopped.args(["-c", script, env!("CARGO_BIN_EXE_byr")]).current_dir(&folder);
    let output = stopped.output().expect("run");
    assert!(!output.status.success(), "{output:?}");
    assert_eq!(fs::read(folder.join("places.state")).expect("a state"), state);
    let next = shift(&folder, false).output().expect("run");
    assert_eq!(places(&next.stdout), places(&output.stdout));
    assert_eq!(places(&next.stdout), [5, 6, 7, 8, 9]);
}
