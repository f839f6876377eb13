//! Each job starts and ends in less than 50 ms on the shop's drawings: of some runs the
//! fastest, in a folder in memory where the system has one, since a busy machine and a slow
//! disc say nothing of the command.

use std::fs;
use std::path::Path;
use std::process::{Command, Stdio};
use std::time::{Duration, Instant};

/// The jobs, each with its files.
const JOBS: [&str; 12] = [
    "help",
    "book shop.book monday.wkt disc.wkb tab.txt",
    "same monday.wkt thursday.txt",
    "show disc.wkb --svg disc.svg",
    "mend doubled.txt mended.txt",
    "disc made.wkb --centre 0,0 --radius 8 --corners 32",
    "slide carrier.wkt disc.wkb --path path.txt --svg slide.svg",
    "slide notched.wkt disc.wkb",
    "why neighbour.wkb rubber.wkb --at 0,15 --by 31,0 --grid 0.001 --svg why.svg",
    "check carrier.wkt disc.wkb path.txt",
    "inspect path.txt --per-shift 5 --state places.state",
    "report audit.html carrier.wkt disc.wkb --same monday.wkt --at 20,38 --by 10,0 --per-shift 5",
];

/// How long the fastest of ten runs took.
fn fastest(job: &str, folder: &Path) -> Duration {
    let run = || {
        let mut command = Command::new(env!("CARGO_BIN_EXE_byr"));
        command.args(job.split(' ')).current_dir(folder);
        let begun = Instant::now();
        let status = command.stdout(Stdio::null()).status().expect("run");
        assert!(matches!(status.code(), Some(0 | 1)), "{job}");
        begun.elapsed()
    };
    (0..10).map(|_| run()).min().expect("ten")
}

#[test]
fn every_job_takes_less_than_50_ms() {
    let memory = Path::new("/dev/shm").join(format!("byr-times-{}", std::process::id()));
    let made = fs::create_dir(&memory).is_ok();
    let folder = if made { memory } else { Path::new(env!("CARGO_TARGET_TMPDIR")).join("times") };
    let _ = fs::remove_dir_all(&folder);
    fs::create_dir_all(&folder).expect("a folder");
    let shop = Path::new(env!("CARGO_MANIFEST_DIR")).join("shop");
    for entry in fs::read_dir(shop).expect("the shop").flatten() {
        fs::copy(entry.path(), folder.join(entry.file_name())).expect("a copy");
    }
    let begins = "slide carrier.wkt disc.wkb --path path.txt";
    fastest(begins, &folder);
    let new = "inspect path.txt --per-shift 5 --state places.state --new".split(' ');
    let byr = Command::new(env!("CARGO_BIN_EXE_byr")).args(new).current_dir(&folder).output();
    assert!(byr.expect("run").status.success());
    let times = JOBS.map(|job| (job, fastest(job, &folder)));
    fs::remove_dir_all(&folder).expect("taken away");
    for (job, took) in times {
        assert!(took < Duration::from_millis(50), "{job}: {took:?}");
    }
}
