//! Files of each kind, damaged and at random, are read without a panic, and what is wrong
//! is told in one line, by the command too. `BYR_FILES` sets how many of each kind there are;
//! of every hundred the command is given one.

use byr::drawing::{path, rings, Kind, Ring};
use byrlygent::outline_book::write_book;
use byrlygent::wkb::write_wkb;
use byrlygent::Point;
use std::fs;
use std::path::{Path, PathBuf};
use std::process::Command;

/// Numbers from a seed: splitmix64.
struct Seeded(u64);

impl Seeded {
    /// The next number.
    fn next(&mut self) -> u64 {
        self.0 = self.0.wrapping_add(0x9e37_79b9_7f4a_7c15);
        let z = (self.0 ^ (self.0 >> 30)).wrapping_mul(0xbf58_476d_1ce4_e5b9);
        let z = (z ^ (z >> 27)).wrapping_mul(0x94d0_49bb_1331_11eb);
        z ^ (z >> 31)
    }

    /// The next number below one.
    fn below(&mut self, n: usize) -> usize {
        (self.next() % n as u64) as usize
    }

    /// A ring of 3 to 12 corners.
    fn ring(&mut self) -> Vec<Point> {
        let corners = 3 + self.below(10);
        let mut number = || (self.below(20_001) as f64 - 10_000.0) / 8.0;
        (0..corners).map(|_| (number(), number())).collect()
    }

    /// The bytes, damaged in one to four places.
    fn damaged(&mut self, mut bytes: Vec<u8>) -> Vec<u8> {
        for _ in 0..1 + self.below(4) {
            let at = self.below(bytes.len() + 1);
            match self.below(6) {
                0 => bytes.truncate(at),
                1 => bytes.insert(at, self.next() as u8),
                2 => {
                    drop(bytes.drain(at.min(bytes.len())..bytes.len().min(at + 1 + self.below(9))))
                }
                3 => bytes.extend_from_within(at..),
                _ if at < bytes.len() && self.below(2) == 0 => bytes[at] ^= 1 << self.below(8),
                _ if at < bytes.len() => bytes[at] = SIGNS[self.below(SIGNS.len())],
                _ => {}
            }
        }
        bytes
    }
}

/// Bytes that stand at the ends of things.
const SIGNS: &[u8] = b"()-+,.#eE \n\r\t0149\x00\x01\x7f\x80\xff\xef\xf8Pp";

/// The ring as well-known text.
fn wkt(ring: &[Point]) -> Vec<u8> {
    let points = ring.iter().chain(ring.first()).map(|(x, y)| format!("{x} {y}"));
    format!("POLYGON (({}))\n", points.collect::<Vec<_>>().join(", ")).into_bytes()
}

/// The ring as text.
fn text(ring: &[Point]) -> Vec<u8> {
    let line = |(x, y): &Point| format!("{x}, {y} # corner\n");
    ring.iter().map(line).collect::<String>().into_bytes()
}

/// A whole file of a kind.
fn whole(kind: Kind, seeded: &mut Seeded) -> Vec<u8> {
    let ring = seeded.ring();
    match kind {
        Kind::Book => {
            let other = seeded.ring();
            write_book(&[(7, ring), (8, other)]).expect("in bounds")
        }
        Kind::Wkb => write_wkb(&ring).expect("in bounds"),
        Kind::Wkt => wkt(&ring),
        Kind::Text => text(&ring),
    }
}

/// That what was read is in bounds, or what is wrong is one line.
fn judge(read: Result<Vec<Ring>, String>) -> bool {
    match read {
        Ok(rings) => {
            for ring in &rings {
                let all = ring.points.iter().flat_map(|&(x, y)| [x, y]);
                assert!(all.into_iter().all(|x| x.abs() <= 1e6), "{ring:?}");
                assert!((3..=256).contains(&ring.points.len()), "{ring:?}");
            }
            true
        }
        Err(words) => {
            assert!(!words.is_empty() && words.lines().count() == 1, "{words:?}");
            false
        }
    }
}

/// How many files there are of each kind.
fn count() -> usize {
    std::env::var("BYR_FILES").ok().and_then(|count| count.parse().ok()).unwrap_or(2_000)
}

#[test]
fn whole_files_are_read_as_what_they_are() {
    let mut seeded = Seeded(1);
    for kind in [Kind::Book, Kind::Wkb, Kind::Wkt, Kind::Text] {
        for _ in 0..count() / 10 {
            let file = whole(kind, &mut seeded);
            assert_eq!(rings(&file).map(|(kind, _)| kind), Ok(kind));
        }
    }
}

#[test]
fn damaged_files_are_told_or_read() {
    for (seed, kind) in [Kind::Book, Kind::Wkb, Kind::Wkt, Kind::Text].into_iter().enumerate() {
        let mut seeded = Seeded(100 + seed as u64);
        let mut told = 0;
        for _ in 0..count() {
            let file = whole(kind, &mut seeded);
            let file = seeded.damaged(file);
            told += usize::from(!judge(rings(&file).map(|(_, rings)| rings)));
            if let Ok(Ring { points, .. }) = path(&file) {
                assert!(points.iter().all(|(x, y)| x.is_finite() && y.is_finite()));
            }
        }
        assert!(told > count() / 10, "{kind}: {told} told");
    }
}

#[test]
fn random_bytes_are_told_or_read() {
    let mut seeded = Seeded(7);
    for _ in 0..count() {
        let length = seeded.below(160);
        let any: Vec<u8> = (0..length).map(|_| seeded.next() as u8).collect();
        judge(rings(&any).map(|(_, rings)| rings));
        let signs: Vec<u8> = (0..length).map(|_| SIGNS[seeded.below(SIGNS.len())]).collect();
        judge(rings(&signs).map(|(_, rings)| rings));
    }
}

/// The jobs that read a drawing or a path: each with what it reads called `F`, and what it
/// writes called `x`.
const JOBS: [&str; 9] = [
    "show F --svg x.svg",
    "same F disc.wkb",
    "book x.book F disc.wkb",
    "mend F x.txt",
    "slide F disc.wkb --passes 200 --svg x.svg",
    "slide carrier.wkt F --passes 200 --path x.txt",
    "why carrier.wkt F --at 60,0 --by 3,4 --svg x.svg",
    "check carrier.wkt disc.wkb F",
    "report x.html carrier.wkt disc.wkb --same F",
];

/// A new folder with the shop's carrier and disc.
fn folder() -> PathBuf {
    let folder = Path::new(env!("CARGO_TARGET_TMPDIR")).join("damaged");
    let _ = fs::remove_dir_all(&folder);
    fs::create_dir_all(&folder).expect("a folder");
    for name in ["carrier.wkt", "disc.wkb"] {
        let shop = Path::new(env!("CARGO_MANIFEST_DIR")).join("shop");
        fs::copy(shop.join(name), folder.join(name)).expect("a copy");
    }
    folder
}

/// The status of a job, which has left its file whole or none, and said why in one line.
fn ended(job: &str, folder: &Path) -> i32 {
    let words = job.split(' ');
    let output = Command::new(env!("CARGO_BIN_EXE_byr")).args(words).current_dir(folder).output();
    let output = output.expect("run");
    // A panic ends in a signal, which has no status.
    let status = output.status.code().expect("no signal");
    let lines = String::from_utf8(output.stderr).expect("text").lines().count();
    assert_eq!(lines, usize::from(status == 2), "{job}: status {status}");
    let mut left = 0;
    for entry in fs::read_dir(folder).expect("a folder") {
        let name = entry.expect("an entry").file_name().into_string().expect("text");
        assert!(!name.starts_with('.'), "{job}: left {name}");
        if name.starts_with('x') {
            fs::remove_file(folder.join(name)).expect("removed");
            left += 1;
        }
    }
    assert_eq!(left, usize::from(status < 2 && job.contains('x')), "{job}: status {status}");
    status
}

#[test]
fn the_command_tells_damaged_files_in_one_line() {
    let folder = folder();
    let mut ends = [0; 3];
    for (seed, kind) in [Kind::Book, Kind::Wkb, Kind::Wkt, Kind::Text].into_iter().enumerate() {
        let mut seeded = Seeded(200 + seed as u64);
        for at in 0..count() / 100 {
            let file = whole(kind, &mut seeded);
            // Every fourth is whole, so that there is something to do.
            let file = if at % 4 == 0 { file } else { seeded.damaged(file) };
            fs::write(folder.join("F"), file).expect("written");
            JOBS.iter().for_each(|job| ends[ended(job, &folder) as usize] += 1);
        }
    }
    assert!(ends.iter().all(|&end| end > count() / 100), "{ends:?}");
}
