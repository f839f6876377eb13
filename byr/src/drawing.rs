//! Drawings: files read by what is in them, and written as their name asks for.

use crate::text::{self, Outlines, Wrong};
use crate::{foreign, plain, wkt, Result};
use byrlygent::outline_book::{read_book, write_book};
use byrlygent::wkb::{read_wkb, write_wkb};
use byrlygent::{Point, Refusal};
use std::fmt;
use std::ops::RangeInclusive;

/// How many corners a ring may have, and how many points a path.
const CORNERS: RangeInclusive<usize> = 3..=256;
const PATH: RangeInclusive<usize> = 1..=10_001;

/// The largest coordinate.
const LARGEST: f64 = 1e6;

/// What a file holds.
#[derive(Debug, Clone, Copy, PartialEq, Eq)]
pub enum Kind {
    /// An outline book.
    Book,
    /// Well-known binary.
    Wkb,
    /// Well-known text.
    Wkt,
    /// Two numbers a line.
    Text,
}

impl fmt::Display for Kind {
    fn fmt(&self, f: &mut fmt::Formatter<'_>) -> fmt::Result {
        f.write_str(self.called())
    }
}

impl Kind {
    /// All of them.
    const ALL: [Self; 4] = [Self::Book, Self::Wkb, Self::Wkt, Self::Text];

    /// What it is called.
    pub fn called(self) -> &'static str {
        match self {
            Self::Book => "a book",
            Self::Wkb => "well-known binary",
            Self::Wkt => "well-known text",
            Self::Text => "text",
        }
    }

    /// How the name of such a file ends.
    pub fn ending(self) -> &'static str {
        match self {
            Self::Book => "book",
            Self::Wkb => "wkb",
            Self::Wkt => "wkt",
            Self::Text => "txt",
        }
    }

    /// The kind that a file of this name is written as, if its end says one.
    pub fn named(name: &str) -> Option<Self> {
        let (_, end) = name.rsplit_once('.')?;
        Self::ALL.into_iter().find(|kind| end.eq_ignore_ascii_case(kind.ending()))
    }
}

/// A ring of a drawing.
#[derive(Debug, Clone, PartialEq)]
pub struct Ring {
    /// Its corners, open.
    pub points: Vec<Point>,
    /// The part that it belongs to, where the file tells one.
    pub part: Option<u32>,
    /// Whether the file had its first corner once more at the end.
    pub opened: bool,
    /// What its numbers are.
    pub numbers: Numbers,
}

/// What the numbers of a drawing are, of which floats are kept.
#[derive(Debug, Clone, Copy, PartialEq, Eq)]
pub enum Numbers {
    /// The decimals that the floats are shown as: those of a text.
    Decimals,
    /// The floats themselves: those of a binary file, and what is computed.
    Floats,
    /// Decimals of which one was rounded as it was read.
    Rounded,
}

impl Numbers {
    /// Those of a text, of which none or some were rounded as they were read.
    pub fn of_text(shown: bool) -> Self {
        if shown {
            Self::Decimals
        } else {
            Self::Rounded
        }
    }
}

/// A file of rings.
#[derive(Debug, Clone, PartialEq)]
pub struct Drawing {
    /// The name that it was asked for by.
    pub name: String,
    /// What the file holds.
    pub kind: Kind,
    /// Its rings, each with the index that it has in the file.
    pub rings: Vec<(usize, Ring)>,
}

/// What is in a file: rings that are open, or the points of outlines as they stand, each with
/// its line.
enum Held {
    Rings(Kind, Vec<Ring>),
    Points(Kind, Outlines),
}

/// What is found in a file, or what is wrong with it and what to do.
type Found<T> = std::result::Result<T, String>;

/// What finds rings in the bytes of a file.
pub type Reader = fn(&[u8]) -> Found<(Kind, Vec<Ring>)>;

/// The rings that these bytes hold, or what is wrong with them and what to do.
pub fn rings(bytes: &[u8]) -> Found<(Kind, Vec<Ring>)> {
    Ok(match held(bytes)? {
        Held::Rings(kind, rings) => (kind, rings),
        Held::Points(kind, all) => {
            let ring = if kind == Kind::Text { text_ring } else { closed_ring };
            let numbers = Numbers::of_text(all.shown);
            let ring = |points| Ok(Ring { numbers, ..ring(points)? });
            (kind, all.points.into_iter().map(ring).collect::<Found<_>>()?)
        }
    })
}

/// The same with the repeated points that the file has; of a text the closing one too.
pub fn rings_as_drawn(bytes: &[u8]) -> Found<(Kind, Vec<Ring>)> {
    let as_drawn = |points: Vec<(usize, Point)>| {
        bounded(&points)?;
        let points = points.into_iter().map(|(_, point)| point).collect();
        Ok(Ring { points, part: None, opened: false, numbers: Numbers::Floats })
    };
    match held(bytes)? {
        Held::Points(Kind::Text, all) => {
            Ok((Kind::Text, all.points.into_iter().map(as_drawn).collect::<Found<_>>()?))
        }
        _ => rings(bytes),
    }
}

/// What a file with these bytes holds, if it is a drawing.
pub fn kind_of(bytes: &[u8]) -> Option<Kind> {
    match held(bytes).ok()? {
        Held::Rings(kind, _) | Held::Points(kind, _) => Some(kind),
    }
}

/// The path that these bytes hold, opened where its first point stood once more at the end.
pub fn path(bytes: &[u8]) -> Found<Ring> {
    let mut path = match held(bytes)? {
        Held::Points(Kind::Text, all) => {
            let points = || all.points.iter().flatten();
            let far = points().find(|(_, (x, y))| !x.is_finite() || !y.is_finite());
            if let Some((line, _)) = far {
                return Err(format!("line {line}: the position is not finite"));
            }
            let points = points().map(|(_, point)| *point).collect();
            Ring { points, part: None, opened: false, numbers: Numbers::of_text(all.shown) }
        }
        _ => match &rings(bytes)?.1[..] {
            [ring] => ring.clone(),
            all => return Err(format!("has {} rings: a path is one of them, #0 on", all.len())),
        },
    };
    if path.points.len() > 3 && path.points.first() == path.points.last() {
        path.points.pop();
        path.opened = true;
    }
    match PATH.contains(&path.points.len()) {
        true => Ok(path),
        false => Err(format!("has {} points: a path may have 1 to 10001", path.points.len())),
    }
}

/// The comment by which a path that was written here is told from an outline.
pub const PATH_MARK: &str = "# the x and y by which the disc, as drawn, is moved";

/// Whether these bytes are a path that was written here.
pub fn is_marked_path(bytes: &[u8]) -> bool {
    words(bytes).is_some_and(|text| text.lines().any(|line| line == PATH_MARK))
}

/// What these bytes hold.
fn held(bytes: &[u8]) -> Found<Held> {
    if bytes.is_empty() {
        return Err("is empty: look where it came from".into());
    }
    let book = match read_book(bytes) {
        Ok(rings) => return Ok(Held::Rings(Kind::Book, rings.into_iter().map(of_book).collect())),
        Err(refusal) => refusal,
    };
    let wkb = match read_wkb(bytes) {
        Ok(points) => {
            let ring = Ring { points, part: None, opened: true, numbers: Numbers::Floats };
            return Ok(Held::Rings(Kind::Wkb, vec![ring]));
        }
        Err(refusal) => refusal,
    };
    if let Some(other) = foreign::named(bytes) {
        return Err(other.into());
    }
    match words(bytes) {
        Some(text) => of_text(text),
        None => Err(unlike(bytes, book, wkb)),
    }
}

/// A ring of a book.
fn of_book((part, points): (u32, Vec<Point>)) -> Ring {
    Ring { points, part: Some(part), opened: false, numbers: Numbers::Floats }
}

/// The bytes as text, if they are: no sign in it but blanks and ends of lines is one that
/// cannot be seen.
fn words(bytes: &[u8]) -> Option<&str> {
    let text = std::str::from_utf8(bytes).ok()?;
    let text = text.strip_prefix('\u{feff}').unwrap_or(text);
    (!text.contains(hidden)).then_some(text)
}

/// What a text holds.
fn of_text(text: &str) -> Found<Held> {
    let trimmed = text.trim();
    let hex = trimmed.len() >= 26 && trimmed.bytes().all(|byte| byte.is_ascii_hexdigit());
    if hex && (trimmed.starts_with("00") || trimmed.starts_with("01")) {
        return Err("is well-known binary in hex digits: write it as bytes, by xxd -r -p".into());
    }
    if let Some(other) = foreign::named_text(text) {
        return Err(other.into());
    }
    let at = |(line, words): Wrong| format!("line {line}: {words}");
    let uncommented = text.lines().map(|line| line.split('#').next().unwrap_or_default().trim());
    let first = uncommented.into_iter().find(|line| !line.is_empty()).unwrap_or_default();
    if first.starts_with(|c: char| c.is_alphabetic()) {
        return Ok(Held::Points(Kind::Wkt, wkt::outlines(text).map_err(at)?));
    }
    let outlines = text::outlines(text).map_err(at)?;
    match outlines.points.is_empty() {
        true => Err("has no point: look where it came from".into()),
        false => Ok(Held::Points(Kind::Text, outlines)),
    }
}

/// What to say of bytes that are nothing known: of what they are most like.
fn unlike(bytes: &[u8], book: Refusal, wkb: Refusal) -> String {
    if like_a_book(bytes) {
        return book.to_string();
    }
    if like_wkb(bytes) {
        return wkb.to_string();
    }
    let fault = |refusal: Refusal| match refusal {
        Refusal::Book { place } | Refusal::Wkb { place, .. } => format!("at byte {place}"),
        other => other.to_string(),
    };
    let (book, wkb, sign) = (fault(book), fault(wkb), unseen(bytes));
    format!(
        "is nothing that is read: as a book it is wrong {book}, as well-known binary {wkb}, as \
         text at byte {sign}: look where it came from"
    )
}

/// The first byte that cannot stand in a text.
fn unseen(bytes: &[u8]) -> usize {
    let (text, rest) = match std::str::from_utf8(bytes) {
        Ok(text) => (text, bytes.len()),
        Err(error) => {
            let (text, _) = bytes.split_at(error.valid_up_to());
            (std::str::from_utf8(text).unwrap_or_default(), error.valid_up_to())
        }
    };
    text.find(hidden).unwrap_or(rest)
}

/// Whether a sign cannot be seen, and is no blank or end of a line.
fn hidden(c: char) -> bool {
    c.is_control() && !"\t\r\n".contains(c)
}

/// The whole number at this byte.
fn word(bytes: &[u8], at: usize) -> Option<[u8; 4]> {
    bytes.get(at..at.checked_add(4)?)?.try_into().ok()
}

/// Whether the end of the bytes is that of a book, with parts or without.
fn like_a_book(bytes: &[u8]) -> bool {
    let Some(tail) = bytes.len().checked_sub(8) else { return false };
    let number = |at| word(bytes, at).map(|word| u32::from_le_bytes(word) as usize);
    let (Some(rings), Some(entries)) = (number(tail), number(tail + 4)) else { return false };
    let begins = |entry: usize| Some(entries) == tail.checked_sub(rings.saturating_mul(entry));
    begins(12) || begins(8)
}

/// Whether the bytes begin as well-known binary of any geometry does.
fn like_wkb(bytes: &[u8]) -> bool {
    let kind = match (bytes.first(), word(bytes, 1)) {
        (Some(0), Some(word)) => u32::from_be_bytes(word),
        (Some(1), Some(word)) => u32::from_le_bytes(word),
        _ => return false,
    };
    let plain = kind & 0x0fff_ffff;
    (1..=17).contains(&(plain % 1000)) && plain < 4000
}

/// The ring of a text: opened, if its last point repeats the first.
fn text_ring(mut points: Vec<(usize, Point)>) -> Found<Ring> {
    bounded(&points)?;
    let line = points.first().map_or(1, |(line, _)| *line);
    // As `open_ring` does it, which takes no ring that has 257 points before it is opened.
    let ends = [points.first(), points.last()].map(|end| end.map(|(_, point)| *point));
    let opened = points.len() > 3 && ends[0] == ends[1];
    if opened {
        points.pop();
    }
    if !CORNERS.contains(&points.len()) {
        return Err(format!(
            "line {line}: the outline that begins there has {}, and may have 3 to 256: an empty \
             line ends an outline",
            plain::corners(points.len())
        ));
    }
    let points = points.into_iter().map(|(_, point)| point).collect();
    Ok(Ring { points, part: None, opened, numbers: Numbers::Floats })
}

/// The ring of a well-known text, which must be closed.
fn closed_ring(mut points: Vec<(usize, Point)>) -> Found<Ring> {
    bounded(&points)?;
    let has = points.len();
    let ends = points.first().zip(points.last()).map(|(first, last)| (first.1, *last));
    if let Some((first, (line, last))) = ends.filter(|(first, (_, last))| first != last) {
        let [first, last] = [first, last].map(plain::point);
        return Err(format!(
            "line {line}: the ring is not closed, its last point is {last}: write its first, \
             {first}, once more at the end"
        ));
    }
    if !(4..=257).contains(&has) {
        return Err(format!("its ring has {has} points, and may have 4 to 257, the last counted"));
    }
    points.pop();
    let points = points.into_iter().map(|(_, point)| point).collect();
    Ok(Ring { points, part: None, opened: true, numbers: Numbers::Floats })
}

/// That all coordinates are in bounds.
fn bounded(points: &[(usize, Point)]) -> Found<()> {
    let far = |(_, (x, y)): &&(usize, Point)| !(x.abs() <= LARGEST && y.abs() <= LARGEST);
    match points.iter().find(far) {
        None => Ok(()),
        Some((line, _)) => Err(format!(
            "line {line}: a coordinate is not from -1000000 to 1000000: move or scale it"
        )),
    }
}

/// The bytes of a file of this kind that holds these rings.
pub fn written(kind: Kind, rings: &[Ring]) -> Found<Vec<u8>> {
    if kind == Kind::Book {
        let rings: Vec<(u32, &[Point])> =
            rings.iter().map(|ring| (ring.part.unwrap_or(0), &ring.points[..])).collect();
        return write_book(&rings).map_err(|refusal| refusal.to_string());
    }
    if kind == Kind::Text {
        let rings: Vec<String> = rings.iter().map(|ring| plain::lines(&ring.points)).collect();
        return Ok(rings.join("\n").into_bytes());
    }
    let [ring] = rings else {
        return Err(format!("{kind} holds one ring, and there are {}: name it .book", rings.len()));
    };
    match kind {
        Kind::Wkb => write_wkb(&ring.points).map_err(|refusal| refusal.to_string()),
        _ => Ok(wkt::written(&ring.points).into_bytes()),
    }
}

/// The least reading of a ring, as a book holds it.
pub fn least_reading(ring: &[Point]) -> Result<Vec<Point>> {
    let book = write_book(&[(0, ring)])?;
    Ok(read_book(&book)?.remove(0).1)
}
