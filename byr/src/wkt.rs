//! Well-known text: a polygon of one ring, `POLYGON ((0 0, 4 0, 0 3, 0 0))`.

use crate::plain;
use crate::text::{is_shown, number, shortened, Outlines, Wrong};
use byrlygent::Point;

/// What is left of a text, with its lines counted.
struct Rest<'a> {
    text: &'a str,
    line: usize,
}

impl<'a> Rest<'a> {
    /// A fault here.
    fn wrong<T>(&self, words: impl Into<String>) -> Result<T, Wrong> {
        Err((self.line, words.into()))
    }

    /// Goes on by so many bytes.
    fn skip(&mut self, bytes: usize) -> &'a str {
        let (front, back) = self.text.split_at(bytes);
        self.line += front.matches('\n').count();
        self.text = back;
        front
    }

    /// Goes on past blanks and comments.
    fn blanks(&mut self) {
        self.skip(self.text.len() - self.text.trim_start().len());
        while self.text.starts_with('#') {
            self.skip(self.text.find('\n').unwrap_or(self.text.len()));
            self.skip(self.text.len() - self.text.trim_start().len());
        }
    }

    /// The letters here, which may be none.
    fn word(&mut self) -> &'a str {
        self.blanks();
        let end = self.text.find(|c: char| !c.is_ascii_alphabetic());
        self.skip(end.unwrap_or(self.text.len()))
    }

    /// Whether this sign stands here; goes past it.
    fn sign(&mut self, sign: char) -> bool {
        self.blanks();
        let here = self.text.starts_with(sign);
        if here {
            self.skip(sign.len_utf8());
        }
        here
    }

    /// This sign must stand here.
    fn expect(&mut self, sign: char) -> Result<(), Wrong> {
        match self.sign(sign) {
            true => Ok(()),
            false => self.missing(&format!("'{sign}'")),
        }
    }

    /// That something else stands here than is expected.
    fn missing<T>(&self, expected: &str) -> Result<T, Wrong> {
        match self.text.chars().next() {
            Some(other) => self.wrong(format!("{expected} is expected where '{other}' stands")),
            None => self.wrong(format!("{expected} is expected where the text ends: add it")),
        }
    }

    /// The number here, and whether it was read without rounding.
    fn number(&mut self) -> Result<(f64, bool), Wrong> {
        self.blanks();
        let end = self.text.find(|c: char| c.is_whitespace() || "(),#".contains(c));
        if end == Some(0) || self.text.is_empty() {
            return self.missing("a number");
        }
        let line = self.line;
        let word = self.skip(end.unwrap_or(self.text.len()));
        let read = number(word).map_err(|words| (line, words))?;
        Ok((read, is_shown(word, read)))
    }
}

/// The ring, with its points, the closing one too.
pub fn outlines(text: &str) -> Result<Outlines, Wrong> {
    let mut rest = Rest { text, line: 1 };
    opening(&mut rest)?;
    let (mut points, mut shown) = (Vec::new(), true);
    loop {
        let ((x, x_shown), (y, y_shown)) = (rest.number()?, rest.number()?);
        points.push((rest.line, (x, y)));
        shown &= x_shown && y_shown;
        if rest.sign(')') {
            break;
        }
        if !rest.sign(',') {
            return rest.wrong("a point has two numbers and then ',' or ')': take Z and M away");
        }
    }
    if rest.sign(',') {
        return rest.wrong("it has more rings than one: take the holes away");
    }
    rest.expect(')')?;
    rest.blanks();
    match rest.text.is_empty() {
        true => Ok(Outlines { points: vec![points], shown }),
        false => rest.wrong("more stands behind the polygon: put each into a file of its own"),
    }
}

/// Goes past `POLYGON ((`.
fn opening(rest: &mut Rest) -> Result<(), Wrong> {
    let word = rest.word();
    if word.eq_ignore_ascii_case("SRID") {
        return rest.wrong("it has a reference system: take SRID=..; away");
    }
    let with = |more: &str| word.eq_ignore_ascii_case(&format!("POLYGON{more}"));
    if ["Z", "M", "ZM"].into_iter().any(with) {
        return rest.wrong(format!("{word} is not known: take Z and M away"));
    }
    if !with("") {
        let word = shortened(word);
        return rest.wrong(format!(
            "\"{word}\" is not known: POLYGON is, or two numbers a line and no heading above them"
        ));
    }
    match rest.word() {
        "" => {}
        word if word.eq_ignore_ascii_case("EMPTY") => {
            return rest.wrong("the polygon is empty: look where it came from")
        }
        word => {
            let word = shortened(word);
            return rest.wrong(format!("POLYGON {word} is not known: take Z and M away"));
        }
    }
    rest.expect('(')?;
    rest.expect('(')
}

/// The ring as well-known text, closed.
pub fn written(ring: &[Point]) -> String {
    let point = |(x, y): &Point| format!("{} {}", plain::number(*x), plain::number(*y));
    let points: Vec<String> = ring.iter().chain(ring.first()).map(point).collect();
    format!("POLYGON (({}))\n", points.join(", "))
}
