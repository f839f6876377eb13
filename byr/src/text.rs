//! Text with two numbers a line, a comma or blanks between; `#` begins a comment, and an empty
//! line stands between two outlines.

use byrlygent::Point;

/// A fault of a text: the line, from 1 on, and what is wrong there.
pub type Wrong = (usize, String);

/// The outlines of a text.
#[derive(Debug, PartialEq)]
pub struct Outlines {
    /// The points of each, with their lines.
    pub points: Vec<Vec<(usize, Point)>>,
    /// Whether no number was rounded as it was read.
    pub shown: bool,
}

/// The outlines of a text, each with its points.
pub fn outlines(text: &str) -> Result<Outlines, Wrong> {
    let mut points: Vec<Vec<(usize, Point)>> = Vec::new();
    let (mut apart, mut shown) = (true, true);
    for (at, line) in text.lines().enumerate() {
        let words = line.split('#').next().unwrap_or_default().trim();
        if words.is_empty() {
            // A line with a comment alone is not empty.
            apart |= line.trim().is_empty();
            continue;
        }
        let (point, is_shown) = point(words).map_err(|words| (at + 1, words))?;
        shown &= is_shown;
        match points.last_mut() {
            Some(last) if !apart => last.push((at + 1, point)),
            _ => points.push(vec![(at + 1, point)]),
        }
        apart = false;
    }
    Ok(Outlines { points, shown })
}

/// The point of a line, and whether it was read without rounding.
fn point(line: &str) -> Result<(Point, bool), String> {
    if line.contains(';') {
        return Err(
            "';' stands in it: write x and y with a blank between, and decimals with a point"
                .into(),
        );
    }
    let parts: Vec<&str> = match line.contains(',') {
        true => line.split(',').map(str::trim).collect(),
        false => line.split_whitespace().collect(),
    };
    match parts[..] {
        [a, b] if ![a, b].iter().any(|part| part.contains(char::is_whitespace)) => {
            let (x, y) = (number(a)?, number(b)?);
            Ok(((x, y), is_shown(a, x) && is_shown(b, y)))
        }
        [a, b, c] if [a, b, c].into_iter().all(|part| number(part).is_ok()) => {
            Err("it has 3 numbers: write x and y alone, and decimals with a point".into())
        }
        _ => Err(format!(
            "\"{}\" is not two numbers: write x and y with blanks or a comma between, and decimals \
             with a point",
            shortened(line)
        )),
    }
}

/// A number as it is written in decimals.
pub fn number(word: &str) -> Result<f64, String> {
    let wrong = || format!("\"{}\" is no number: write it as 4.5 or 45e-1", shortened(word));
    let decimal = |c: char| c.is_ascii_digit() || "+-.eE".contains(c);
    if !word.chars().all(decimal) {
        return Err(wrong());
    }
    word.parse().map_err(|_| wrong())
}

/// Whether a number is read without rounding: what is written is the decimal that the float is
/// shown as, and not one beside it.
pub fn is_shown(word: &str, read: f64) -> bool {
    matches!((decimal(word), decimal(&format!("{read:e}"))), (Some(a), Some(b)) if a == b)
}

/// A decimal by its sign, its digits without zeros at the ends, and the power of ten of the last
/// of them; 0 has no digits and no sign.
fn decimal(word: &str) -> Option<(bool, String, i64)> {
    let (number, power) = match word.split_once(['e', 'E']) {
        Some((number, power)) => (number, power.parse::<i64>().ok()?),
        None => (word, 0),
    };
    let minus = number.starts_with('-');
    let number = number.trim_start_matches(['+', '-']);
    let (whole, part) = number.split_once('.').unwrap_or((number, ""));
    let digits = format!("{whole}{part}");
    let kept = digits.trim_end_matches('0');
    let zeros = (digits.len() - kept.len()) as i64;
    let kept = kept.trim_start_matches('0').to_string();
    if kept.is_empty() {
        return Some((false, kept, 0));
    }
    Some((minus, kept, power.checked_add(zeros)?.checked_sub(part.len() as i64)?))
}

/// A word, cut off where it is long.
pub fn shortened(word: &str) -> String {
    match word.char_indices().nth(24) {
        Some((at, _)) => format!("{}..", &word[..at]),
        None => word.to_string(),
    }
}

#[cfg(test)]
mod tests {
    use super::{is_shown, outlines};

    #[test]
    fn a_number_that_is_rounded_as_it_is_read_is_not_shown() {
        let shown = |word: &str| is_shown(word, word.parse().expect("a number"));
        for word in ["0", "-0.0", "0.3", "+.3", "3e-1", "0.030e1", "1000000", "-12.50", "5e-324"] {
            assert!(shown(word), "{word}");
        }
        for word in
            ["0.30000000000000000001", "1e-400", "9007199254740993", "0.1000000000000000055"]
        {
            assert!(!shown(word), "{word}");
        }
    }

    #[test]
    fn an_empty_line_stands_between_two_outlines() {
        let counts =
            |text: &str| outlines(text).map(|all| all.points.iter().map(Vec::len).collect());
        assert_eq!(counts("\n# a\n\n1 2\n3 4\n\n\n5 6\n\n"), Ok::<Vec<usize>, _>(vec![2, 1]));
        assert_eq!(counts("1 2\n# a comment\n3 4\n"), Ok(vec![2]));
        assert_eq!(counts("# nothing\n"), Ok(vec![]));
    }
}
