//! The known word that is close to one that is not known.

/// How many letters must be put in, taken out, changed or exchanged with the next to make one
/// word of the other.
fn distance(a: &str, b: &str) -> usize {
    let (a, b): (Vec<char>, Vec<char>) = (a.chars().collect(), b.chars().collect());
    let mut rows: Vec<Vec<usize>> = vec![(0..=b.len()).collect()];
    for i in 1..=a.len() {
        let mut row = vec![i];
        for j in 1..=b.len() {
            let changed = rows[i - 1][j - 1] + usize::from(a[i - 1] != b[j - 1]);
            let mut least = changed.min(row[j - 1] + 1).min(rows[i - 1][j] + 1);
            if i > 1 && j > 1 && a[i - 1] == b[j - 2] && a[i - 2] == b[j - 1] {
                least = least.min(rows[i - 2][j - 2] + 1);
            }
            row.push(least);
        }
        rows.push(row);
    }
    rows[a.len()][b.len()]
}

/// The nearest of the known words, if it is close: of every three letters at most one differs.
pub fn close<'a>(word: &str, known: &[&'a str]) -> Option<&'a str> {
    // A word of any length would cost its length for each known one.
    let word: String = word.chars().take(40).collect();
    let nearest = known.iter().copied().min_by_key(|known| distance(&word, known))?;
    let letters = word.chars().count().max(nearest.chars().count());
    (3 * distance(&word, nearest) <= letters + 1).then_some(nearest)
}

#[cfg(test)]
mod tests {
    use super::close;

    #[test]
    fn a_mistyped_word_finds_its_like() {
        let known = ["book", "same", "slide", "inspect"];
        assert_eq!(close("sldie", &known), Some("slide"));
        assert_eq!(close("inspct", &known), Some("inspect"));
        assert_eq!(close("bok", &known), Some("book"));
        assert_eq!(close("hlep", &["help"]), Some("help"));
        assert_eq!(close("x", &[]), None);
    }

    #[test]
    fn a_word_that_is_like_none_finds_none() {
        let known = ["book", "same", "slide", "inspect"];
        assert_eq!(close("x", &known), None);
        assert_eq!(close("unit", &known), None);
        assert_eq!(close("nest", &known), None);
    }
}
