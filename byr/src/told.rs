//! What is said: lines, each with its weight. Whoever wants some of them asks for the weight;
//! no line is taken apart again.

use std::fmt;

/// How much a line weighs.
#[derive(Debug, Clone, Copy, PartialEq, Eq)]
pub enum Weight {
    /// It is told everywhere.
    Plain,
    /// Nobody may miss it.
    Warning,
    /// One of many, which a picture leaves out and a page puts behind it.
    Detail,
    /// What else could be asked for, which only someone at the command can.
    Hint,
}

/// A line.
#[derive(Debug, Clone, PartialEq, Eq)]
pub struct Line {
    /// How much it weighs.
    pub weight: Weight,
    /// Its words.
    pub words: String,
}

impl Line {
    /// A line that is told everywhere.
    pub fn plain(words: impl Into<String>) -> Self {
        Self { weight: Weight::Plain, words: words.into() }
    }

    /// A line that nobody may miss.
    pub fn warning(words: impl Into<String>) -> Self {
        Self { weight: Weight::Warning, words: words.into() }
    }

    /// A line that nobody may miss, if it is to be one, and else a plain one.
    pub fn weighed(warns: bool, words: impl Into<String>) -> Self {
        match warns {
            true => Self::warning(words),
            false => Self::plain(words),
        }
    }

    /// One of many lines.
    pub fn detail(words: impl Into<String>) -> Self {
        Self { weight: Weight::Detail, words: words.into() }
    }

    /// What else could be asked for.
    pub fn hint(words: impl Into<String>) -> Self {
        Self { weight: Weight::Hint, words: words.into() }
    }

    /// Whether nobody may miss it.
    pub fn warns(&self) -> bool {
        self.weight == Weight::Warning
    }

    /// Whether a picture or a page has it above its details.
    pub fn is_main(&self) -> bool {
        matches!(self.weight, Weight::Plain | Weight::Warning)
    }
}

impl fmt::Display for Line {
    fn fmt(&self, f: &mut fmt::Formatter<'_>) -> fmt::Result {
        let before = match self.weight {
            Weight::Plain | Weight::Hint => "",
            Weight::Warning => "WARNING: ",
            Weight::Detail => "  ",
        };
        write!(f, "{before}{}", self.words)
    }
}

/// What a job has to say, and whether all is well.
pub struct Told {
    /// Its lines, the verdict first.
    pub lines: Vec<Line>,
    /// Whether the answer is yes, and nothing warns.
    pub well: bool,
}

impl Told {
    /// Lines after which all is well, unless one warns.
    pub fn of(lines: Vec<Line>) -> Self {
        let well = !lines.iter().any(Line::warns);
        Self { lines, well }
    }
}

/// The lines below each other.
pub fn printed(lines: &[Line]) -> String {
    lines.iter().map(|line| format!("{line}\n")).collect()
}
