//! Why a subcommand gave no answer: one line that says where, what is wrong and what to
//! do.

use byrlygent::Refusal;
use std::fmt;

/// An answer, or why there is none.
pub type Result<T> = std::result::Result<T, Fault>;

/// Why there is no answer, in one line.
#[derive(Debug, Clone, PartialEq, Eq)]
pub struct Fault(String);

impl Fault {
    /// A fault in these words; whatever would break or spoil the line is shown escaped.
    pub fn new(words: impl Into<String>) -> Self {
        let shown = |c: char| match c {
            c if c.is_control() => c.escape_default().to_string(),
            c => c.to_string(),
        };
        Self(words.into().chars().map(shown).collect())
    }

    /// A fault of this file.
    pub fn of(file: &str, words: impl fmt::Display) -> Self {
        Self::new(format!("{file}: {words}"))
    }
}

impl fmt::Display for Fault {
    fn fmt(&self, f: &mut fmt::Formatter<'_>) -> fmt::Result {
        f.write_str(&self.0)
    }
}

impl From<Refusal> for Fault {
    fn from(refusal: Refusal) -> Self {
        Self::new(refusal.to_string())
    }
}
