//! The words behind a job: files by their order, and options by their names.

use crate::files::{self, Form, Out};
use crate::grid::Grid;
use crate::jobs::Job;
use crate::nearest::close;
use crate::shelf::file_of;
use crate::text::is_shown;
use crate::{Fault, Result};
use byrlygent::nfp_sliding::SlidingNfpConfig;
use byrlygent::Point;

/// The words of one call.
pub struct Asked {
    job: &'static Job,
    files: Vec<String>,
    options: Vec<(&'static str, String)>,
}

/// Options that had another name before.
const RENAMED: [(&str, &str); 1] = [("unit", "grid")];

/// Whether a name is that of standard input, of which a ring may be asked for.
fn is_input(name: &str) -> bool {
    name == "-" || name.starts_with("-#")
}

/// A fault of a job's words.
fn fault(job: &Job, words: &str) -> Fault {
    Fault::new(format!("{}: {words} (byr help {})", job.name, job.name))
}

/// An option with its value: behind an equals sign, or the next word.
fn given<'a>(
    job: &Job,
    option: &str,
    rest: &mut impl Iterator<Item = &'a String>,
) -> Result<(&'static str, String)> {
    let (name, joined) = match option.split_once('=') {
        Some((name, value)) => (name, Some(value.to_string())),
        None => (option, None),
    };
    let (name, valued) = known(job, name)?;
    let value = match (valued, joined) {
        (false, None) => String::new(),
        (false, Some(_)) => return Err(fault(job, &format!("--{name} has no value"))),
        (true, Some(value)) => value,
        (true, None) => {
            let missing = || fault(job, &format!("--{name} needs a value behind it"));
            let value = rest.next().filter(|value| !value.starts_with("--"));
            value.cloned().ok_or_else(missing)?
        }
    };
    Ok((name, value))
}

/// The option of this name, and whether it has a value.
fn known(job: &Job, name: &str) -> Result<(&'static str, bool)> {
    let find = |list: &'static [&'static str]| list.iter().copied().find(|known| *known == name);
    if let Some(known) = find(job.valued) {
        return Ok((known, true));
    }
    if let Some(known) = find(job.flags) {
        return Ok((known, false));
    }
    Err(fault(job, &format!("no option --{name}{}", like(job, name))))
}

/// What is said of an option that is close to this word, if one is.
fn like(job: &Job, word: &str) -> String {
    let known = [job.valued, job.flags, &["help"]].concat();
    let now = RENAMED.iter().find(|(old, now)| *old == word && known.contains(now));
    match (now, close(word, &known)) {
        (Some((_, now)), _) => format!(": it is called --{now} now"),
        (None, Some(like)) => format!(": --{like} is one"),
        (None, None) => String::new(),
    }
}

impl Asked {
    /// The words as a job takes them.
    pub fn of(job: &'static Job, words: &[String]) -> Result<Self> {
        let (mut files, mut options) = (Vec::new(), Vec::new());
        let mut rest = words.iter();
        while let Some(word) = rest.next() {
            if word == "--" {
                files.extend(rest.by_ref().cloned());
            } else if let Some(option) = word.strip_prefix("--") {
                let (name, value) = given(job, option, &mut rest)?;
                if options.iter().any(|(known, _)| *known == name) {
                    return Err(fault(job, &format!("--{name} is given twice")));
                }
                options.push((name, value));
            } else if word.starts_with('-') && !is_input(word) {
                let like = like(job, word.trim_start_matches('-'));
                let words = format!("no option {word}{like}; a file of that name is ./{word}");
                return Err(fault(job, &words));
            } else {
                files.push(word.clone());
            }
        }
        Ok(Self { job, files, options })
    }

    /// A fault of these words.
    pub fn fault(&self, words: impl AsRef<str>) -> Fault {
        fault(self.job, words.as_ref())
    }

    /// Exactly so many files, which are called so.
    pub fn files<const N: usize>(&self, called: [&str; N]) -> Result<[&str; N]> {
        let names: Vec<&str> = self.files.iter().map(String::as_str).collect();
        let has = names.len();
        let wanted = if N == 1 { "1 file".to_string() } else { format!("{N} files") };
        let unlike =
            |_| self.fault(format!("takes {wanted}, {}, and was given {has}", called.join(" ")));
        names.try_into().map_err(unlike)
    }

    /// That no file is both read and written, or written twice: each has its own name.
    pub fn apart(&self, read: &[&str], written: &[&str]) -> Result<()> {
        for (at, out) in written.iter().enumerate() {
            if read.iter().any(|name| files::same_file(out, file_of(name))) {
                return Err(
                    self.fault(format!("\"{out}\" is read, and not written too: name another"))
                );
            }
            if written[..at].iter().any(|other| files::same_file(out, other)) {
                return Err(self.fault(format!("\"{out}\" is to be written twice: name two files")));
            }
        }
        Ok(())
    }

    /// All files, in order.
    pub fn all_files(&self) -> &[String] {
        &self.files
    }

    /// The value of an option, if it is given.
    pub fn value(&self, name: &str) -> Option<&str> {
        self.options.iter().find(|(known, _)| *known == name).map(|(_, value)| value.as_str())
    }

    /// Whether an option is given.
    pub fn has(&self, name: &str) -> bool {
        self.value(name).is_some()
    }

    /// The value of an option that must be given.
    fn needed(&self, name: &str) -> Result<&str> {
        self.value(name).ok_or_else(|| self.fault(format!("--{name} is missing")))
    }

    /// The number of an option that must be given.
    pub fn number(&self, name: &str) -> Result<f64> {
        let value = self.needed(name)?;
        self.finite(name, value)
    }

    /// The number of an option, if it is given.
    pub fn number_or(&self, name: &str, otherwise: f64) -> Result<f64> {
        self.value(name).map_or(Ok(otherwise), |value| self.finite(name, value))
    }

    /// A finite number.
    fn finite(&self, name: &str, value: &str) -> Result<f64> {
        let number = value.trim().parse::<f64>().ok().filter(|number| number.is_finite());
        number.ok_or_else(|| self.fault(format!("--{name} \"{value}\" is no number, as 4.5 is")))
    }

    /// The whole number of an option that must be given.
    pub fn count(&self, name: &str) -> Result<u64> {
        let value = self.needed(name)?;
        self.whole(name, value)
    }

    /// The whole number of an option, if it is given.
    pub fn count_or(&self, name: &str, otherwise: u64) -> Result<u64> {
        self.value(name).map_or(Ok(otherwise), |value| self.whole(name, value))
    }

    /// A whole number, not negative.
    fn whole(&self, name: &str, value: &str) -> Result<u64> {
        let wrong = |_| self.fault(format!("--{name} \"{value}\" is no whole number, as 32 is"));
        value.trim().parse().map_err(wrong)
    }

    /// The point of an option that must be given.
    pub fn point(&self, name: &str) -> Result<Point> {
        let value = self.needed(name)?;
        self.pair(name, value)
    }

    /// The point of an option, or the origin.
    pub fn point_or_origin(&self, name: &str) -> Result<Point> {
        self.value(name).map_or(Ok((0.0, 0.0)), |value| self.pair(name, value))
    }

    /// Whether the numbers of an option, if it is given, were read without rounding.
    pub fn is_shown(&self, name: &str) -> bool {
        let number = |word: &str| word.trim().parse().is_ok_and(|read| is_shown(word.trim(), read));
        self.value(name).is_none_or(|value| value.split(',').all(number))
    }

    /// Two numbers with a comma between.
    fn pair(&self, name: &str, value: &str) -> Result<Point> {
        let [x, y] = value.split(',').collect::<Vec<&str>>()[..] else {
            let words = format!("--{name} \"{value}\" is no X,Y: two numbers, a comma between");
            return Err(self.fault(words));
        };
        Ok((self.finite(name, x)?, self.finite(name, y)?))
    }

    /// The grid that is asked for, if one is.
    pub fn grid(&self) -> Result<Option<Grid>> {
        self.value("grid").map(|_| Grid::of(self.number("grid")?)).transpose()
    }

    /// Where an option asks for a file of this form, if it does.
    pub fn out(&self, name: &str, form: Form) -> Result<Option<Out>> {
        self.value(name).map(|file| Out::of(file, form)).transpose()
    }

    /// The settings of a trace, the library's own where none are given.
    pub fn settings(&self) -> Result<SlidingNfpConfig> {
        let own = SlidingNfpConfig::default();
        let passes = self.count_or("passes", own.max_iterations as u64)?;
        Ok(SlidingNfpConfig {
            contact_tolerance: self.number_or("tolerance", own.contact_tolerance)?,
            max_iterations: usize::try_from(passes).unwrap_or(usize::MAX),
            min_translation: self.number_or("least-move", own.min_translation)?,
        })
    }
}
