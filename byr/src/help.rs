//! What each job is for, with an example, and the versions.

use crate::jobs::{Job, JOBS};
use crate::told::Line;

/// How files are read and written, for every job.
const FILES: &str = "\
Files are read by what is in them: an outline book, well-known binary, well-known text
(POLYGON ((0 0, 4 0, 0 3, 0 0))), or text with two numbers a line, a comma or blanks between,
# before a comment, an empty line between two outlines. - is standard input. F.book#2 is ring 2
of F.book; rings and corners are counted from 0. Files are written as their names end: .book,
.wkb, .wkt, .txt, .svg, .html; no file of another kind is ever replaced.
Status: 0 all is well, 1 the answer is no or there is a WARNING, 2 there is no answer, and a
line says why.";

/// A line for each of a text.
fn lines(text: &str) -> Vec<Line> {
    text.lines().map(Line::plain).collect()
}

/// The help for all.
pub fn all() -> Vec<Line> {
    let job = |job: &&Job| format!("  {:<9}{}\n", job.name, job.what);
    let jobs: String = JOBS.iter().map(job).collect();
    let what = "byr JOB ..: outlines of parts, kept, compared, slid and inspected";
    lines(&format!("{what}\n\n{jobs}\n{FILES}\n\nbyr help JOB says more.\n"))
}

/// The help for one.
pub fn of(job: &Job) -> Vec<Line> {
    let Job { name, usage, what, more, example, .. } = job;
    lines(&format!("byr {name} {usage}\n\n{what}\n\n{more}\n\n{FILES}\n\nExample: {example}\n"))
}

/// What made an answer: the versions of the command and of the library.
pub fn made_by() -> String {
    let (version, interface) = (env!("CARGO_PKG_VERSION"), byrlygent::INTERFACE);
    format!("byr {version}, over the library byrlygent, interface {interface}")
}

/// The same as a line.
pub fn version() -> Vec<Line> {
    vec![Line::plain(made_by())]
}
