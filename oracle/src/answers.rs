//! Small stand-ins for the repository's result and error types, which the text
//! names, and for the answer of the turn.

/// A point, or a vector.
pub type Point = (f64, f64);

/// What the text returns where it can fail.
pub type Result<T> = std::result::Result<T, Error>;

/// How a trace went: the path before simplification, the passes begun and why
/// it stopped (1 to 5, as docs/SCOPE.md numbers the reasons).
#[derive(Debug, Clone, PartialEq)]
pub struct Trace {
    pub path: Vec<Point>,
    pub passes: u64,
    pub stop: u32,
}

impl Trace {
    /// The trace with this path, these passes and this reason.
    pub fn new(path: Vec<Point>, passes: u64, stop: u32) -> Self {
        Self { path, passes, stop }
    }
}

/// The answer of a trace that succeeded: the simplified path and the trace.
#[derive(Debug, Clone, PartialEq)]
pub struct Nfp {
    pub polygon: Vec<Point>,
    pub trace: Trace,
}

impl Nfp {
    /// The answer with this polygon, from this trace.
    pub fn from_polygon(polygon: Vec<Point>, trace: Trace) -> Self {
        Self { polygon, trace }
    }
}

/// Why the text gave no answer.
#[derive(Debug, Clone, PartialEq)]
pub enum Error {
    /// The text's own refusal of a polygon.
    InvalidGeometry(String),
    /// A point was about to be stored and the room was full.
    Full(Trace),
    /// The path had fewer than three points at the end.
    Short(Trace),
}

impl Error {
    /// The text's way to refuse a polygon; the name of a geometry is not kept.
    pub fn invalid_geometry(_name: Option<String>, message: String) -> Self {
        Self::InvalidGeometry(message)
    }
}

/// Which way three points turn.
#[derive(Debug, Clone, Copy, PartialEq, Eq)]
pub enum Orientation {
    CounterClockwise,
    Clockwise,
    Collinear,
}

impl Orientation {
    /// True if the points turn clockwise.
    pub fn is_cw(self) -> bool {
        self == Self::Clockwise
    }

    /// True if the points do not turn.
    pub fn is_collinear(self) -> bool {
        self == Self::Collinear
    }
}
