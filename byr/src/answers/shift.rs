//! Which places of a path each shift inspects, and what is kept from one shift to the next.

use byrlygent::inspection::next_places;
use byrlygent::Point;

/// The first line of a state.
const HEAD: &str = "byrlygent inspection 1";

/// What is kept between shifts.
#[derive(Debug, Clone, PartialEq, Eq)]
pub struct State {
    /// The sum of the path's points.
    path: u64,
    /// How many points it has.
    pub points: u64,
    /// How many a shift inspects.
    pub per_shift: u64,
    /// How many shifts there were.
    pub shifts: u64,
    /// Where the next one starts.
    pub start: u64,
}

/// A shift: its places, and the state after it.
pub struct Shift {
    /// The places.
    pub places: Vec<u64>,
    /// What is kept for the next one.
    pub after: State,
}

/// What all shifts inspect until every place has been, and how many have been given out.
pub struct Plan {
    /// The places of each shift from a new state on.
    pub shifts: Vec<Vec<u64>>,
    /// How many places there are.
    pub points: u64,
    /// How many a shift inspects.
    pub per_shift: u64,
    /// What is kept, where a state is named.
    pub state: Option<State>,
}

impl Plan {
    /// The plan of a path of so many places.
    pub fn of(points: u64, per_shift: u64, state: Option<State>) -> byrlygent::Result<Self> {
        let (mut shifts, mut start) = (Vec::new(), 0);
        while (shifts.len() as u64).saturating_mul(per_shift) < points || shifts.is_empty() {
            let shift = next_places(points, per_shift, start)?;
            start = shift.following;
            shifts.push(shift.places);
        }
        Ok(Self { shifts, points, per_shift, state })
    }
}

impl State {
    /// The state of a path before its first shift.
    pub fn first(path: &[Point], per_shift: u64) -> Self {
        Self { path: sum_of(path), points: path.len() as u64, per_shift, shifts: 0, start: 0 }
    }

    /// Whether it is of the path that another is of.
    pub fn is_of_path(&self, other: &Self) -> bool {
        (self.path, self.points) == (other.path, other.points)
    }

    /// How many places have been given out so far.
    pub fn covered(&self) -> u64 {
        let each = self.per_shift.min(self.points);
        self.shifts.saturating_mul(each).min(self.points)
    }

    /// The next shift.
    pub fn next(self) -> byrlygent::Result<Shift> {
        let shift = next_places(self.points, self.per_shift, self.start)?;
        let after = Self { shifts: self.shifts + 1, start: shift.following, ..self };
        Ok(Shift { places: shift.places, after })
    }

    /// The lines before the sum.
    fn lines(&self) -> String {
        let Self { path, points, per_shift, shifts, start } = self;
        format!(
            "{HEAD}\npath {path:016x}\npoints {points}\nper-shift {per_shift}\nshifts {shifts}\n\
             start {start}\n"
        )
    }

    /// The file.
    pub fn written(&self) -> String {
        let lines = self.lines();
        format!("{lines}sum {:016x}\n", sum(lines.as_bytes()))
    }

    /// The state that a file holds: no other text than what is written is taken.
    pub fn read(bytes: &[u8]) -> std::result::Result<Self, &'static str> {
        let text = std::str::from_utf8(bytes).map_err(|_| "is no state of an inspection")?;
        let mut lines = text.lines();
        if lines.next() != Some(HEAD) {
            return Err("is no state of an inspection");
        }
        let mut value = |name: &str| {
            let line = lines.next()?;
            Some(line.strip_prefix(name)?.strip_prefix(' ')?.to_string())
        };
        let path = value("path").and_then(|word| u64::from_str_radix(&word, 16).ok());
        let mut number = |name: &str| value(name).and_then(|word| word.parse().ok());
        let numbers = ["points", "per-shift", "shifts", "start"].map(&mut number);
        let (Some(path), [Some(points), Some(per_shift), Some(shifts), Some(start)]) =
            (path, numbers)
        else {
            return Err("the state is spoilt");
        };
        let state = Self { path, points, per_shift, shifts, start };
        match state.written() == text && start < points && shifts < u64::MAX {
            true => Ok(state),
            false => Err("the state is spoilt"),
        }
    }
}

/// A sum of bytes that a slip changes: FNV-1a of 64 bits. It is no seal against someone
/// who means to deceive.
fn sum(bytes: &[u8]) -> u64 {
    let step = |sum: u64, byte: &u8| (sum ^ u64::from(*byte)).wrapping_mul(0x100_0000_01b3);
    bytes.iter().fold(0xcbf2_9ce4_8422_2325, step)
}

/// The sum of a path's points, bit for bit.
fn sum_of(path: &[Point]) -> u64 {
    let bytes: Vec<u8> =
        path.iter().flat_map(|(x, y)| [x.to_le_bytes(), y.to_le_bytes()]).flatten().collect();
    sum(&bytes)
}

#[cfg(test)]
mod tests {
    use super::State;

    const STATE: State = State { path: 77, points: 24, per_shift: 5, shifts: 3, start: 15 };

    #[test]
    fn a_state_reads_back() {
        assert_eq!(State::read(STATE.written().as_bytes()), Ok(STATE));
    }

    #[test]
    fn no_spoilt_state_is_taken() {
        let written = STATE.written().into_bytes();
        for at in 0..written.len() {
            assert!(State::read(&written[..at]).is_err(), "cut off at {at}");
            for bit in 0..8 {
                let mut spoilt = written.clone();
                spoilt[at] ^= 1 << bit;
                assert!(State::read(&spoilt).is_err(), "bit {bit} of byte {at}");
            }
        }
        let outside = State { start: 24, ..STATE };
        assert!(State::read(outside.written().as_bytes()).is_err());
    }
}
