//! Lent memory that shows what was written to it.

use oracle::replay::answer_bits;

/// What a cell holds before a call: no answer there is.
const HELD: u64 = 0xfeed_face_0bad_cafe;

/// Elements before and after a room that no call may touch; odd, so that a room
/// of bytes stands at an odd address.
const MARGIN: usize = 3;

/// A room, or a list that is only read, with a margin on both sides.
pub struct Room<T> {
    held: Vec<T>,
    margin: T,
}

impl<T: Copy + PartialEq> Room<T> {
    /// Memory with these contents, between margins of this element.
    pub fn new(contents: &[T], margin: T) -> Self {
        let side = [margin; MARGIN];
        Self { held: [&side[..], contents, &side[..]].concat(), margin }
    }

    /// How many elements are lent.
    pub fn len(&self) -> usize {
        self.held.len() - 2 * MARGIN
    }

    /// Whether none is lent.
    pub fn is_empty(&self) -> bool {
        self.len() == 0
    }

    /// The first element lent, as a list of another type of the same size; null
    /// if none is lent.
    pub fn list<U>(&self) -> *const U {
        assert_eq!(size_of::<T>(), size_of::<U>());
        if self.is_empty() {
            return std::ptr::null();
        }
        self.held[MARGIN..].as_ptr().cast()
    }

    /// The first element lent, to be written as another type of the same size.
    pub fn room<U>(&mut self) -> *mut U {
        assert_eq!(size_of::<T>(), size_of::<U>());
        self.held[MARGIN..].as_mut_ptr().cast()
    }

    /// What is held now; nothing if a margin was touched.
    pub fn contents(&self) -> Option<&[T]> {
        let (before, rest) = self.held.split_at(MARGIN);
        let (contents, after) = rest.split_at(self.len());
        let kept = before.iter().chain(after).all(|element| *element == self.margin);
        kept.then_some(contents)
    }
}

/// Memory for words, which a call may take for floats.
pub fn words(contents: &[u64]) -> Room<u64> {
    Room::new(contents, HELD)
}

/// The words of a room of floats, every NaN alike.
pub fn floats(room: &Room<u64>) -> Option<Vec<u64>> {
    let bits = |&word: &u64| answer_bits(f64::from_bits(word));
    room.contents().map(|contents| contents.iter().map(bits).collect())
}

/// A place for an answer, and what it was told.
pub trait Cell: Copy {
    /// The place before a call.
    const HELD: Self;
    /// The answer as a word, every NaN alike; nothing if there is none.
    fn told(self) -> Option<u64>;
}

impl Cell for u64 {
    const HELD: Self = HELD;
    fn told(self) -> Option<u64> {
        (self != Self::HELD).then_some(self)
    }
}

impl Cell for u32 {
    const HELD: Self = HELD as u32;
    fn told(self) -> Option<u64> {
        (self != Self::HELD).then_some(u64::from(self))
    }
}

impl Cell for i32 {
    const HELD: Self = HELD as i32;
    fn told(self) -> Option<u64> {
        (self != Self::HELD).then_some(i64::from(self) as u64)
    }
}

impl Cell for i64 {
    const HELD: Self = HELD as i64;
    fn told(self) -> Option<u64> {
        (self != Self::HELD).then_some(self as u64)
    }
}

impl Cell for f64 {
    const HELD: Self = f64::from_bits(HELD);
    fn told(self) -> Option<u64> {
        (self.to_bits() != HELD).then(|| answer_bits(self))
    }
}
