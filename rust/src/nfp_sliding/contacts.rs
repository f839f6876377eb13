//! Where two polygons touch, and the ways in which one may slide from there.

use super::segments::Foot;
use crate::lent::{flat, points};
use crate::refusal::{among, plain};
use crate::{ffi, Entries, List, Point, Result};

/// The library's refusal of an answer that has more entries than its room.
const DOES_NOT_FIT: u32 = 5;

/// Type of contact between two polygons.
#[derive(Debug, Clone, Copy, PartialEq, Eq)]
pub enum ContactType {
    /// Vertex of orbiting polygon touches edge of stationary polygon.
    VertexEdge,
    /// Edge of orbiting polygon touches vertex of stationary polygon.
    EdgeVertex,
    /// Edge of orbiting polygon is parallel and touching edge of stationary polygon.
    EdgeEdge,
}

impl ContactType {
    /// The type that the library gives this number.
    pub(super) fn numbered(kind: u64) -> Self {
        match kind {
            0 => Self::VertexEdge,
            1 => Self::EdgeVertex,
            _ => Self::EdgeEdge,
        }
    }
}

/// A single contact point between two polygons.
#[derive(Debug, Clone, Copy, PartialEq)]
pub struct Contact {
    /// Type of contact.
    pub contact_type: ContactType,
    /// Index of the element (vertex or edge start) on the stationary polygon.
    pub stationary_idx: usize,
    /// Index of the element (vertex or edge start) on the orbiting polygon.
    pub orbiting_idx: usize,
    /// The contact point in world coordinates.
    pub point: Point,
    /// Where on the edge it sits: the vertex on the edge that it touches, of two
    /// edges the orbiting one's first end on the stationary one.
    pub foot: Foot,
}

/// A potential translation vector for the orbiting polygon.
#[derive(Debug, Clone, Copy, PartialEq)]
pub struct TranslationVector {
    /// Direction of translation (unit vector).
    pub direction: Point,
    /// Maximum distance the polygon can translate in this direction.
    pub max_distance: f64,
    /// The index of the contact that gave it, among those of [`find_contacts`].
    pub source_contact: usize,
}

/// What a call lent these lists, the two polygons first, answers in a room for a
/// number of entries that few answers exceed, and, if its answer exceeds it, in one
/// for as many as there can be: `of_each` for each pair of edges of each of the
/// three kinds. The call takes the number of entries and the cell of a place.
fn in_room<T>(
    lists: &[Entries],
    of_each: usize,
    mut call: impl FnMut(usize, &mut u64) -> (u32, T),
) -> Result<T> {
    let (stationary, orbiting) = (lists[0].has, lists[1].has);
    let few = of_each * 2 * (stationary + orbiting);
    let all = of_each * 3 * stationary * orbiting;
    let mut place = 0;
    let (mut number, mut answer) = call(few.min(all), &mut place);
    if number == DOES_NOT_FIT {
        (number, answer) = call(all, &mut place);
    }
    among(lists, number, place)?;
    Ok(answer)
}

/// Every contact of the two polygons that is nearer than the tolerance, the
/// orbiting one where it stands: its vertices against edges, stationary vertices
/// against its edges, then pairs of edges.
///
/// ```
/// use byrlygent::nfp_sliding::{find_contacts, ContactType, Foot};
///
/// let stationary = [(0.0, 0.0), (4.0, 0.0), (4.0, 4.0), (0.0, 4.0)];
/// let orbiting = [(0.0, -2.0), (2.0, -2.0), (2.0, 0.0), (0.0, 0.0)];
/// let contacts = find_contacts(&stationary, &orbiting, 1e-6)?;
/// assert_eq!(contacts.len(), 6);
/// assert_eq!(contacts[5].contact_type, ContactType::EdgeEdge);
/// assert_eq!(contacts[5].point, (1.0, 0.0));
/// assert_eq!(contacts[1].foot, Foot::Start);
/// # Ok::<(), byrlygent::Refusal>(())
/// ```
pub fn find_contacts(
    stationary: &[impl Into<Point> + Copy],
    orbiting: &[impl Into<Point> + Copy],
    tolerance: f64,
) -> Result<Vec<Contact>> {
    let lists = Entries::sliding(stationary.len(), orbiting.len());
    let (stationary, orbiting) = (flat(stationary), flat(orbiting));
    in_room(&lists, 1, |entries, place| {
        let (mut which, mut places) = (vec![0; 4 * entries], vec![0.0; 2 * entries]);
        let mut count = 0;
        // SAFETY: all lists are as long as is said, and both cells are there.
        let number = unsafe {
            ffi::byr_find_contacts(
                stationary.as_ptr(),
                stationary.len(),
                orbiting.as_ptr(),
                orbiting.len(),
                tolerance,
                which.as_mut_ptr(),
                which.len(),
                places.as_mut_ptr(),
                places.len(),
                &mut count,
                place,
            )
        };
        (number, contacts_of(&which, &points(&places, count)))
    })
}

/// The contacts of these kinds, indices and feet, at these points.
fn contacts_of(which: &[u64], points: &[Point]) -> Vec<Contact> {
    let contact = |(which, &point): (&[u64], &Point)| Contact {
        contact_type: ContactType::numbered(which[0]),
        stationary_idx: which[1] as usize,
        orbiting_idx: which[2] as usize,
        point,
        foot: Foot::numbered(which[3]),
    };
    which.chunks_exact(4).zip(points).map(contact).collect()
}

/// The rooms for vectors, to be lent.
struct Vectors {
    vectors: Vec<f64>,
    sources: Vec<u64>,
    count: u64,
}

impl Vectors {
    /// Rooms for so many vectors.
    fn room(entries: usize) -> Self {
        Self { vectors: vec![0.0; 3 * entries], sources: vec![0; entries], count: 0 }
    }

    /// The vectors that were written.
    fn written(&self) -> Vec<TranslationVector> {
        let vector = |(vector, &source): (&[f64], &u64)| TranslationVector {
            direction: (vector[0], vector[1]),
            max_distance: vector[2],
            source_contact: source as usize,
        };
        let all = self.vectors.chunks_exact(3).zip(&self.sources);
        all.take(self.count as usize).map(vector).collect()
    }
}

/// The two ways in which each contact lets the orbiting polygon slide, in the
/// order of the contacts.
pub fn compute_translation_vectors(
    stationary: &[impl Into<Point> + Copy],
    orbiting: &[impl Into<Point> + Copy],
    tolerance: f64,
) -> Result<Vec<TranslationVector>> {
    let lists = Entries::sliding(stationary.len(), orbiting.len());
    let (stationary, orbiting) = (flat(stationary), flat(orbiting));
    in_room(&lists, 2, |entries, place| {
        let mut room = Vectors::room(entries);
        // SAFETY: all lists are as long as is said, and both cells are there.
        let number = unsafe {
            ffi::byr_compute_translation_vectors(
                stationary.as_ptr(),
                stationary.len(),
                orbiting.as_ptr(),
                orbiting.len(),
                tolerance,
                room.vectors.as_mut_ptr(),
                room.vectors.len(),
                room.sources.as_mut_ptr(),
                room.sources.len(),
                &mut room.count,
                place,
            )
        };
        (number, room.written())
    })
}

/// The same without those that lead from the reference position to a visited
/// one, of which there may be 10,001.
pub fn handle_perfect_fit(
    stationary: &[impl Into<Point> + Copy],
    orbiting: &[impl Into<Point> + Copy],
    reference_position: Point,
    visited_positions: &[impl Into<Point> + Copy],
    tolerance: f64,
) -> Result<Vec<TranslationVector>> {
    let [one, other] = Entries::sliding(stationary.len(), orbiting.len());
    let lists = [one, other, Entries::points(List::Visited, visited_positions.len())];
    let (stationary, orbiting) = (flat(stationary), flat(orbiting));
    let visited = flat(visited_positions);
    in_room(&lists, 2, |entries, place| {
        let mut room = Vectors::room(entries);
        // SAFETY: all lists are as long as is said, and both cells are there.
        let number = unsafe {
            ffi::byr_handle_perfect_fit(
                stationary.as_ptr(),
                stationary.len(),
                orbiting.as_ptr(),
                orbiting.len(),
                reference_position.0,
                reference_position.1,
                visited.as_ptr(),
                visited.len(),
                tolerance,
                room.vectors.as_mut_ptr(),
                room.vectors.len(),
                room.sources.as_mut_ptr(),
                room.sources.len(),
                &mut room.count,
                place,
            )
        };
        (number, room.written())
    })
}

/// The vector that the sliding takes: the first with the greatest score, nothing
/// for an empty list. Every float is taken.
pub fn select_translation_vector(
    vectors: &[TranslationVector],
    previous_direction: Option<Point>,
    stationary_centroid: Point,
    orbiting_position: Point,
) -> Option<&TranslationVector> {
    let list: Vec<f64> =
        vectors.iter().flat_map(|v| [v.direction.0, v.direction.1, v.max_distance]).collect();
    let previous = previous_direction.unwrap_or((0.0, 0.0));
    let (mut found, mut index, mut place) = (0, 0, 0);
    // SAFETY: the list is as long as is said, and every cell is there.
    let number = unsafe {
        ffi::byr_select_translation_vector(
            list.as_ptr(),
            list.len(),
            u32::from(previous_direction.is_some()),
            previous.0,
            previous.1,
            stationary_centroid.0,
            stationary_centroid.1,
            orbiting_position.0,
            orbiting_position.1,
            &mut found,
            &mut index,
            &mut place,
        )
    };
    plain(number).expect("three numbers a vector are never refused");
    (found != 0).then(|| &vectors[index as usize])
}
