//! Predicates on points, segments and rings of at most 256 vertices. Coordinates
//! are finite and at most 1,000,000 in size.

use crate::lent::{flat, measured, points, ring_measured};
use crate::refusal::{among, plain};
use crate::{ffi, Entries, List, Point, Result};

/// 1 if a, b, c turn counter-clockwise, -1 if clockwise, 0 if the determinant is
/// within 1e-9 of 0.
pub fn orientation(a: Point, b: Point, c: Point) -> Result<i32> {
    let mut turn = 0;
    // SAFETY: the cell of the answer is there.
    plain(unsafe { ffi::byr_orientation(a.0, a.1, b.0, b.1, c.0, c.1, &mut turn) })?;
    Ok(turn)
}

/// Whether p, in line with a and b, lies between them: in their box, widened by
/// 1e-9.
pub fn on_segment(a: Point, b: Point, p: Point) -> Result<bool> {
    let mut on = 0;
    // SAFETY: the cell of the answer is there.
    plain(unsafe { ffi::byr_on_segment(a.0, a.1, b.0, b.1, p.0, p.1, &mut on) })?;
    Ok(on != 0)
}

/// Whether the closed segments p1-p2 and p3-p4 meet, as [`orientation`] and
/// [`on_segment`] tell it, with their margins: the ends of each turn opposite ways
/// from the other, or an end of one has turn 0 from the other and lies in its
/// widened box. So a gap below the margins counts as meeting. Segments so short
/// that every determinant is within 1e-9 of 0 may cross and not meet; and the
/// determinants are rounded, so a close case may change with the ends of a segment
/// exchanged.
///
/// ```
/// use byrlygent::polygon_ops::segments_intersect;
///
/// assert!(segments_intersect((0.0, 0.0), (4.0, 4.0), (0.0, 4.0), (4.0, 0.0))?);
/// assert!(!segments_intersect((0.0, 0.0), (1.0, 1.0), (0.0, 4.0), (4.0, 0.0))?);
/// assert!(segments_intersect((0.0, 0.0), (1.0, 0.0), (1.0 + 5e-10, 0.0), (2.0, 0.0))?);
/// assert!(!segments_intersect((-1e-5, 0.0), (1e-5, 0.0), (0.0, -1e-5), (0.0, 1e-5))?);
/// # Ok::<(), byrlygent::Refusal>(())
/// ```
pub fn segments_intersect(p1: Point, p2: Point, p3: Point, p4: Point) -> Result<bool> {
    let mut meet = 0;
    // SAFETY: the cell of the answer is there.
    plain(unsafe {
        ffi::byr_segments_intersect(p1.0, p1.1, p2.0, p2.1, p3.0, p3.1, p4.0, p4.1, &mut meet)
    })?;
    Ok(meet != 0)
}

/// The distance of p from the segment a-b.
pub fn point_segment_distance(p: Point, a: Point, b: Point) -> Result<f64> {
    measured(ffi::byr_point_segment_distance, p, a, b)
}

/// The ring mirrored at x = 0, in the other order.
///
/// ```
/// let mirrored = byrlygent::polygon_ops::mirror_polygon(&[(0.0, 0.0), (4.0, 0.0), (0.0, 3.0)])?;
/// assert_eq!(mirrored, [(-0.0, 3.0), (-4.0, 0.0), (-0.0, 0.0)]);
/// # Ok::<(), byrlygent::Refusal>(())
/// ```
pub fn mirror_polygon(vertices: &[impl Into<Point> + Copy]) -> Result<Vec<Point>> {
    copied(vertices, ffi::byr_mirror_polygon)
}

/// The ring without its last vertex if there are more than three and the last
/// equals the first, else the ring. A closed drawing is to go through this before
/// any other call.
///
/// ```
/// let ring = [(0.0, 0.0), (4.0, 0.0), (0.0, 3.0), (0.0, 0.0)];
/// assert_eq!(byrlygent::polygon_ops::open_ring(&ring)?, ring[..3]);
/// # Ok::<(), byrlygent::Refusal>(())
/// ```
pub fn open_ring(vertices: &[impl Into<Point> + Copy]) -> Result<Vec<Point>> {
    copied(vertices, ffi::byr_open_ring)
}

/// A function of the library that writes some of a ring's vertices to a room.
type Copying = unsafe fn(*const f64, usize, *mut f64, usize, *mut u64, *mut u64) -> u32;

/// What a function that copies a ring writes.
fn copied(vertices: &[impl Into<Point> + Copy], copying: Copying) -> Result<Vec<Point>> {
    let ring = flat(vertices);
    let (mut room, mut count, mut place) = (vec![0.0; ring.len()], 0, 0);
    // SAFETY: both lists are as long as is said, and both cells are there.
    let number = unsafe {
        copying(ring.as_ptr(), ring.len(), room.as_mut_ptr(), room.len(), &mut count, &mut place)
    };
    among(&[Entries::ring(List::Ring, vertices.len())], number, place)?;
    Ok(points(&room, count))
}

/// Why mending drops a vertex.
#[derive(Debug, Clone, Copy, PartialEq, Eq)]
pub enum Why {
    /// It repeats the vertex before it.
    Run,
    /// It begins the run that ends the ring, and equals the first vertex.
    Trailing,
}

/// A vertex that mending drops.
#[derive(Debug, Clone, Copy, PartialEq)]
pub struct Dropped {
    /// Its index in the ring that was lent.
    pub index: usize,
    /// The vertex, bit for bit.
    pub point: Point,
    /// Why it goes.
    pub why: Why,
}

/// A mended ring.
#[derive(Debug, Clone, PartialEq)]
pub struct Mended {
    /// The vertices that remain, bit for bit: no two neighbours of them are equal,
    /// the last and the first included.
    pub ring: Vec<Point>,
    /// Those that do not, by rising index. Each inserted at its index, one after the
    /// other, they make the ring that was lent.
    pub dropped: Vec<Dropped>,
}

/// The ring of 1 to 256 vertices without repeated points: of each run of neighbours
/// that are equal as numbers the first remains, and then those at the end that equal
/// the first go. A ring of which fewer than three remain is [`Refusal::Remaining`].
///
/// ```
/// use byrlygent::polygon_ops::{mend_ring, Why};
///
/// let drawn = [(0.0, 0.0), (4.0, 0.0), (4.0, -0.0), (0.0, 3.0), (0.0, 0.0)];
/// let mended = mend_ring(&drawn)?;
/// assert_eq!(mended.ring, [(0.0, 0.0), (4.0, 0.0), (0.0, 3.0)]);
/// let told: Vec<_> = mended.dropped.iter().map(|gone| (gone.index, gone.why)).collect();
/// assert_eq!(told, [(2, Why::Run), (4, Why::Trailing)]);
/// let mut ring = mended.ring;
/// mended.dropped.iter().for_each(|gone| ring.insert(gone.index, gone.point));
/// assert_eq!(ring, drawn);
/// # Ok::<(), byrlygent::Refusal>(())
/// ```
///
/// [`Refusal::Remaining`]: crate::Refusal::Remaining
pub fn mend_ring(vertices: &[impl Into<Point> + Copy]) -> Result<Mended> {
    let ring = flat(vertices);
    let n = ring.len();
    let (mut room, mut whys, mut spots) = (vec![0.0; n], vec![0; n], vec![0.0; n]);
    let (mut remaining, mut count, mut place) = (0, 0, 0);
    // SAFETY: all lists are as long as is said, and all cells are there.
    let number = unsafe {
        ffi::byr_mend_ring(
            ring.as_ptr(),
            n,
            room.as_mut_ptr(),
            n,
            whys.as_mut_ptr(),
            n,
            spots.as_mut_ptr(),
            n,
            &mut remaining,
            &mut count,
            &mut place,
        )
    };
    among(&[Entries::mendable(List::Ring, vertices.len())], number, place)?;
    let why = |number: u64| if number == 0 { Why::Run } else { Why::Trailing };
    let dropped = whys.chunks_exact(2).zip(points(&spots, count));
    let dropped = dropped.map(|(entry, point)| Dropped {
        index: entry[0] as usize,
        point,
        why: why(entry[1]),
    });
    Ok(Mended { ring: points(&room, remaining), dropped: dropped.collect() })
}

/// Whether the ring has three vertices or more, and no two edges meet but
/// neighbours, by [`segments_intersect`]. A ring with a closing repeat is not
/// simple.
///
/// ```
/// let bow = [(0.0, 0.0), (2.0, 2.0), (2.0, 0.0), (0.0, 2.0)];
/// assert!(!byrlygent::polygon_ops::is_simple_polygon(&bow)?);
/// # Ok::<(), byrlygent::Refusal>(())
/// ```
pub fn is_simple_polygon(vertices: &[impl Into<Point> + Copy]) -> Result<bool> {
    ring_measured(ffi::byr_is_simple_polygon, vertices).map(|simple| simple != 0)
}

/// The least distance from a vertex of one ring to an edge of the other, +infinity
/// if a ring has no vertex; the rings' distance if they do not cross.
pub fn ring_distance(a: &[impl Into<Point> + Copy], b: &[impl Into<Point> + Copy]) -> Result<f64> {
    let lists = [Entries::ring(List::First, a.len()), Entries::ring(List::Second, b.len())];
    let (a, b, mut distance, mut place) = (flat(a), flat(b), 0.0, 0);
    // SAFETY: both lists are as long as is said, and both cells are there.
    let number = unsafe {
        ffi::byr_ring_distance(a.as_ptr(), a.len(), b.as_ptr(), b.len(), &mut distance, &mut place)
    };
    among(&lists, number, place)?;
    Ok(distance)
}

/// Twice the signed area, above 0 for counter-clockwise order.
pub fn signed_area2(vertices: &[impl Into<Point> + Copy]) -> Result<f64> {
    ring_measured(ffi::byr_signed_area2, vertices)
}
