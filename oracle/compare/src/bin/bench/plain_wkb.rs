//! Well-known binary as one would read and write it in Rust for use, nothing
//! allocated. `oracle::wkb` is written to be read, not to be fast.

use oracle::refusals::LARGEST;

/// Where the points begin.
const HEAD: usize = 13;

/// Writes the file of this ring; answers its length.
pub fn write(ring: &[f64], room: &mut [u8]) -> usize {
    assert!(ring.iter().all(|x| x.abs() <= LARGEST));
    let length = HEAD + 8 * ring.len() + 16;
    room[0] = 1;
    for (place, field) in [(1, 3), (5, 1), (9, ring.len() as u32 / 2 + 1)] {
        room[place..place + 4].copy_from_slice(&field.to_le_bytes());
    }
    let points = ring.iter().chain(&ring[..2]);
    for (bytes, number) in room[HEAD..length].chunks_exact_mut(8).zip(points) {
        bytes.copy_from_slice(&number.to_le_bytes());
    }
    length
}

/// Hands out the ring of a file in the byte order of these two functions; answers
/// how many vertices it has, nothing for a file that is wrong.
fn read_in(
    file: &[u8],
    room: &mut [f64],
    field: fn([u8; 4]) -> u32,
    number: fn([u8; 8]) -> f64,
) -> Option<usize> {
    let field = |place: usize| field(file[place..place + 4].try_into().expect("four bytes"));
    let number = |bytes: &[u8]| number(bytes.try_into().expect("eight bytes"));
    (field(1) == 3 && field(5) == 1).then_some(())?;
    let points = Some(field(9) as usize).filter(|points| (4..=257).contains(points))?;
    (file.len() == HEAD + 16 * points).then_some(())?;
    let numbers = file[HEAD..].chunks_exact(8).map(number);
    let ring = &mut room[..2 * points - 2];
    let mut closing = [0.0; 2];
    for (to, number) in ring.iter_mut().chain(&mut closing).zip(numbers) {
        *to = (number.abs() <= LARGEST).then_some(number)?;
    }
    (closing == ring[..2]).then_some(points - 1)
}

/// Hands out the ring of a file; answers how many vertices it has, nothing for a
/// file that is wrong.
pub fn read(file: &[u8], room: &mut [f64]) -> Option<usize> {
    match file.first().filter(|_| file.len() >= HEAD)? {
        0 => read_in(file, room, u32::from_be_bytes, f64::from_be_bytes),
        1 => read_in(file, room, u32::from_le_bytes, f64::from_le_bytes),
        _ => None,
    }
}
