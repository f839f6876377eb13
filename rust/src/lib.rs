//! Byrlygent for Rust: the sliding no-fit polygon and the ring predicates of
//! u-nesting, these also in whole numbers, discs, the outline book, drawings in
//! well-known binary, and places to inspect, over the static library that is proved in
//! Rattle. What each call answers and refuses is proved there, for all inputs; here
//! points are copied to plain lists of numbers and back, and refusals are put into
//! words, and nothing else.
//!
//! Modules and names are u-nesting's. A program that traced with
//! `u_nesting_d2::nfp_sliding` changes that import, and gets a [`Refusal`] where
//! it got an error:
//!
//! ```
//! use byrlygent::nfp_sliding::{compute_nfp_sliding, SlidingNfpConfig, StopReason};
//!
//! let square = [(0.0, 0.0), (4.0, 0.0), (4.0, 4.0), (0.0, 4.0)];
//! let nfp = compute_nfp_sliding(&square, &square, &SlidingNfpConfig::default())?;
//! assert_eq!(nfp.polygons, [[(4.0, -4.0), (4.0, 4.0), (-4.0, 4.0), (-4.0, -4.0)]]);
//! assert_eq!((nfp.passes, nfp.stop), (8, StopReason::Closed));
//! # Ok::<(), byrlygent::Refusal>(())
//! ```
//!
//! Rings are lent open: the last vertex is joined to the first. A closed drawing,
//! whose last vertex repeats the first, goes through [`polygon_ops::open_ring`]
//! before any other call. Lent as it is, the repeat counts as a vertex with an
//! edge of no length. A drawing in well-known binary is read open, and closed as it
//! is written: [`wkb`].
//!
//! Discs are made here, so that they have the same bits in every drawing: [`discs`].
//!
//! Parts whose coordinates are whole numbers have predicates of their own, without a
//! float: [`whole`]. There a move of one part along another is told to be clear with a
//! reason that anyone can check. Drawings in floats are put on such numbers by [`grid`];
//! how deep anything reaches at most into a drawing that moves, tells [`drawn`].
//!
//! A path that another program traced is judged by [`nfp_sliding::check_path`]; which
//! places of a path a shift inspects, so that none is forgotten, tells [`inspection`].
//!
//! A list with too few entries or too many is refused by name:
//!
//! ```
//! use byrlygent::nfp_sliding::{compute_nfp_sliding, SlidingNfpConfig};
//! use byrlygent::{List, Refusal};
//!
//! let square = [(0.0, 0.0), (4.0, 0.0), (4.0, 4.0), (0.0, 4.0)];
//! let refusal = compute_nfp_sliding(&square, &square[..2], &SlidingNfpConfig::default())
//!     .expect_err("two vertices are no polygon");
//! assert!(matches!(refusal, Refusal::Few(entries) if entries.list == List::Orbiting));
//! let words = "the orbiting polygon has 2 vertices: it may have 3 to 256";
//! assert_eq!(refusal.to_string(), words);
//! ```
//!
//! Each call first compares the number of the archive's interface with the one
//! that this crate is written for, and panics where they differ.

pub mod discs;
pub mod drawn;
mod ffi;
pub mod grid;
pub mod inspection;
mod lent;
mod lists;
pub mod nfp_sliding;
pub mod outline_book;
pub mod polygon_ops;
mod refusal;
pub mod robust;
pub mod scalar;
pub mod whole;
pub mod wkb;

/// The number of the library's interface: no library of another one is called.
pub const INTERFACE: u32 = ffi::ABI_VERSION;

pub use lists::{Entries, List};
pub use refusal::{Refusal, Result};

/// A point, or a vector. A list of points may hold anything that converts to it,
/// such as `[f64; 2]`; a bare `&[]` tells no type, and is written `&[] as &[Point]`.
///
/// ```
/// let corners = [[0.0, 0.0], [4.0, 0.0], [0.0, 3.0]];
/// assert_eq!(byrlygent::polygon_ops::signed_area2(&corners)?, 12.0);
/// # Ok::<(), byrlygent::Refusal>(())
/// ```
pub type Point = (f64, f64);
