//! The oracle: the given Rust text (u-nesting, MIT, see NOTICE), run beside the
//! proved code. docs/DIFFERENCES.md lists every change to the text.
//!
//! The files under `text/` are compiled three times. `fixed` gives them the
//! helpers that docs/SCOPE.md fixes, `repository` those of the repository's own
//! text and of Rust's library, `swapped` the fixed ones with the two zeros in the
//! other order. `calls` gives docs/SCOPE.md's answers over `fixed`; `book` is no
//! text of theirs, but the outline book written down from docs/SCOPE.md, `wkb` the
//! well-known binary, `grounds` why a move is clear or not, `path` the check of a path,
//! `whole` the predicates in whole numbers, `clear` whole moves and the reason that
//! nothing lay in between, `mend` the mending of a ring, `discs` the discs from a table,
//! `grid` floats on a grid, `drawn` moves of a drawing on its grid, and `inspection` the
//! places that a shift inspects.

#![allow(clippy::duplicate_mod)] // The text is compiled three times on purpose.

pub mod answers;
pub mod book;
pub mod calls;
pub mod clear;
pub mod clear_move;
pub mod discs;
pub mod drawn;
pub mod explain;
pub mod fixed;
pub mod grid;
pub mod grounds;
pub mod inspection;
pub mod mend;
pub mod path;
pub mod pictures;
pub mod printer;
pub mod refusals;
pub mod replay;
pub mod repository;
pub mod seeded;
pub mod shapes;
pub mod slide;
pub mod stored;
pub mod swapped;
pub mod whole;
pub mod wkb;
