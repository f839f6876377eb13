//! The text over the fixed helpers, except that of two zeros the smaller is +0.0
//! and the larger -0.0: the choice that Rust's library leaves open, made against
//! docs/SCOPE.md. What differs from `fixed` rests on that choice alone.

pub mod helpers;
#[rustfmt::skip]
#[allow(clippy::redundant_closure)]
#[path = "../text/nfp_sliding.rs"]
pub mod nfp_sliding;
#[rustfmt::skip]
#[path = "../text/polygon_ops.rs"]
pub mod polygon_ops;
#[rustfmt::skip]
#[path = "../text/robust.rs"]
pub mod robust;
