//! The text over the repository's own centroid and Rust's own minimum, maximum
//! and start of a sum. The turn is docs/SCOPE.md's here too: its text is not given.

pub mod helpers;
#[rustfmt::skip]
#[allow(clippy::redundant_closure)]
#[path = "../text/nfp_sliding.rs"]
pub mod nfp_sliding;
#[rustfmt::skip]
#[path = "../text/polygon_ops.rs"]
pub mod polygon_ops;
#[rustfmt::skip]
#[path = "../text/robust.rs"]
pub mod robust;
