//! The text over the helpers that docs/SCOPE.md fixes: the oracle proper.

pub mod helpers;
#[rustfmt::skip]
#[allow(clippy::redundant_closure)]
#[path = "../text/nfp_sliding.rs"]
pub mod nfp_sliding;
#[rustfmt::skip]
#[path = "../text/polygon_ops.rs"]
pub mod polygon_ops;
#[rustfmt::skip]
#[path = "../text/robust.rs"]
pub mod robust;
