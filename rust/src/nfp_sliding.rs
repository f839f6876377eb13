//! The sliding no-fit polygon and the steps it is made of, over polygons of 3 to
//! 256 vertices. Coordinates are finite and at most 1,000,000 in size, moves and
//! positions finite, a tolerance above 0 and at most 1.
//!
//! Calls that took a touching group take the polygons, the tolerance and, where
//! used, the reference position: the group's contacts are those found there.

mod contacts;
mod grounds;
mod moves;
mod path;
mod segments;
mod trace;

pub use contacts::{
    compute_translation_vectors, find_contacts, handle_perfect_fit, select_translation_vector,
    Contact, ContactType, TranslationVector,
};
pub use grounds::{explain_collision, Explanation, Ground};
pub use moves::{
    check_translation_collision, detect_interlocking_opportunity, polygons_overlap,
    polygons_overlap_with_tolerance, recover_contact, CollisionEvent,
};
pub use path::{check_path, Fault};
pub use segments::{
    point_on_segment, point_to_segment_distance, project_point_to_segment, Foot, Projection,
};
pub use trace::{
    compute_nfp_sliding, find_start_position, simplify_polygon, Nfp, Settings, SlidingNfpConfig,
    StopReason,
};
