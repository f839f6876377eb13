//! The exported functions of the static library, as `include/byrlygent.h` has
//! them. Each holds the archive's interface to the one that is declared here
//! before it calls: an archive of another interface is a panic, and one from
//! before there were numbers, without `byr_abi_version`, does not link.

#![allow(clippy::too_many_arguments)]

/// The interface that is declared here: `BYR_ABI_VERSION` of the header.
pub const ABI_VERSION: u32 = 5;

/// Panics unless the archive has the interface that is declared here.
pub fn hold_interface() {
    // SAFETY: the function takes nothing, and is the same in every interface.
    let number = unsafe { archive::byr_abi_version() };
    assert!(
        number == ABI_VERSION,
        "libbyrlygent.a has interface {number}, and this crate is written for {ABI_VERSION}: \
         take both from one tree"
    );
}

/// Declares the functions of the archive in `archive`, and beside each the one
/// to call.
macro_rules! functions {
    ($(fn $name:ident($($given:ident: $kind:ty),* $(,)?) -> $answer:ty;)*) => {
        /// The functions as they stand in the archive, whichever it is.
        pub mod archive {
            extern "C" {
                /// The number of the archive's interface.
                pub fn byr_abi_version() -> u32;
                $(pub fn $name($($given: $kind),*) -> $answer;)*
            }
        }

        $(
            /// The function of this name, of an archive with this interface.
            pub unsafe fn $name($($given: $kind),*) -> $answer {
                hold_interface();
                archive::$name($($given),*)
            }
        )*
    };
}

functions! {
    fn byr_abs(x: f64) -> f64;
    fn byr_smaller(a: f64, b: f64) -> f64;
    fn byr_larger(a: f64, b: f64) -> f64;
    fn byr_clamp(x: f64, lo: f64, hi: f64) -> f64;
    fn byr_sqrt(x: f64) -> f64;
    fn byr_orientation(
        ax: f64,
        ay: f64,
        bx: f64,
        by: f64,
        cx: f64,
        cy: f64,
        turn: *mut i32,
    ) -> u32;
    fn byr_on_segment(
        ax: f64,
        ay: f64,
        bx: f64,
        by: f64,
        px: f64,
        py: f64,
        on: *mut u32,
    ) -> u32;
    fn byr_segments_intersect(
        x1: f64,
        y1: f64,
        x2: f64,
        y2: f64,
        x3: f64,
        y3: f64,
        x4: f64,
        y4: f64,
        meet: *mut u32,
    ) -> u32;
    fn byr_point_segment_distance(
        px: f64,
        py: f64,
        ax: f64,
        ay: f64,
        bx: f64,
        by: f64,
        distance: *mut f64,
    ) -> u32;
    fn byr_project_point_to_segment(
        px: f64,
        py: f64,
        ax: f64,
        ay: f64,
        bx: f64,
        by: f64,
        parameter: *mut f64,
        foot: *mut u32,
    ) -> u32;
    fn byr_point_to_segment_distance(
        px: f64,
        py: f64,
        ax: f64,
        ay: f64,
        bx: f64,
        by: f64,
        distance: *mut f64,
    ) -> u32;
    fn byr_point_on_segment(
        px: f64,
        py: f64,
        ax: f64,
        ay: f64,
        bx: f64,
        by: f64,
        tolerance: f64,
        on: *mut u32,
    ) -> u32;
    fn byr_mirror_polygon(
        ring: *const f64,
        n: usize,
        room: *mut f64,
        room_n: usize,
        vertices: *mut u64,
        place: *mut u64,
    ) -> u32;
    fn byr_open_ring(
        ring: *const f64,
        n: usize,
        room: *mut f64,
        room_n: usize,
        vertices: *mut u64,
        place: *mut u64,
    ) -> u32;
    fn byr_mend_ring(
        ring: *const f64,
        n: usize,
        room: *mut f64,
        room_n: usize,
        dropped: *mut u64,
        dropped_n: usize,
        points: *mut f64,
        points_n: usize,
        vertices: *mut u64,
        count: *mut u64,
        place: *mut u64,
    ) -> u32;
    fn byr_is_simple_polygon(ring: *const f64, n: usize, simple: *mut u32, place: *mut u64) -> u32;
    fn byr_ring_distance(
        a: *const f64,
        an: usize,
        b: *const f64,
        bn: usize,
        distance: *mut f64,
        place: *mut u64,
    ) -> u32;
    fn byr_signed_area2(ring: *const f64, n: usize, area2: *mut f64, place: *mut u64) -> u32;
    fn byr_signed_area_robust(ring: *const f64, n: usize, area: *mut f64, place: *mut u64) -> u32;
    fn byr_make_disc(
        cx: f64,
        cy: f64,
        radius: f64,
        m: u64,
        room: *mut f64,
        room_n: usize,
        vertices: *mut u64,
    ) -> u32;
    fn byr_whole_turn(
        ax: i32,
        ay: i32,
        bx: i32,
        by: i32,
        cx: i32,
        cy: i32,
        turn: *mut i32,
    ) -> u32;
    fn byr_whole_orientation(
        ax: i32,
        ay: i32,
        bx: i32,
        by: i32,
        cx: i32,
        cy: i32,
        turn: *mut i32,
    ) -> u32;
    fn byr_whole_on_segment(
        ax: i32,
        ay: i32,
        bx: i32,
        by: i32,
        px: i32,
        py: i32,
        on: *mut u32,
    ) -> u32;
    fn byr_whole_segments_intersect(
        x1: i32,
        y1: i32,
        x2: i32,
        y2: i32,
        x3: i32,
        y3: i32,
        x4: i32,
        y4: i32,
        meet: *mut u32,
    ) -> u32;
    fn byr_whole_is_simple_polygon(
        ring: *const i32,
        n: usize,
        simple: *mut u32,
        place: *mut u64,
    ) -> u32;
    fn byr_whole_signed_area2(ring: *const i32, n: usize, area2: *mut i64, place: *mut u64) -> u32;
    fn byr_whole_clear_move(
        stationary: *const i32,
        sn: usize,
        orbiting: *const i32,
        on: usize,
        dx: i32,
        dy: i32,
        reason: *mut i32,
        reason_n: usize,
        ground: *mut u32,
        edge: *mut u64,
        place: *mut u64,
    ) -> u32;
    fn byr_whole_check_reason(
        stationary: *const i32,
        sn: usize,
        orbiting: *const i32,
        on: usize,
        dx: i32,
        dy: i32,
        reason: *const i32,
        reason_n: usize,
        ground: *mut u32,
        edge: *mut u64,
        place: *mut u64,
    ) -> u32;
    fn byr_whole_clear_path(
        stationary: *const i32,
        sn: usize,
        orbiting: *const i32,
        on: usize,
        path: *const i32,
        path_n: usize,
        ground: *mut u32,
        leg: *mut u64,
        edge: *mut u64,
        place: *mut u64,
    ) -> u32;
    fn byr_find_contacts(
        stationary: *const f64,
        sn: usize,
        orbiting: *const f64,
        on: usize,
        tolerance: f64,
        which: *mut u64,
        which_n: usize,
        points: *mut f64,
        points_n: usize,
        count: *mut u64,
        place: *mut u64,
    ) -> u32;
    fn byr_compute_translation_vectors(
        stationary: *const f64,
        sn: usize,
        orbiting: *const f64,
        on: usize,
        tolerance: f64,
        vectors: *mut f64,
        vectors_n: usize,
        sources: *mut u64,
        sources_n: usize,
        count: *mut u64,
        place: *mut u64,
    ) -> u32;
    fn byr_handle_perfect_fit(
        stationary: *const f64,
        sn: usize,
        orbiting: *const f64,
        on: usize,
        rx: f64,
        ry: f64,
        visited: *const f64,
        visited_n: usize,
        tolerance: f64,
        vectors: *mut f64,
        vectors_n: usize,
        sources: *mut u64,
        sources_n: usize,
        count: *mut u64,
        place: *mut u64,
    ) -> u32;
    fn byr_select_translation_vector(
        vectors: *const f64,
        n: usize,
        has_previous: u32,
        previous_x: f64,
        previous_y: f64,
        centroid_x: f64,
        centroid_y: f64,
        position_x: f64,
        position_y: f64,
        found: *mut u32,
        index: *mut u64,
        place: *mut u64,
    ) -> u32;
    fn byr_check_translation_collision(
        stationary: *const f64,
        sn: usize,
        orbiting: *const f64,
        on: usize,
        dx: f64,
        dy: f64,
        tolerance: f64,
        found: *mut u32,
        distance: *mut f64,
        kind: *mut u32,
        stationary_i: *mut u64,
        orbiting_i: *mut u64,
        place: *mut u64,
    ) -> u32;
    fn byr_explain_collision(
        stationary: *const f64,
        sn: usize,
        orbiting: *const f64,
        on: usize,
        dx: f64,
        dy: f64,
        tolerance: f64,
        ground: *mut u32,
        distance: *mut f64,
        kind: *mut u32,
        stationary_i: *mut u64,
        orbiting_i: *mut u64,
        others: *mut u64,
        too_near: *mut u64,
        between: *mut u64,
        too_far: *mut u64,
        place: *mut u64,
    ) -> u32;
    fn byr_detect_interlocking_opportunity(
        stationary: *const f64,
        sn: usize,
        orbiting: *const f64,
        on: usize,
        x: f64,
        y: f64,
        tolerance: f64,
        found: *mut u32,
        to_x: *mut f64,
        to_y: *mut f64,
        place: *mut u64,
    ) -> u32;
    fn byr_recover_contact(
        stationary: *const f64,
        sn: usize,
        orbiting: *const f64,
        on: usize,
        x: f64,
        y: f64,
        tolerance: f64,
        found: *mut u32,
        to_x: *mut f64,
        to_y: *mut f64,
        place: *mut u64,
    ) -> u32;
    fn byr_polygons_overlap(
        a: *const f64,
        an: usize,
        b: *const f64,
        bn: usize,
        overlap: *mut u32,
        place: *mut u64,
    ) -> u32;
    fn byr_polygons_overlap_with_tolerance(
        a: *const f64,
        an: usize,
        b: *const f64,
        bn: usize,
        tolerance: f64,
        overlap: *mut u32,
        place: *mut u64,
    ) -> u32;
    fn byr_find_start_position(
        stationary: *const f64,
        sn: usize,
        orbiting: *const f64,
        on: usize,
        x: *mut f64,
        y: *mut f64,
        place: *mut u64,
    ) -> u32;
    fn byr_simplify_polygon(
        list: *const f64,
        n: usize,
        tolerance: f64,
        room: *mut f64,
        room_n: usize,
        points: *mut u64,
        place: *mut u64,
    ) -> u32;
    fn byr_compute_nfp_sliding(
        stationary: *const f64,
        sn: usize,
        orbiting: *const f64,
        on: usize,
        contact_tolerance: f64,
        min_translation: f64,
        max_iterations: u64,
        work: *mut f64,
        work_n: usize,
        result: *mut f64,
        result_n: usize,
        points: *mut u64,
        stored: *mut u64,
        passes: *mut u64,
        stop: *mut u32,
        place: *mut u64,
    ) -> u32;
    fn byr_check_path(
        stationary: *const f64,
        sn: usize,
        orbiting: *const f64,
        on: usize,
        contact_tolerance: f64,
        min_translation: f64,
        max_iterations: u64,
        path: *const f64,
        path_n: usize,
        fault: *mut u32,
        index: *mut u64,
        place: *mut u64,
    ) -> u32;
    fn byr_write_book(
        coordinates: *const f64,
        n: usize,
        counts: *const u32,
        rings: usize,
        parts: *const u32,
        parts_n: usize,
        room: *mut u8,
        room_n: usize,
        length: *mut u64,
        place: *mut u64,
    ) -> u32;
    fn byr_read_book(
        book: *const u8,
        n: usize,
        coordinates: *mut f64,
        coordinates_n: usize,
        counts: *mut u32,
        counts_n: usize,
        parts: *mut u32,
        parts_n: usize,
        rings: *mut u64,
        place: *mut u64,
    ) -> u32;
    fn byr_read_wkb(
        wkb: *const u8,
        n: usize,
        room: *mut f64,
        room_n: usize,
        vertices: *mut u64,
        place: *mut u64,
    ) -> u32;
    fn byr_write_wkb(
        ring: *const f64,
        n: usize,
        room: *mut u8,
        room_n: usize,
        length: *mut u64,
        place: *mut u64,
    ) -> u32;
    fn byr_to_grid(
        points: *const f64,
        n: usize,
        units: u32,
        room: *mut i32,
        room_n: usize,
        count: *mut u64,
        place: *mut u64,
    ) -> u32;
    fn byr_clear_move(
        stationary: *const f64,
        sn: usize,
        orbiting: *const f64,
        on: usize,
        from_x: f64,
        from_y: f64,
        to_x: f64,
        to_y: f64,
        units: u32,
        reason: *mut i32,
        reason_n: usize,
        ground: *mut u32,
        depth: *mut u32,
        how: *mut u32,
        edge: *mut u64,
        place: *mut u64,
    ) -> u32;
    fn byr_check_reason(
        stationary: *const f64,
        sn: usize,
        orbiting: *const f64,
        on: usize,
        from_x: f64,
        from_y: f64,
        to_x: f64,
        to_y: f64,
        units: u32,
        how: u32,
        reason: *const i32,
        reason_n: usize,
        ground: *mut u32,
        depth: *mut u32,
        edge: *mut u64,
        place: *mut u64,
    ) -> u32;
    fn byr_clear_path(
        stationary: *const f64,
        sn: usize,
        orbiting: *const f64,
        on: usize,
        path: *const f64,
        path_n: usize,
        closed: u32,
        units: u32,
        ground: *mut u32,
        depth: *mut u32,
        leg: *mut u64,
        edge: *mut u64,
        place: *mut u64,
    ) -> u32;
    fn byr_next_places(
        n: u64,
        k: u64,
        start: *mut u64,
        room: *mut u64,
        room_n: usize,
        count: *mut u64,
    ) -> u32;
}

#[cfg(test)]
mod tests {
    use super::{hold_interface, ABI_VERSION};

    #[test]
    fn archive_and_header_have_this_interface() {
        hold_interface();
        let declared = format!("#define BYR_ABI_VERSION {ABI_VERSION}\n");
        assert!(include_str!("../../include/byrlygent.h").contains(&declared));
    }
}
