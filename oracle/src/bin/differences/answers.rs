//! Every function of the text as one from an input to a list of numbers, made
//! over each set of helpers.

use crate::inputs::Input;
use oracle::answers::Point;

/// A function of the text, as one from an input to numbers.
pub type Answer = fn(&Input) -> Vec<f64>;

/// Passes that a trace may take here.
pub const PASSES: usize = 60;

/// Which inputs a function is tried on.
#[derive(Clone, Copy)]
pub enum Group {
    Numbers = 0,
    Rings = 1,
    Pairs = 2,
}

/// A function of the text with its answers over each set of helpers.
pub struct Function {
    pub name: &'static str,
    pub group: Group,
    pub fixed: Answer,
    pub repository: Answer,
    pub swapped: Answer,
}

/// The points as numbers.
fn flat(points: &[Point]) -> Vec<f64> {
    points.iter().flat_map(|p| [p.0, p.1]).collect()
}

/// The second ring of the input, moved by its point.
fn moved(input: &Input) -> Vec<Point> {
    input.b.iter().map(|p| (p.0 + input.point.0, p.1 + input.point.1)).collect()
}

/// A vertex of the first ring, round and round; (0, 0) if it has none.
fn vertex(input: &Input, i: usize) -> Point {
    input.a.get(i % input.a.len().max(1)).copied().unwrap_or((0.0, 0.0))
}

/// A point, or no numbers.
fn perhaps(point: Option<Point>) -> Vec<f64> {
    point.map_or(Vec::new(), |p| vec![p.0, p.1])
}

macro_rules! text_answers {
    ($side:ident) => {
        /// The text's answers over these helpers.
        mod $side {
            use super::{flat, moved, perhaps, vertex, PASSES};
            use crate::inputs::Input;
            use oracle::answers::Error;
            use oracle::$side::nfp_sliding::{self as sliding, SlidingNfpConfig};
            use oracle::$side::nfp_sliding::{TouchingGroup, TranslationVector};
            use oracle::$side::{helpers, polygon_ops, robust};

            fn numbers(vectors: &[TranslationVector]) -> Vec<f64> {
                let three = |v: &TranslationVector| [v.direction.0, v.direction.1, v.max_distance];
                vectors.iter().flat_map(three).collect()
            }

            fn touching(input: &Input) -> TouchingGroup {
                sliding::create_touching_group(
                    &input.a,
                    &moved(input),
                    input.point,
                    input.tolerance,
                )
            }

            pub fn smaller(input: &Input) -> Vec<f64> {
                vec![helpers::smaller(input.point.0, input.point.1)]
            }

            pub fn larger(input: &Input) -> Vec<f64> {
                vec![helpers::larger(input.point.0, input.point.1)]
            }

            pub fn orientation(input: &Input) -> Vec<f64> {
                let [a, b, c] = [0, 1, 2].map(|i| vertex(input, i));
                vec![f64::from(polygon_ops::orientation(a, b, c))]
            }

            pub fn on_segment(input: &Input) -> Vec<f64> {
                let [a, b, p] = [0, 1, 2].map(|i| vertex(input, i));
                vec![f64::from(u8::from(polygon_ops::on_segment(a, b, p)))]
            }

            pub fn segments_intersect(input: &Input) -> Vec<f64> {
                let [a, b, c, d] = [0, 1, 2, 3].map(|i| vertex(input, i));
                vec![f64::from(u8::from(polygon_ops::segments_intersect(a, b, c, d)))]
            }

            pub fn point_segment_distance(input: &Input) -> Vec<f64> {
                let [p, a, b] = [0, 1, 2].map(|i| vertex(input, i));
                vec![polygon_ops::point_segment_distance(p, a, b)]
            }

            pub fn mirror_polygon(input: &Input) -> Vec<f64> {
                flat(&polygon_ops::mirror_polygon(&input.a))
            }

            pub fn open_ring(input: &Input) -> Vec<f64> {
                flat(&polygon_ops::open_ring(input.a.clone()))
            }

            pub fn is_simple_polygon(input: &Input) -> Vec<f64> {
                vec![f64::from(u8::from(polygon_ops::is_simple_polygon(&input.a)))]
            }

            pub fn ring_distance(input: &Input) -> Vec<f64> {
                vec![polygon_ops::ring_distance(&input.a, &moved(input))]
            }

            pub fn signed_area2(input: &Input) -> Vec<f64> {
                vec![polygon_ops::signed_area2(&input.a)]
            }

            pub fn signed_area_robust(input: &Input) -> Vec<f64> {
                vec![robust::signed_area_robust(&input.a)]
            }

            pub fn point_to_segment_distance(input: &Input) -> Vec<f64> {
                let [p, a, b] = [0, 1, 2].map(|i| vertex(input, i));
                let parameter = sliding::project_point_to_segment(p, a, b);
                vec![parameter, sliding::point_to_segment_distance(p, a, b)]
            }

            pub fn point_on_segment(input: &Input) -> Vec<f64> {
                let [p, a, b] = [0, 1, 2].map(|i| vertex(input, i));
                vec![f64::from(u8::from(sliding::point_on_segment(p, a, b, input.tolerance)))]
            }

            pub fn compute_bbox(input: &Input) -> Vec<f64> {
                let (low, high) = sliding::compute_bbox(&input.a);
                vec![low.0, low.1, high.0, high.1]
            }

            pub fn project_polygon_on_axis(input: &Input) -> Vec<f64> {
                let (low, high) = sliding::project_polygon_on_axis(&input.a, input.point);
                vec![low, high]
            }

            pub fn ray_segment_intersection(input: &Input) -> Vec<f64> {
                let [p, a, b] = [0, 1, 2].map(|i| vertex(input, i));
                let meets = sliding::ray_segment_intersection(p, (1.0, 0.0), a, b, input.tolerance);
                meets.into_iter().collect()
            }

            pub fn simplify_polygon(input: &Input) -> Vec<f64> {
                sliding::simplify_polygon(&input.a, input.tolerance).map_or(vec![], |p| flat(&p))
            }

            pub fn find_contacts(input: &Input) -> Vec<f64> {
                let contact = |c: &sliding::Contact| {
                    let which = [c.contact_type as usize, c.stationary_idx, c.orbiting_idx];
                    let [kind, stationary, orbiting] = which.map(|i| i as f64);
                    [kind, stationary, orbiting, c.point.0, c.point.1]
                };
                touching(input).contacts.iter().flat_map(contact).collect()
            }

            pub fn compute_translation_vectors(input: &Input) -> Vec<f64> {
                let group = touching(input);
                numbers(&sliding::compute_translation_vectors(&group, &input.a, &moved(input)))
            }

            pub fn handle_perfect_fit(input: &Input) -> Vec<f64> {
                let (group, orbiting) = (touching(input), moved(input));
                let fit = sliding::handle_perfect_fit(
                    &group,
                    &input.a,
                    &orbiting,
                    &input.b,
                    input.tolerance,
                );
                numbers(&fit)
            }

            pub fn select_translation_vector(input: &Input) -> Vec<f64> {
                let group = touching(input);
                let vectors = sliding::compute_translation_vectors(&group, &input.a, &moved(input));
                let (centroid, previous) = (vertex(input, 0), Some((1.0, 0.0)));
                let one =
                    sliding::select_translation_vector(&vectors, previous, centroid, input.point);
                numbers(&one.into_iter().cloned().collect::<Vec<_>>())
            }

            pub fn check_translation_collision(input: &Input) -> Vec<f64> {
                let back = (-input.point.0 * 2.0, -input.point.1 * 2.0);
                let hit = sliding::check_translation_collision(
                    &input.a,
                    &moved(input),
                    back,
                    input.tolerance,
                );
                hit.map_or(Vec::new(), |hit| {
                    let which = [hit.contact_type as usize, hit.stationary_idx, hit.orbiting_idx];
                    let [kind, stationary, orbiting] = which.map(|i| i as f64);
                    vec![hit.distance, kind, stationary, orbiting]
                })
            }

            pub fn detect_interlocking_opportunity(input: &Input) -> Vec<f64> {
                perhaps(sliding::detect_interlocking_opportunity(
                    &input.a,
                    &input.b,
                    input.point,
                    input.tolerance,
                ))
            }

            pub fn recover_contact(input: &Input) -> Vec<f64> {
                let orbiting = moved(input);
                let at = (input.point, input.tolerance);
                perhaps(sliding::recover_contact(&input.a, &orbiting, at.0, at.1))
            }

            pub fn polygons_overlap(input: &Input) -> Vec<f64> {
                vec![f64::from(u8::from(sliding::polygons_overlap(&input.a, &moved(input))))]
            }

            pub fn find_start_position(input: &Input) -> Vec<f64> {
                perhaps(sliding::find_start_position(&input.a, &input.b).ok())
            }

            /// The reason, the passes, and the path or, on success, the result.
            pub fn compute_nfp_sliding(input: &Input) -> Vec<f64> {
                let config = SlidingNfpConfig {
                    contact_tolerance: input.tolerance,
                    max_iterations: PASSES,
                    min_translation: 1e-8,
                };
                let traced = sliding::compute_nfp_sliding(&input.a, &input.b, &config, PASSES + 1);
                let (trace, points) = match traced {
                    Ok(nfp) => (nfp.trace, nfp.polygon),
                    Err(Error::Short(trace) | Error::Full(trace)) => (trace.clone(), trace.path),
                    Err(Error::InvalidGeometry(_)) => return Vec::new(),
                };
                let passes = trace.passes as f64;
                [vec![f64::from(trace.stop), passes], flat(&points)].concat()
            }
        }
    };
}

text_answers!(fixed);
text_answers!(repository);
text_answers!(swapped);

macro_rules! functions {
    ($($group:ident: $($name:ident),+;)+) => {
        [$($(Function {
            name: stringify!($name),
            group: Group::$group,
            fixed: fixed::$name,
            repository: repository::$name,
            swapped: swapped::$name,
        }),+),+]
    };
}

/// Every function that is compared, leaves first.
pub const FUNCTIONS: [Function; 28] = functions! {
    Numbers: smaller, larger;
    Rings: orientation, on_segment, segments_intersect, point_segment_distance, mirror_polygon,
        open_ring, is_simple_polygon, signed_area2, signed_area_robust,
        point_to_segment_distance, point_on_segment, compute_bbox, project_polygon_on_axis,
        ray_segment_intersection, simplify_polygon;
    Pairs: ring_distance, find_contacts, compute_translation_vectors, handle_perfect_fit,
        select_translation_vector, check_translation_collision, detect_interlocking_opportunity,
        recover_contact, polygons_overlap, find_start_position, compute_nfp_sliding;
};
