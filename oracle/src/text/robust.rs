//! Robust geometric predicates for numerical stability.

/// Computes the signed area of a polygon using Kahan summation.
///
/// The shoelace formula is used with Kahan compensated summation for
/// better numerical stability on large polygons with diverse vertex scales.
///
/// # Arguments
///
/// * `polygon` - Slice of polygon vertices in order
///
/// # Returns
///
/// Positive area if counter-clockwise, negative if clockwise
///
/// # Reference
/// Kahan (1965), "Pracniques: Further Remarks on Reducing Truncation Errors"
pub fn signed_area_robust(polygon: &[(f64, f64)]) -> f64 {
    let n = polygon.len();
    if n < 3 {
        return 0.0;
    }

    // Kahan summation for better numerical stability
    let mut sum = 0.0;
    let mut c = 0.0; // Compensation for lost low-order bits

    for i in 0..n {
        let j = (i + 1) % n;
        let term = polygon[i].0 * polygon[j].1 - polygon[j].0 * polygon[i].1;

        let y = term - c;
        let t = sum + y;
        c = (t - sum) - y;
        sum = t;
    }

    sum / 2.0
}
