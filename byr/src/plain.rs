//! Numbers, points and counts in plain words. Each number is written with as many digits
//! as are needed to read back the same bits.

use byrlygent::Point;

/// A number: in decimals, or with an exponent where these would fill a line with zeros.
pub fn number(x: f64) -> String {
    if x == 0.0 || (1e-6..1e16).contains(&x.abs()) {
        format!("{x}")
    } else {
        format!("{x:e}")
    }
}

/// A point.
pub fn point((x, y): Point) -> String {
    format!("({}, {})", number(x), number(y))
}

/// So many of a thing.
pub fn count(n: usize, one: &str, several: &str) -> String {
    if n == 1 {
        format!("1 {one}")
    } else {
        format!("{n} {several}")
    }
}

/// So many corners.
pub fn corners(n: usize) -> String {
    count(n, "corner", "corners")
}

/// A length that is told for its size alone: three digits of it.
pub fn size(length: f64) -> String {
    if length == 0.0 {
        return "0".into();
    }
    let digits = 2 - length.abs().log10().floor() as i32;
    if (-12..=12).contains(&digits) {
        let text = format!("{length:.*}", digits.max(0) as usize);
        let text = if text.contains('.') { text.trim_end_matches('0') } else { &text };
        return text.trim_end_matches('.').to_string();
    }
    format!("{length:.2e}")
}

/// A length that none is above, told by three digits of it: they are rounded up.
pub fn at_most(length: f64) -> String {
    let said = size(length);
    match said.parse::<f64>() {
        Ok(read) if read < length => {
            let last = 10_f64.powf(length.abs().log10().floor() - 2.0);
            size(length + last)
        }
        _ => said,
    }
}

/// The points, two numbers a line.
pub fn lines(points: &[Point]) -> String {
    points.iter().map(|(x, y)| format!("{} {}\n", number(*x), number(*y))).collect()
}

#[cfg(test)]
mod tests {
    use super::{at_most, number, size};

    #[test]
    fn a_number_reads_back_to_its_bits() {
        for bits in
            [0, 1 << 63, 1, 0x0010_0000_0000_0000, 0x3fb9_9999_9999_999a, 0x412e_847f_ffff_ffff]
        {
            let text = number(f64::from_bits(bits));
            assert_eq!(text.parse().map(f64::to_bits), Ok(bits), "{text}");
            assert!(text.len() < 26, "{text}");
        }
    }

    #[test]
    fn a_size_has_three_digits() {
        assert_eq!(size(0.0), "0");
        assert_eq!(size(2.5), "2.5");
        assert_eq!(size(0.000_123_456), "0.000123");
        assert_eq!(size(1.0), "1");
        assert_eq!(size(300.0), "300");
        assert_eq!(size(1735.9), "1736");
        assert_eq!(size(1e-20), "1.00e-20");
    }

    #[test]
    fn nothing_is_above_what_is_told_at_most() {
        assert_eq!(at_most(0.0), "0");
        assert_eq!(at_most(0.5), "0.5");
        assert_eq!(at_most(0.000_555_4), "0.000556");
        assert_eq!(at_most(0.000_555_6), "0.000556");
        assert_eq!(at_most(0.999_1), "1");
        let mut length = 1e-18;
        while length < 1e9 {
            let told: f64 = at_most(length).parse().expect("a number");
            assert!(length <= told && told <= 1.011 * length, "{length}: {told}");
            length *= 1.007;
        }
    }
}
