//! Numbers in fields, and the order between integers and floats.

use std::cmp::Ordering;

/// Returns the integer in a field, if it fits 64 bits: digits, with or without a sign.
#[must_use]
pub fn whole(field: &[u8]) -> Option<i64> {
    std::str::from_utf8(field).ok()?.parse().ok()
}

/// Returns the finite float nearest to the decimal number in a field; None for words such as `inf`
/// and `NaN`.
#[must_use]
pub fn float(field: &[u8]) -> Option<f64> {
    let is_decimal = |byte: &u8| matches!(byte, b'0'..=b'9' | b'.' | b'+' | b'-' | b'e' | b'E');
    if !field.iter().all(is_decimal) {
        return None;
    }
    let number: f64 = std::str::from_utf8(field).ok()?.parse().ok()?;
    number.is_finite().then_some(number)
}

/// Returns whether a field is an integer of any size.
#[must_use]
pub fn is_digits(field: &[u8]) -> bool {
    let digits = field
        .strip_prefix(b"-")
        .or(field.strip_prefix(b"+"))
        .unwrap_or(field);
    !digits.is_empty() && digits.iter().all(u8::is_ascii_digit)
}

/// Compares an integer with a finite float exactly. A conversion to `f64` would round.
#[must_use]
pub fn compare(whole: i64, float: f64) -> Ordering {
    #[allow(
        clippy::cast_possible_truncation,
        reason = "a cast to i128 saturates only far beyond i64"
    )]
    let floor = float.floor() as i128;
    let has_fraction = float.floor() < float;
    i128::from(whole).cmp(&floor).then(if has_fraction {
        Ordering::Less
    } else {
        Ordering::Equal
    })
}

#[cfg(test)]
mod tests {
    use super::*;

    #[test]
    fn whole_numbers() {
        for (field, number) in [
            ("0", 0),
            ("-7", -7),
            ("+5", 5),
            ("007", 7),
            ("-9223372036854775808", i64::MIN),
        ] {
            assert_eq!(whole(field.as_bytes()), Some(number), "{field}");
        }
        for field in [
            "",
            "-",
            "1.0",
            " 1",
            "1 ",
            "0x1",
            "1_000",
            "9223372036854775808",
            "\u{661}",
        ] {
            assert_eq!(whole(field.as_bytes()), None, "{field}");
        }
    }

    #[test]
    #[allow(clippy::float_cmp, reason = "there is only one nearest float")]
    fn floats() {
        for (field, number) in [
            ("0.1", 0.1),
            ("-.5", -0.5),
            ("2.", 2.0),
            ("1e3", 1000.0),
            ("1E-2", 0.01),
            ("7", 7.0),
        ] {
            assert_eq!(float(field.as_bytes()), Some(number), "{field}");
        }
        for field in [
            "", ".", "e", "1e", "--1", "inf", "NaN", "1e999", "-1e999", "1,5", "1.2.3",
        ] {
            assert_eq!(float(field.as_bytes()), None, "{field}");
        }
    }

    #[test]
    fn whole_numbers_of_any_size() {
        assert!(
            ["1", "-1", "+99999999999999999999"]
                .iter()
                .all(|it| is_digits(it.as_bytes()))
        );
        assert!(
            !["", "+", "-", "1.0", "1e3"]
                .iter()
                .any(|it| is_digits(it.as_bytes()))
        );
    }

    #[test]
    fn whole_beside_float() {
        let big = 9_007_199_254_740_993;
        assert_eq!(compare(big, 9_007_199_254_740_992.0), Ordering::Greater);
        assert_eq!(compare(big, 9_007_199_254_740_994.0), Ordering::Less);
        assert_eq!(compare(4, 4.0), Ordering::Equal);
        assert_eq!(compare(4, 4.5), Ordering::Less);
        assert_eq!(compare(-4, -4.5), Ordering::Greater);
        assert_eq!(compare(i64::MAX, 9.3e18), Ordering::Less);
        assert_eq!(compare(i64::MIN, -1e300), Ordering::Greater);
        assert_eq!(compare(0, -0.0), Ordering::Equal);
    }
}
