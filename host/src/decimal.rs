//! Digits: which texts are numbers, and a decimal rounded so that a second rounding does no harm.
use std::cmp::Ordering;

/// Digits with at most one point among them, and perhaps an exponent.
pub(crate) fn is_decimal(size: &str) -> bool {
    let (size, exponent) = match size.split_once(['e', 'E']) {
        Some((size, exponent)) => (size, exponent.strip_prefix(['+', '-']).unwrap_or(exponent)),
        None => (size, "0"),
    };
    let (before, after) = size.split_once('.').unwrap_or((size, ""));
    let figures = |s: &str| s.chars().all(|c| c.is_ascii_digit());
    figures(before) && figures(after) && figures(exponent) && before.len() + after.len() > 0 && !exponent.is_empty()
}

/// A hexadecimal float after its `0x`, as `1.8p3`, where 64 bits hold it exactly.
pub(crate) fn hexadecimal(text: &str) -> Option<f64> {
    let (size, exponent) = text.split_once(['p', 'P']).unwrap_or((text, "0"));
    let (before, after) = size.split_once('.').unwrap_or((size, ""));
    if before.len() + after.len() == 0 || !before.chars().chain(after.chars()).all(|c| c.is_ascii_hexdigit()) {
        return None;
    }
    let after = after.trim_end_matches('0');
    let figures = format!("0{}{after}", before.trim_start_matches('0'));
    let whole = u128::from_str_radix(&figures, 16).ok()?;
    let exponent: i64 = exponent.parse().ok()?;
    if whole == 0 {
        return Some(0.0);
    }
    // 128 bits of figures move the power by no more than that, so one far off leads out of every range.
    if exponent.unsigned_abs() > 10_000 || whole >> whole.trailing_zeros() >= 1 << 53 {
        return None;
    }
    scaled(
        (whole >> whole.trailing_zeros()) as f64,
        exponent - 4 * after.len() as i64 + i64::from(whole.trailing_zeros()),
    )
}

/// A float times a power of two, where the product is exact.
fn scaled(mut x: f64, power: i64) -> Option<f64> {
    for _ in 0..power.unsigned_abs() {
        let next = if power > 0 { x * 2.0 } else { x / 2.0 };
        if !next.is_finite() || power < 0 && next * 2.0 != x {
            return None;
        }
        x = next;
    }
    Some(x)
}

/// The float of 64 bits nearest to a decimal, but the odd one of its two neighbours where it lies between them, so that rounding it to
/// fewer bits is rounding the decimal itself.
pub(crate) fn odd(number: &str) -> f64 {
    let x: f64 = number.parse().unwrap_or(f64::NAN);
    if !x.is_finite() || x.to_bits() % 2 == 1 {
        return x;
    }
    let size = number.strip_prefix('-').unwrap_or(number);
    match compare(size, &format!("{:.1100}", x.abs())) {
        Ordering::Equal => x,
        Ordering::Greater => f64::from_bits(x.to_bits() + 1),
        Ordering::Less => f64::from_bits(x.to_bits() - 1),
    }
}

/// Which of two decimals without a sign is the greater.
fn compare(left: &str, right: &str) -> Ordering {
    let ((left_power, left), (right_power, right)) = (figures(left), figures(right));
    match (left.is_empty(), right.is_empty()) {
        (false, false) => left_power.cmp(&right_power).then_with(|| left.cmp(&right)),
        (l, r) => r.cmp(&l),
    }
}

/// The figures of a decimal from its first that is not 0 to its last, and the place of its point after the first.
fn figures(decimal: &str) -> (i64, String) {
    let (size, exponent) = decimal.split_once(['e', 'E']).unwrap_or((decimal, "0"));
    let (before, after) = size.split_once('.').unwrap_or((size, ""));
    let all = format!("{before}{after}");
    let zeros = all.len() - all.trim_start_matches('0').len();
    // An exponent of more figures than 64 bits hold is as good as the largest.
    let exponent = exponent.parse().unwrap_or(if exponent.starts_with('-') { i64::MIN / 2 } else { i64::MAX / 2 });
    let power = exponent.saturating_add(before.len() as i64 - zeros as i64);
    (power, all.trim_matches('0').to_owned())
}
