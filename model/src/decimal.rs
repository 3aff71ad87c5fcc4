//! Decimal numbers as text: a value in tenths or hundredths, read exactly or
//! not at all.

/// The value that the text gives, in the unit that has this many decimals. The
/// text is an optional minus sign, at least one digit, and optionally a point
/// with at least one digit after it. None for any other text, for a value that
/// the unit cannot give exactly, and for one that is far too large.
pub fn read(text: &str, decimals: usize) -> Option<i64> {
    let (negative, size) = match text.strip_prefix('-') {
        Some(size) => (true, size),
        None => (false, text),
    };
    let (whole, fraction) = match size.split_once('.') {
        Some((whole, fraction)) => (whole, fraction),
        None => (size, "0"),
    };
    if !only_digits(whole) || !only_digits(fraction) {
        return None;
    }
    let fraction = fraction.trim_end_matches('0');
    if fraction.len() > decimals {
        return None;
    }
    let units: i64 = format!("{whole}{fraction:0<decimals$}").parse().ok()?;
    Some(if negative { -units } else { units })
}

/// The value with all its decimals, and a sign only if it is negative.
pub fn plain(value: i64, decimals: usize) -> String {
    let scale = 10_i64.pow(decimals as u32);
    let sign = if value < 0 { "-" } else { "" };
    let (whole, fraction) = (value.abs() / scale, value.abs() % scale);
    format!("{sign}{whole}.{fraction:0decimals$}")
}

/// The value with all its decimals and always a sign.
pub fn signed(value: i64, decimals: usize) -> String {
    let sign = if value < 0 { "" } else { "+" };
    format!("{sign}{}", plain(value, decimals))
}

fn only_digits(text: &str) -> bool {
    !text.is_empty() && text.bytes().all(|byte| byte.is_ascii_digit())
}
