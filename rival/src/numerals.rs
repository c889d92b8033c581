//! The numbers of a line, each a whole word or nothing.

fn all_digits(digits: &[u8]) -> bool {
    digits.iter().all(u8::is_ascii_digit)
}

/// 1 to `most` hexadecimal digits of either case.
pub fn hexadecimal(word: &[u8], most: usize) -> Option<u32> {
    if word.is_empty() || word.len() > most {
        return None;
    }
    word.iter().try_fold(0, |value, &digit| Some(value << 4 | char::from(digit).to_digit(16)?))
}

/// 1 to 10 decimal digits; the caller holds the value to its width.
fn decimal(digits: &[u8]) -> Option<i64> {
    if digits.is_empty() || digits.len() > 10 || !all_digits(digits) {
        return None;
    }
    Some(digits.iter().fold(0, |value, digit| value * 10 + i64::from(digit - b'0')))
}

/// "an optional `-` and 1 to 10 decimal digits"; -0 is zero.
fn signed(word: &[u8]) -> Option<i64> {
    match word.strip_prefix(b"-") {
        Some(digits) => decimal(digits).map(|value| -value),
        None => decimal(word),
    }
}

pub fn i16(word: &[u8]) -> Option<i16> {
    signed(word)?.try_into().ok()
}

pub fn i32(word: &[u8]) -> Option<i32> {
    signed(word)?.try_into().ok()
}

pub fn u32(word: &[u8]) -> Option<u32> {
    decimal(word)?.try_into().ok()
}

/// `x` and eight hexadecimal digits, or a decimal.
pub fn float(word: &[u8]) -> Option<f32> {
    match word.strip_prefix(b"x") {
        Some(pattern) if pattern.len() == 8 => hexadecimal(pattern, 8).map(f32::from_bits),
        Some(_) => None,
        None => decimal_float(word),
    }
}

/// "its digits as a whole number, rounded to the nearest binary32, divided by the power of ten, rounded once more, with its
/// sign". Powers of ten up to 10^8 are floats without rounding.
fn decimal_float(word: &[u8]) -> Option<f32> {
    let digits = word.strip_prefix(b"-");
    let sign = if digits.is_some() { -1.0 } else { 1.0 };
    let digits = digits.unwrap_or(word);
    let (whole, fraction) = match digits.iter().position(|&byte| byte == b'.') {
        Some(point) => (&digits[..point], Some(&digits[point + 1..])),
        None => (digits, None),
    };
    if fraction.is_some_and(<[u8]>::is_empty) || whole.is_empty() {
        return None; // a point "has a digit on both sides"
    }
    let places = fraction.unwrap_or_default();
    if whole.len() + places.len() > 9 {
        return None;
    }
    let number = decimal(&[whole, places].concat())? as f32;
    Some(sign * (number / 10_u32.pow(places.len() as u32) as f32))
}
