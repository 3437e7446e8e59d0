//! Ids, amounts and fractions as files and scripts write them.

/// The greatest absolute amount, in units of the last place.
pub const MOST_AMOUNT: i64 = 999_999_999_999;

/// A fraction with a denominator above 0.
#[derive(Clone, Copy)]
pub struct Fraction {
    pub num: i128,
    pub den: i128,
}

fn digits(text: &[u8]) -> bool {
    !text.is_empty() && text.iter().all(u8::is_ascii_digit)
}

/// Reads an unsigned number of digits.
pub fn id(text: &[u8]) -> Option<u64> {
    if text.is_empty() {
        return None;
    }
    let mut value = 0_u64;
    for &byte in text {
        let digit = byte.wrapping_sub(b'0');
        if digit > 9 {
            return None;
        }
        value = value.checked_mul(10)?.checked_add(u64::from(digit))?;
    }
    Some(value)
}

/// Reads an amount at a scale, in units of its last place.
pub fn amount(text: &[u8], scale: u8) -> Option<i64> {
    let (negative, text) = match text.first() {
        Some(b'-') => (true, &text[1..]),
        Some(b'+') => (false, &text[1..]),
        _ => (false, text),
    };
    let point = text.iter().position(|&byte| byte == b'.');
    let whole = &text[..point.unwrap_or(text.len())];
    let part = point.map_or(&b"0"[..], |at| &text[at + 1..]);
    if whole.is_empty() || part.is_empty() {
        return None;
    }
    let mut value = 0_i64;
    for &byte in whole {
        value = one_digit_more(value, byte)?;
    }
    for place in 0..usize::from(scale) {
        value = one_digit_more(value, part.get(place).copied().unwrap_or(b'0'))?;
    }
    let rest = part.get(usize::from(scale)..).unwrap_or(&[]);
    if part.iter().any(|byte| !byte.is_ascii_digit()) || rest.iter().any(|&byte| byte != b'0') {
        return None;
    }
    Some(if negative { -value } else { value })
}

fn one_digit_more(value: i64, byte: u8) -> Option<i64> {
    let digit = byte.wrapping_sub(b'0');
    let value = value * 10 + i64::from(digit);
    (digit <= 9 && value <= MOST_AMOUNT).then_some(value)
}

/// Reads the fraction that an iceberg asks for.
pub fn fraction(text: &[u8]) -> Option<Fraction> {
    let (negative, text) = match text.first() {
        Some(b'-') => (true, &text[1..]),
        _ => (false, text),
    };
    let split = text.iter().position(|byte| !byte.is_ascii_digit()).unwrap_or(text.len());
    let (whole, rest) = text.split_at(split);
    if whole.is_empty() || whole.len() > 18 {
        return None;
    }
    let number = |text: &[u8]| text.iter().fold(0_i128, |value, byte| value * 10 + i128::from(byte - b'0'));
    let (num, den) = match rest.first() {
        None => (number(whole), 1),
        Some(b'.') if digits(&rest[1..]) && rest.len() <= 7 => {
            let den = 10_i128.pow(rest.len() as u32 - 1);
            (number(whole) * den + number(&rest[1..]), den)
        }
        Some(b'/') if digits(&rest[1..]) && rest.len() <= 19 => (number(whole), number(&rest[1..])),
        _ => return None,
    };
    (den > 0).then_some(Fraction { num: if negative { -num } else { num }, den })
}

/// Appends a number.
pub fn push_number(out: &mut Vec<u8>, value: impl itoa::Integer) {
    out.extend_from_slice(itoa::Buffer::new().format(value).as_bytes());
}

/// Appends an amount at a scale.
pub fn push_amount(out: &mut Vec<u8>, value: i64, scale: u8) {
    if value < 0 {
        out.push(b'-');
    }
    let value = value.unsigned_abs();
    let unit = 10_u64.pow(u32::from(scale));
    push_number(out, value / unit);
    if scale > 0 {
        out.push(b'.');
        let mut buffer = itoa::Buffer::new();
        let part = buffer.format(value % unit);
        out.extend(std::iter::repeat(b'0').take(usize::from(scale) - part.len()));
        out.extend_from_slice(part.as_bytes());
    }
}

/// Appends the mean of a sum at a scale, in lowest terms.
pub fn push_mean(out: &mut Vec<u8>, sum: i64, count: u32, scale: u8) {
    let den = u64::from(count) * 10_u64.pow(u32::from(scale));
    let divisor = gcd(sum.unsigned_abs(), den);
    push_number(out, sum / divisor as i64);
    out.push(b'/');
    push_number(out, den / divisor);
}

fn gcd(mut a: u64, mut b: u64) -> u64 {
    while b != 0 {
        (a, b) = (b, a % b);
    }
    a
}
