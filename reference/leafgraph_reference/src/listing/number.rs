//! "numbers are decimal without leading zeros, a minus only before a nonzero number".

use std::ops::RangeInclusive;

/// The numbers that fit where one is to stand.
pub type Fitting = RangeInclusive<i64>;

/// No number of a listing has more digits.
const MOST_DIGITS: usize = 10;

/// The number with this text, if it is one and fits.
pub fn number_in(text: &[u8], fitting: &Fitting) -> Option<i64> {
    let number: i64 = std::str::from_utf8(text).ok()?.parse().ok()?;
    let is_its_text = number.to_string().as_bytes() == text;
    (is_its_text && fitting.contains(&number)).then_some(number)
}

/// Whether there is a number that fits and whose text begins so. A number with so many
/// more digits lies between the one that has only zeros there and the one that has only
/// nines.
pub fn begins_number(text: &[u8], fitting: &Fitting) -> bool {
    let (digits, sizes) = match text {
        [b'-', digits @ ..] => (digits, sizes_below_zero(fitting)),
        digits => (digits, (*fitting.start()).max(0)..=*fitting.end()),
    };
    if digits.len() > MOST_DIGITS || !digits.iter().all(u8::is_ascii_digit) {
        return false;
    }
    if digits.is_empty() {
        return !(if text.is_empty() { fitting } else { &sizes }).is_empty();
    }
    if digits[0] == b'0' {
        return digits.len() == 1 && sizes.contains(&0);
    }
    let value = digits.iter().fold(0, |value, digit| 10 * value + i128::from(digit - b'0'));
    let (least, most) = (i128::from(*sizes.start()), i128::from(*sizes.end()));
    let mut tens = (0..=MOST_DIGITS as u32).map(|more| 10_i128.pow(more));
    tens.any(|ten| value * ten <= most && value * ten + ten > least)
}

/// How far the fitting numbers below zero are from it.
fn sizes_below_zero(fitting: &Fitting) -> Fitting {
    (-fitting.end()).max(1)..=-fitting.start()
}
