//! Micrometres by the decimal digits of a coordinate, which the model's arithmetic is held to.

/// The digits behind the point that no f32 needs more of.
const DIGITS: usize = 149;

/// The digits of all of v, the point moved three places and the number rounded by the digit that is then behind it; nothing beyond 128 bits.
pub fn micrometres(v: f32) -> Option<i128> {
    let digits = format!("{:.DIGITS$}", v.abs());
    let point = digits.find('.').expect("a point before the digits asked for");
    let (whole, behind) = (&digits[..point], &digits[point + 1..]);
    let down: i128 = format!("{whole}{}", &behind[..3]).parse().ok()?;
    let away = down + i128::from(behind.as_bytes()[3] >= b'5');
    Some(if v < 0.0 { -away } else { away })
}
