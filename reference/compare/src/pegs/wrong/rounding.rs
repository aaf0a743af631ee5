//! A coordinate in micrometres and a vertex's distance on an axis, by quarters of a micrometre; right but for one fault.

use super::Wrong;
use crate::pegs::model::MOST_PLACE;

/// A number of micrometres that is far from every peg.
const FAR: i128 = 1 << 100;

/// 1000 times the mantissa of a coordinate's amount, and the power of two that goes with it.
fn parts(v: f32) -> (u64, i32) {
    let (exponent, fraction) = ((v.to_bits() >> 23 & 0xff) as i32, u64::from(v.to_bits() & 0x7f_ffff));
    (1000 * if exponent == 0 { fraction } else { fraction | 1 << 23 }, exponent.max(1) - 150)
}

/// Quarters of a micrometre, of which the last two bits tell nothing, less than a half, a half and more.
fn quarters(v: f32) -> i128 {
    let (thousands, power) = parts(v);
    let four = i128::from(4 * thousands);
    let amount = if power > 60 {
        FAR
    } else if power >= 0 {
        four << power
    } else {
        let lost = 1i128 << (-power).min(110);
        (four / lost) | i128::from(four % lost != 0)
    };
    if v.is_sign_negative() { -amount } else { amount }
}

/// Quarters taken to whole ones.
fn whole(quarters: i128, wrong: Wrong) -> i128 {
    let (amount, sign) = (quarters.abs(), quarters.signum());
    match wrong {
        Wrong::HalvesToEven => sign * ((amount + 1 + (amount >> 2 & 1)) >> 2),
        Wrong::HalvesToZero => sign * ((amount + 1) >> 2),
        Wrong::HalvesUp => (quarters + 2) >> 2,
        Wrong::HalvesDown => (quarters + 1) >> 2,
        Wrong::Truncated => sign * (amount >> 2),
        Wrong::Floored => quarters >> 2,
        _ => sign * ((amount + 2) >> 2),
    }
}

/// The micrometres of a coordinate.
fn micrometres(v: f32, wrong: Wrong) -> i128 {
    let (thousands, power) = parts(v);
    let wrapped = if (0..64).contains(&power) { thousands << power } else { 0 };
    let most = i128::from(MOST_PLACE);
    match wrong {
        Wrong::WrapAt32 if power >= 0 => i128::from(wrapped as i32) * if v.is_sign_negative() { -1 } else { 1 },
        Wrong::InSinglePrecision => ((v * 1000.0).round() as i128).clamp(-FAR, FAR),
        Wrong::NoFactor => (v.round() as i128).clamp(-FAR, FAR),
        Wrong::CellsForMicrometres => ((f64::from(v) * 1e6).round() as i128).clamp(-FAR, FAR),
        Wrong::ClampedToRange => whole(quarters(v), wrong).clamp(-most, most),
        _ => whole(quarters(v), wrong),
    }
}

/// Where a coordinate stands at a place.
pub fn placed(v: f32, place: i64, wrong: Wrong) -> i128 {
    let (place, most) = (i128::from(place), i128::from(MOST_PLACE));
    match wrong {
        Wrong::RoundedAfterPlace => whole(quarters(v) + 4 * place, wrong),
        Wrong::PlaceNotAdded => micrometres(v, wrong),
        Wrong::PlaceTakenAway => micrometres(v, wrong) - place,
        Wrong::PlaceOf32Bits => micrometres(v, wrong) + i128::from(place as i32),
        Wrong::SumClampedToRange => (micrometres(v, wrong) + place).clamp(-most, most),
        _ => micrometres(v, wrong) + place,
    }
}
