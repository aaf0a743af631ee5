//! A plain model of the lookup, written from the words of document 02: which bins are nearest a peg.

use compare::library::{Lookup, PLACE};
use driver::check::refusal;
use driver::flat::ROW;

/// "One more than 5,000 away on any axis is ignored."
pub const REACH: i64 = 5_000;

/// "Outside N2's range", which is plus or minus 2^40.
pub const MOST_PLACE: i64 = 1 << 40;

/// Where a denominator ends: 1000 times a mantissa is below 2^34, so with this or any larger power of two under it, it is nearest 0.
const MOST_POWER: i32 = 100;

/// The whole number nearest to a fraction that is not below 0, halves to the larger one.
fn nearest(numerator: i128, denominator: i128) -> i128 {
    (2 * numerator + denominator) / (2 * denominator)
}

/// A finite coordinate in millimetres taken to the nearest whole micrometre, halves away from zero; nothing if it is beyond 128 bits.
pub fn micrometres(v: f32) -> Option<i128> {
    let (exponent, fraction) = ((v.to_bits() >> 23 & 0xff) as i32, i128::from(v.to_bits() & 0x7f_ffff));
    let (mantissa, power) = if exponent == 0 { (fraction, -149) } else { (fraction + (1 << 23), exponent - 150) };
    let away = match power {
        0.. => (1000 * mantissa).checked_mul(1 << power)?,
        _ => nearest(1000 * mantissa, 1 << (-power).min(MOST_POWER)),
    };
    Some(if v.is_sign_negative() { -away } else { away })
}

/// How far a vertex stands from the peg on an axis, if that is near.
fn apart(v: f32, place: i64, peg: i64) -> Option<i128> {
    let apart = micrometres(v)?.checked_add(i128::from(place))? - i128::from(peg);
    (apart.abs() <= i128::from(REACH)).then_some(apart)
}

/// The sum of squares of a vertex that isn't ignored.
fn square(vertex: &[f32], place: &[i64], peg: [i64; 3]) -> Option<i128> {
    let axes: Option<Vec<i128>> = (0..3).map(|axis| apart(vertex[axis], place[axis], peg[axis])).collect();
    Some(axes?.iter().map(|d| d * d).sum())
}

/// The sums of squares of all vertices that aren't ignored, each with its row's bin.
fn near(lookup: &Lookup) -> Vec<(i128, u32)> {
    let mut vertices = lookup.body.positions.chunks_exact(3);
    let mut near = Vec::new();
    for (row, place) in lookup.body.rows.chunks_exact(ROW).zip(lookup.places.chunks_exact(PLACE)) {
        for vertex in vertices.by_ref().take(row[3] as usize) {
            near.extend(square(vertex, place, lookup.peg).map(|square| (square, row[5])));
        }
    }
    near
}

/// All bins that share the smallest sum, ascending, each once.
fn tied(lookup: &Lookup) -> Vec<u32> {
    let near = near(lookup);
    let least = near.iter().map(|(square, _)| *square).min();
    let mut bins: Vec<u32> = near.iter().filter(|(square, _)| Some(*square) == least).map(|(_, bin)| *bin).collect();
    bins.sort();
    bins.dedup();
    bins
}

/// Whether the peg and each row's place are there and within the range.
fn in_range(lookup: &Lookup) -> bool {
    let asked = PLACE * (lookup.body.rows.len() / ROW);
    let within = |n: &i64| (-MOST_PLACE..=MOST_PLACE).contains(n);
    lookup.peg.iter().all(within) && lookup.places.get(..asked).is_some_and(|places| places.iter().all(within))
}

/// What a lookup into a list of so many numbers gives.
pub fn find(lookup: &Lookup, list_len: usize) -> Result<Vec<u32>, u32> {
    match refusal(&lookup.body, usize::MAX) {
        0 if !in_range(lookup) => Err(65),
        0 => Some(tied(lookup)).filter(|bins| bins.len() <= list_len).ok_or(66),
        number => Err(number),
    }
}
