//! What a lookup refuses and with which number; right but for one fault.

use super::{Wrong, rounding};
use crate::pegs::model::MOST_PLACE;
use compare::library::{Lookup, PLACE};
use driver::check::{LAST_UNCLAMPED, clamps, refusal};
use driver::flat::{Flat, ROW};

/// The number that a body is refused with, or 0; what a fault doesn't check is made good first.
pub fn of_body(lookup: &Lookup, wrong: Wrong) -> u32 {
    let mut body = lookup.body.clone();
    match (refusal(&body, usize::MAX), wrong) {
        (15, Wrong::BinsUnchecked) => body.rows.iter_mut().skip(ROW - 1).step_by(ROW).for_each(|bin| *bin = 0),
        (21 | 22, Wrong::IndicesUnchecked) => {
            body.rows.iter_mut().skip(4).step_by(ROW).for_each(|count| *count = 0);
            body.indices.clear();
        }
        (23, Wrong::NormalsUnchecked) => body.normals.fill(0.0),
        (23, Wrong::ClampedBeforeFloats) if body.positions.iter().any(|v| v.is_finite() && clamps(*v)) => return 24,
        (number, _) => return if matches!(number, 0 | 24) { clamped(&body, wrong) } else { number },
    }
    refusal(&body, usize::MAX)
}

/// Whether each vertex of a body is used by a triangle.
fn used(body: &Flat) -> Vec<bool> {
    let (mut used, mut first, mut indices) = (vec![false; body.positions.len() / 3], 0, body.indices.iter());
    for row in body.rows.chunks_exact(ROW) {
        indices.by_ref().take(row[4] as usize).for_each(|index| used[first + *index as usize] = true);
        first += row[3] as usize;
    }
    used
}

/// 24 if it is due of a body that passes the checks before, else 0.
fn clamped(body: &Flat, wrong: Wrong) -> u32 {
    let any = |holds: fn(f32) -> bool| body.positions.iter().any(|v| holds(*v));
    let due = match wrong {
        Wrong::ClampedUnchecked => false,
        Wrong::ClampedAboveOnly => any(|v| v > 0.0 && clamps(v)),
        Wrong::ClampedUsedOnly => body.positions.chunks_exact(3).zip(used(body)).any(|(p, used)| used && p.iter().any(|v| clamps(*v))),
        Wrong::ClampedFromTheLast => any(|v| v.abs().to_bits() >= LAST_UNCLAMPED),
        Wrong::ClampedPastTheFirst => any(|v| v.abs().to_bits() > LAST_UNCLAMPED + 1),
        Wrong::ClampedByMicrometres => any(|v| rounding::placed(v, 0, Wrong::Nothing).abs() > i128::from(i64::MAX)),
        Wrong::ClampedNormalsToo => any(clamps) || body.normals.iter().any(|v| clamps(*v)),
        _ => any(clamps),
    };
    if due { 24 } else { 0 }
}

/// Whether a number is outside the range.
fn outside(n: i64, wrong: Wrong) -> bool {
    let most = match wrong {
        Wrong::LargerRange => MOST_PLACE + 1,
        Wrong::SmallerRange => MOST_PLACE - 1,
        _ => MOST_PLACE,
    };
    !(-most..=most).contains(&n)
}

/// Whether there are too few numbers of places, or too many, for so many rows.
fn wrong_length(count: usize, rows: usize, wrong: Wrong) -> bool {
    match wrong {
        Wrong::PlaceForEachRow => count < rows,
        Wrong::PlacesRoundedUp => count.div_ceil(PLACE) < rows,
        Wrong::PlacesExact => count != PLACE * rows,
        _ => count < PLACE * rows,
    }
}

/// Whether a row's place is looked at.
fn looked_at(row: &[u32], wrong: Wrong) -> bool {
    match wrong {
        Wrong::FailedPlaceUnchecked => row[2] == 0,
        Wrong::EmptyPlaceUnchecked => row[2] != 0 || row[3] != 0,
        Wrong::PlacesUnchecked => false,
        _ => true,
    }
}

/// Whether 65 is due.
pub fn out_of_range(lookup: &Lookup, wrong: Wrong) -> bool {
    let (rows, places) = (&lookup.body.rows, &lookup.places);
    let pairs = || rows.chunks_exact(ROW).zip(places.chunks(PLACE));
    let any_place = pairs().any(|(row, place)| looked_at(row, wrong) && place.iter().any(|n| outside(*n, wrong)));
    let peg = wrong != Wrong::PegUnchecked && lookup.peg.iter().any(|n| outside(*n, wrong));
    let behind = places.iter().skip(PLACE * (rows.len() / ROW)).any(|n| outside(*n, wrong));
    let vertex = wrong == Wrong::VertexRangeChecked && any_vertex_outside(lookup);
    peg || any_place || vertex || wrong_length(places.len(), rows.len() / ROW, wrong) || (wrong == Wrong::BehindPlacesChecked && behind)
}

/// Whether a vertex at its place is outside the range.
fn any_vertex_outside(lookup: &Lookup) -> bool {
    let mut vertices = lookup.body.positions.chunks_exact(3);
    let outside = |v: f32, place: i64| rounding::placed(v, place, Wrong::Nothing).abs() > i128::from(MOST_PLACE);
    lookup.body.rows.chunks_exact(ROW).zip(lookup.places.chunks_exact(PLACE)).any(|(row, place)| {
        let own: Vec<&[f32]> = vertices.by_ref().take(row[3] as usize).collect();
        own.iter().any(|vertex| (0..3).any(|axis| outside(vertex[axis], place[axis])))
    })
}
