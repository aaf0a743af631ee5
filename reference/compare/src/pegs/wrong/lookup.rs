//! A lookup that goes vertex by vertex and keeps the nearest so far; right but for one fault.

use super::{Wrong, checks, rounding};
use crate::pegs::model::{MOST_PLACE, REACH};
use compare::library::{Lookup, NearestBins, PLACE};
use driver::flat::ROW;
use std::collections::BTreeSet;

/// The nearest so far: its distance, and the vertices at it, as their rows and bins.
struct Nearest {
    least: Option<i128>,
    tied: Vec<(usize, u32)>,
}

impl Nearest {
    fn take(&mut self, distance: i128, vertex: (usize, u32), wrong: Wrong) {
        let nearer = |least: i128| if wrong == Wrong::Farthest { distance > least } else { distance < least };
        if self.least.is_none_or(nearer) {
            self.least = Some(distance);
            if !matches!(wrong, Wrong::FartherKept | Wrong::AllNear) {
                self.tied.clear();
            }
        }
        if self.least == Some(distance) || wrong == Wrong::AllNear {
            self.tied.push(vertex);
        }
    }
}

/// The distances on the three axes, if a vertex is near.
fn apart(vertex: &[f32], place: [i64; 3], peg: [i64; 3], wrong: Wrong) -> Option<[i128; 3]> {
    let stands: [i128; 3] = std::array::from_fn(|axis| rounding::placed(vertex[axis], place[axis], wrong));
    let apart: [i128; 3] = std::array::from_fn(|axis| stands[axis] - i128::from(peg[axis]));
    let most = match wrong {
        Wrong::MoreIsNear => REACH + 1,
        Wrong::LessIsNear => REACH - 1,
        _ => REACH,
    };
    let most = i128::from(most);
    let close = |d: &i128| d.abs() <= most;
    let near = match wrong {
        Wrong::BallIsNear => apart.iter().all(close) && apart.iter().map(|d| d * d).sum::<i128>() <= most * most,
        Wrong::OneAxisIsNear => apart.iter().any(close) && apart.iter().all(|d| d.abs() < 1 << 60),
        Wrong::ThirdAxisFree => apart[..2].iter().all(close) && apart[2].abs() < 1 << 60,
        Wrong::OneSided => apart.iter().all(|d| *d <= most && *d > -(1 << 60)),
        Wrong::FarToo => apart.iter().all(|d| d.abs() < 1 << 60),
        Wrong::OutsideRangeIgnored => apart.iter().all(close) && stands.iter().all(|n| n.abs() <= i128::from(MOST_PLACE)),
        _ => apart.iter().all(close),
    };
    near.then_some(apart)
}

/// What is smallest at the nearest vertex.
fn distance(apart: [i128; 3], wrong: Wrong) -> i128 {
    let squares = apart.map(|d| d.clamp(-(1 << 62), 1 << 62).pow(2));
    match wrong {
        Wrong::LargestAxis => squares.into_iter().max().unwrap_or(0),
        Wrong::SumOfAxes => apart.iter().map(|d| d.abs()).sum(),
        Wrong::TwoAxes => squares[0] + squares[1],
        Wrong::WholeRoot => squares.iter().sum::<i128>().isqrt(),
        _ => squares.iter().sum(),
    }
}

/// Whether vertex k counts of a row with these indices.
fn counts(k: usize, row: &[u32], indices: &[u32], wrong: Wrong) -> bool {
    match wrong {
        Wrong::UsedOnly => indices.contains(&(k as u32)),
        Wrong::WithTrianglesOnly => !indices.is_empty(),
        Wrong::FirstVertexOnly => k == 0,
        Wrong::LastVertexLeftOut => k + 1 < row[3] as usize,
        _ => true,
    }
}

/// A row's place, missing numbers being 0.
fn place(lookup: &Lookup, k: usize, wrong: Wrong) -> [i64; 3] {
    let rows = lookup.body.rows.chunks_exact(ROW);
    let place = match wrong {
        Wrong::PlaceOfFirstRow => 0,
        Wrong::PlacesOfPatchesOnly => rows.take(k).filter(|row| row[2] == 0).count(),
        _ => k,
    };
    let number = |axis: usize| lookup.places.get(PLACE * place + axis).copied().unwrap_or(0);
    let [x, y, z] = [number(0), number(1), number(2)];
    if wrong == Wrong::PlaceAxesExchanged { [x, z, y] } else { [x, y, z] }
}

fn bin(rows: &[u32], k: usize, wrong: Wrong) -> u32 {
    let row = &rows[ROW * k..];
    match wrong {
        Wrong::BinOfFirstRow => rows[ROW - 1],
        Wrong::FaceForBin => row[1],
        Wrong::RowForBin => k as u32,
        Wrong::BinOf8Bits => row[5] & 0xff,
        _ => row[5],
    }
}

/// The bins at the smallest distance, once for each row, or by a fault for each vertex.
fn nearest(lookup: &Lookup, wrong: Wrong) -> Vec<u32> {
    let (body, mut nearest) = (&lookup.body, Nearest { least: None, tied: Vec::new() });
    let (mut vertices, mut indices) = (body.positions.chunks_exact(3), body.indices.iter());
    for (k, row) in body.rows.chunks_exact(ROW).enumerate() {
        let own: Vec<u32> = indices.by_ref().take(row[4] as usize).copied().collect();
        let (place, bin) = (place(lookup, k, wrong), bin(&body.rows, k, wrong));
        for (n, vertex) in vertices.by_ref().take(row[3] as usize).enumerate() {
            if let Some(apart) = apart(vertex, place, lookup.peg, wrong).filter(|_| counts(n, row, &own, wrong)) {
                nearest.take(distance(apart, wrong), (k, bin), wrong);
            }
        }
    }
    if wrong != Wrong::RoomForTiedVertices {
        nearest.tied.dedup();
    }
    nearest.tied.iter().map(|(_, bin)| *bin).collect()
}

/// The answer made of the bins that were found.
fn answer(found: &[u32], wrong: Wrong) -> Vec<u32> {
    let mut bins = found.to_vec();
    match wrong {
        Wrong::InRowOrder => {
            let mut seen = BTreeSet::new();
            bins.retain(|bin| seen.insert(*bin));
            return bins;
        }
        Wrong::FirstFoundOnly => bins.truncate(1),
        Wrong::LastFoundOnly => bins = bins.pop().into_iter().collect(),
        Wrong::BinZeroLost => bins.retain(|bin| *bin != 0),
        Wrong::LastBinLost => bins.retain(|bin| *bin != 65_535),
        _ => {}
    }
    bins.sort();
    if wrong != Wrong::Twice {
        bins.dedup();
    }
    match wrong {
        Wrong::LowestOnly => bins.truncate(1),
        Wrong::HighestOnly => bins = bins.pop().into_iter().collect(),
        Wrong::Descending => bins.reverse(),
        _ => {}
    }
    bins
}

/// How long the list must be for an answer, of so many bins found in a body of so many rows.
fn room_needed(bins: usize, found: usize, rows: usize, wrong: Wrong) -> usize {
    match wrong {
        Wrong::RoomForTiedRows | Wrong::RoomForTiedVertices => found,
        Wrong::RoomForAllRows => rows,
        Wrong::RoomForOneMore if bins > 0 => bins + 1,
        Wrong::EmptyListRefused => bins.max(1),
        Wrong::CutToRoom => 0,
        _ => bins,
    }
}

/// The first of three numbers that isn't 0: the body's, 65's and 66's, in an order that goes with the fault.
fn first(body: u32, range: u32, room: u32, wrong: Wrong) -> u32 {
    let order = match wrong {
        Wrong::RoomBeforeRange => [body, room, range],
        Wrong::RangeBeforeBody => [range, body, room],
        Wrong::RangeBeforeFloats if body == 23 => [range, body, room],
        Wrong::RoomBeforeFloats if body == 23 && range == 0 => [room, body, range],
        Wrong::RangeBeforeClamped if body == 24 => [range, body, room],
        Wrong::RoomBeforeClamped if body == 24 && range == 0 => [room, body, range],
        _ => [body, range, room],
    };
    order.into_iter().find(|number| *number != 0).unwrap_or(0)
}

/// Looks for the bins nearest a peg.
pub fn find(lookup: &Lookup, list: &mut [u32], wrong: Wrong) -> NearestBins {
    let number = checks::of_body(lookup, wrong);
    let range = if checks::out_of_range(lookup, wrong) { 65 } else { 0 };
    let found = if matches!(number, 0 | 23 | 24) { nearest(lookup, wrong) } else { Vec::new() };
    let bins = answer(&found, wrong);
    let needed = room_needed(bins.len(), found.len(), lookup.body.rows.len() / ROW, wrong);
    let refusal = first(number, range, if needed > list.len() { 66 } else { 0 }, wrong);
    let count = bins.len().min(list.len());
    if refusal == 0 || (refusal == 66 && wrong == Wrong::WrittenBeforeRoom) {
        list[..count].copy_from_slice(&bins[..count]);
    }
    match wrong {
        Wrong::TailCleared if refusal == 0 => list[count..].fill(0),
        Wrong::EndMarked if refusal == 0 && count < list.len() => list[count] = u32::MAX,
        _ => {}
    }
    let said = match (refusal, wrong) {
        (0, Wrong::CountOfRows) => found.len(),
        (0, _) => count,
        (_, Wrong::CountOfRefused) => bins.len(),
        _ => 0,
    };
    NearestBins { refusal, bins: said as u32 }
}
