//! The calls that read one face of a body, before or after stitching, against the Rust's stitched body.

use compare::library::{face_at, face_indices};
use driver::flat::{Flat, ROW};
use driver::random::Random;

const FACE: usize = 1;
const INDICES: usize = 4;

/// Rows that are looked at, at most: each look adds up the rows before it.
const MOST_LOOKS: usize = 40;

/// What stands behind the indices in the slice that they are copied to.
const BEHIND: u32 = 0xBE41_0000;

/// A body's indices of row k, none past the end.
fn indices_of(body: &Flat, k: usize) -> &[u32] {
    let counts: Vec<usize> = body.rows.chunks_exact(ROW).map(|row| row[INDICES] as usize).collect();
    let Some(count) = counts.get(k) else { return &[] };
    let start = counts[..k].iter().sum();
    &body.indices[start..start + count]
}

/// What is wrong with row k: its face number, how many indices it has, or what was copied of them into so much room.
fn wrong_row(before: &Flat, stitched: &Flat, after: &Flat, k: usize, room: usize) -> Option<String> {
    let face = before.rows.get(ROW * k + FACE).copied().unwrap_or(0);
    if face_at(before, k) != face {
        return Some(format!("face {face} of row {k}, not {}", face_at(before, k)));
    }
    let want = indices_of(after, k);
    let kept = (want.len()..room).map(|place| BEHIND + place as u32);
    let left: Vec<u32> = want.iter().take(room).copied().chain(kept).collect();
    let mut out: Vec<u32> = (0..room).map(|place| BEHIND + place as u32).collect();
    let count = face_indices(before, stitched, k, &mut out);
    (count != want.len() as u64 || out != left).then(|| format!("{} indices of row {k} in room for {room}, not {count}", want.len()))
}

/// What is wrong with the faces of a stitched body, which stands in slices that may be longer.
pub fn wrong(before: &Flat, stitched: &Flat, after: &Flat, r: &mut Random) -> Option<String> {
    let rows = before.rows.len() / ROW;
    let looks = (rows + 2).min(MOST_LOOKS);
    (0..looks).find_map(|look| {
        let k = if looks < MOST_LOOKS { look } else { r.size(0, rows + 1) };
        let room = indices_of(after, k).len() + 2 - r.size(0, 3).min(indices_of(after, k).len() + 2);
        wrong_row(before, stitched, after, k, room).map(|what| format!("faces: {what}"))
    })
}
