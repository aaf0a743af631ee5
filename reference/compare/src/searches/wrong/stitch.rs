//! A stitching that searches a tree of blocks, checks its result, writes and clears; right but for one fault.

use super::Wrong;
use crate::searches::by_tree;
use crate::stitching::{Case, refusal};
use compare::library::Stitched;
use driver::check::{self, MOST_INDICES, MOST_VERTICES};
use driver::flat::Flat;

/// The slices that the stitched body is written to.
pub struct Out<'a> {
    pub rows: &'a mut [u32],
    pub positions: &'a mut [f32],
    pub normals: &'a mut [f32],
    pub indices: &'a mut [u32],
}

impl Out<'_> {
    fn has_room(&self, after: &Flat) -> bool {
        self.rows.len() >= after.rows.len()
            && self.positions.len() >= after.positions.len()
            && self.normals.len() >= after.normals.len()
            && self.indices.len() >= after.indices.len()
    }

    fn write(&mut self, after: &Flat) {
        self.rows[..after.rows.len()].copy_from_slice(&after.rows);
        self.positions[..after.positions.len()].copy_from_slice(&after.positions);
        self.normals[..after.normals.len()].copy_from_slice(&after.normals);
        self.indices[..after.indices.len()].copy_from_slice(&after.indices);
    }
}

/// Whether a result passes the limits.
fn passes(case: &Case, wrong: Wrong) -> bool {
    let body = if wrong == Wrong::LimitOfTheBody { &case.before } else { &case.after };
    let more = (wrong == Wrong::LimitRefused) as usize;
    body.positions.len() / 3 + more > MOST_VERTICES || body.indices.len() + more > MOST_INDICES
}

/// The number that a result is refused with, or 0.
fn result_refusal(case: &Case, out: &Out, wrong: Wrong) -> u32 {
    let numbers = [(33, passes(case, wrong)), (32, !out.has_room(&case.after))];
    let mut given = numbers.into_iter().filter(|(_, is_given)| *is_given).map(|(number, _)| number);
    if wrong == Wrong::RoomBeforeLimit { given.next_back() } else { given.next() }.unwrap_or(0)
}

/// What stands in the call's place.
pub fn stitch(body: &Flat, sag: f64, mut out: Out, work: &mut [u64], wrong: Wrong) -> Stitched {
    let number = check::refusal(body, work.len());
    if number != 0 {
        return refusal(number);
    }
    let case = by_tree(body, sag, wrong);
    work[..body.words()].fill(0);
    let number = result_refusal(&case, &out, wrong);
    if number != 0 {
        return refusal(number);
    }
    out.write(&case.after);
    let (vertices, indices) = ((case.after.positions.len() / 3) as u32, case.after.indices.len() as u32);
    Stitched { refusal: 0, vertices, indices, splits: case.splits as u64 }
}
