//! Stitching: the unchanged Rust's `stitch_t_junctions` on its patches, and the library's stitch from its slices into others.

use bench::race::{Times, race, timed};
use cad_tess::face::probe;
use compare::library;
use driver::finish::faces_of;
use driver::flat::Flat;
use driver::sheet::Sheet;
use std::time::Duration;

/// Output slices with room for the body and so many new vertices.
pub fn stitched_room(body: &Flat, more: usize) -> Flat {
    let (rows, indices) = (vec![0; body.rows.len()], vec![0; body.indices.len() + 3 * more]);
    let coordinates = vec![0.0; body.positions.len() + 3 * more];
    Flat { rows, positions: coordinates.clone(), normals: coordinates, indices }
}

/// Both sides stitch one body, the Rust a copy made before the clock starts, and must agree on the splits. The library's slices are
/// made anew within its time if a caller does not keep them.
fn both(sheet: &Sheet, rounds: usize, kept: bool) -> Times {
    let (faces, body, sag) = (faces_of(sheet), Flat::of(sheet), f64::from_bits(sheet.sag));
    let mut copy = faces.clone();
    let splits = probe::stitch_t_junctions(&mut copy, sag);
    let (mut out, mut work) = (stitched_room(&body, splits), vec![0; body.words()]);
    let rust = || -> Duration {
        let mut copy = faces.clone();
        let (time, found) = timed(|| probe::stitch_t_junctions(&mut copy, sag));
        assert_eq!(found, splits, "the Rust finds the same splits each time");
        time
    };
    let ours = || -> Duration {
        let (time, answer) = timed(|| {
            if !kept {
                (out, work) = (stitched_room(&body, splits), vec![0; body.words()]);
            }
            library::stitch(&body, sag, &mut out, &mut work)
        });
        assert_eq!((answer.refusal, answer.splits), (0, splits as u64), "both sides agree");
        time
    };
    race(rounds, rust, ours)
}

/// The library's work area and outputs are the same each time, as a caller keeps them.
pub fn times(sheet: &Sheet, rounds: usize) -> Times {
    both(sheet, rounds, true)
}

/// The library's work area and outputs are made within the time, as the Rust does with its maps.
pub fn times_with_new_slices(sheet: &Sheet, rounds: usize) -> Times {
    both(sheet, rounds, false)
}
