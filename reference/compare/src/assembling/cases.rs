//! Bodies with what the Rust makes of them, as the library should answer and write it.
//!
//! The mesh and its parts are what the Rust returns; the counts are those it prints, the ranges those by which it slices its indices.
//! The reach and the span of an escape it reports in words, with one decimal: their bits come from its own `farthest` and `diagonal`,
//! held to those words. Closed is that of the model in `driver::closed`, which where no −0.0 is has to be what the counts say.
//! The Rust knows nothing of bins: a range and a failure have that of their row.

use super::settings::setting;
use super::slices::{Lengths, filled, lengths};
use crate::source_bodies::flat_of;
use cad_tess::face::probe;
use compare::library::{Assembled, FAILURE, Mesh, PART, RANGE, Setting};
use driver::closed::has_negative_zero;
use driver::finish::{Failure, Finished, faces_of, finish};
use driver::flat::{Flat, ROW};
use driver::random::Random;
use driver::sheet::Sheet;
use driver::tail;

/// Indices of a mesh without a −0.0, in which no two points of other bits are one, that is held to the model as well, at most.
const MOST_MODELLED: usize = 60_000;

/// A body, how it came to be, what it is assembled with, and what the Rust makes of it.
pub struct Case {
    pub name: &'static str,
    pub body: Flat,
    pub setting: Setting,
    pub answer: Assembled,
    pub mesh: Mesh,
}

fn failure_numbers((face, bin, failure): &(u32, u32, Failure)) -> [u64; FAILURE] {
    let (case, reach, span) = match failure {
        Failure::Empty => (0, 0, 0),
        Failure::Upstream(number) => (*number as u64, 0, 0),
        Failure::Escape(reach, span) => (256, reach.to_bits(), span.to_bits()),
    };
    [*face as u64, *bin as u64, case, reach, span]
}

fn range_numbers((face, bin, first, past): &(u32, u32, usize, usize)) -> [u32; RANGE] {
    [*face, *bin, *first as u32, *past as u32]
}

pub fn mesh_of(done: &Finished) -> Mesh {
    Mesh {
        positions: done.positions.as_flattened().to_vec(),
        normals: done.normals.as_flattened().to_vec(),
        indices: done.indices.clone(),
        parts: done.parts.iter().flat_map(|(material, start, count)| [*material, *start, *count]).collect(),
        ranges: done.ranges.iter().flat_map(range_numbers).collect(),
        failures: done.failures.iter().flat_map(failure_numbers).collect(),
    }
}

/// The model's closed, held to the Rust's counts of a mesh without a −0.0; those of a large one stand for it.
fn closed(done: &Finished) -> bool {
    let (counted, zeros) = (done.open == 0 && done.over == 0, has_negative_zero(&done.positions));
    if !zeros && done.indices.len() > MOST_MODELLED {
        return counted;
    }
    let closed = done.closed();
    assert!(zeros || closed == counted, "without a −0.0 the model's closed is what the Rust's counts say");
    closed
}

pub fn answer_of(done: &Finished) -> Assembled {
    assert_eq!(done.ok, done.ranges.len(), "a range for each accepted row");
    Assembled {
        refusal: 0,
        vertices: done.positions.len() as u32,
        indices: done.indices.len() as u32,
        parts: done.parts.len() as u32,
        ranges: done.ranges.len() as u32,
        failures: done.failures.len() as u32,
        edges: done.edges as u64,
        opens: done.open as u64,
        overs: done.over as u64,
        closed: closed(done) as u32,
    }
}

fn case(name: &'static str, sheet: &Sheet, body: Flat, done: &Finished, r: &mut Random) -> Case {
    Case { name, body, setting: setting(sheet, r), answer: answer_of(done), mesh: mesh_of(done) }
}

/// A sheet's body turned, stitched and assembled by the whole Rust; none if it passes the limits when stitched.
pub fn finished(name: &'static str, sheet: &Sheet, r: &mut Random) -> Option<Case> {
    let done = finish(sheet).ok()?;
    let mut faces = faces_of(sheet);
    probe::orient_shell(&mut faces);
    probe::stitch_t_junctions(&mut faces, f64::from_bits(sheet.sag));
    Some(case(name, sheet, flat_of(&faces, sheet), &done, r))
}

/// A sheet's body as it is given, neither turned nor stitched.
pub fn as_given(name: &'static str, sheet: &Sheet, r: &mut Random) -> Case {
    case(name, sheet, Flat::of(sheet), &tail::assemble(faces_of(sheet), sheet), r)
}

/// The lengths that no output may fall short of, for a mesh of a body of so many rows.
fn room(mesh: &Mesh, rows: usize) -> Lengths {
    let [positions, normals, indices, ..] = lengths(mesh);
    [positions, normals, indices, PART * rows, RANGE * rows, FAILURE * rows]
}

/// The lengths that no output may fall short of.
pub fn needed(case: &Case) -> Lengths {
    room(&case.mesh, case.body.rows.len() / ROW)
}

/// Outputs for a body of so many rows as the Rust finished it, as long as they must be or each some longer.
pub fn mesh_room(done: &Finished, rows: usize, r: &mut Random) -> Mesh {
    let long = room(&mesh_of(done), rows).map(|length| length + r.size(0, 4));
    filled(long, r)
}

/// Outputs as long as they must be, or each some longer.
pub fn outputs(case: &Case, r: &mut Random) -> Mesh {
    let more = if r.chance(30) { 0 } else { 7 };
    let long = needed(case).map(|length| length + r.size(0, more));
    filled(long, r)
}
