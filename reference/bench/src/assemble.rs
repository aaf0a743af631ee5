//! Assembling: the end of the unchanged Rust's `tessellate_solid` with its three counts, without its other diagnostics, on its patches,
//! and the library's assemble from its slices into others.

use bench::race::{Times, race, timed};
use cad_ir::brep::Solid;
use compare::library::{self, Assembled, FAILURE, Mesh, PART, RANGE, Setting};
use driver::finish::{box_of, face_materials, faces_of};
use driver::flat::{Flat, ROW};
use driver::sheet::Sheet;
use driver::tail::{self, Tail, tail};
use std::time::Duration;

/// Output slices with room for a body whose rows are all accepted.
pub fn mesh_room(body: &Flat) -> Mesh {
    let rows = body.rows.len() / ROW;
    Mesh {
        positions: vec![0.0; body.positions.len()],
        normals: vec![0.0; body.normals.len()],
        indices: vec![0; body.indices.len()],
        parts: vec![0; PART * rows],
        ranges: vec![0; RANGE * rows],
        failures: vec![0; FAILURE * rows],
    }
}

/// The library's answer, as the Rust's results and whether the body is closed say it should be.
pub fn answer_of(done: &Tail, closed: bool) -> Assembled {
    Assembled {
        refusal: 0,
        vertices: done.mesh.positions.len() as u32,
        indices: done.mesh.indices.len() as u32,
        parts: done.mesh.parts.len() as u32,
        ranges: done.ranges.len() as u32,
        failures: done.report.failed.len() as u32,
        edges: done.edges as u64,
        opens: done.open as u64,
        overs: done.over as u64,
        closed: closed as u32,
    }
}

/// A body with a material of its own for each row, in an order unlike that of the rows.
fn with_materials(sheet: &Sheet) -> Sheet {
    let own = |face: u32| (face, face.wrapping_mul(0x9e37_79b1));
    Sheet { materials: sheet.rows.iter().map(|row| own(row.face)).collect(), ..sheet.clone() }
}

/// Both sides assemble one body and must agree on every count. The Rust uses its patches up, so it gets a copy made before the clock
/// starts. The library's slices are made and given back within its time if a caller does not keep them.
fn both(sheet: &Sheet, rounds: usize, kept: bool) -> Times {
    let (faces, body, reference) = (faces_of(sheet), Flat::of(sheet), box_of(sheet));
    let (solid, materials) = (Solid::new(Vec::new(), reference), face_materials(sheet));
    let entries = materials.iter().map(|m| m.map_or(0, |m| m.0 as u64 + 1)).collect();
    let setting = Setting { reference, materials: entries, default: 0 };
    let (mut mesh, mut work) = (mesh_room(&body), vec![0; body.words()]);
    let closed = tail::assemble(faces.clone(), sheet).closed();
    let (mut wanted, mut answer) = (None, None);
    let rust = || -> Duration {
        let copy = faces.clone();
        let (time, done) = timed(|| tail("body", &solid, copy, None, &materials));
        wanted = Some(answer_of(&done, closed));
        time
    };
    let ours = || -> Duration {
        let (time, made) = timed(|| match kept {
            true => library::assemble(&body, &setting, &mut mesh, &mut work),
            false => library::assemble(&body, &setting, &mut mesh_room(&body), &mut vec![0; body.words()]),
        });
        answer = Some(made);
        time
    };
    let times = race(rounds, rust, ours);
    assert_eq!(answer, wanted, "both sides agree");
    times
}

/// All rows have one material. The library's work area and outputs are the same each time, as a caller keeps them.
pub fn times(sheet: &Sheet, rounds: usize) -> Times {
    both(sheet, rounds, true)
}

/// The library's work area and outputs are made and given back within the time, as the Rust does with its maps.
pub fn times_with_new_slices(sheet: &Sheet, rounds: usize) -> Times {
    both(sheet, rounds, false)
}

/// Each row has a material of its own.
pub fn times_with_materials(sheet: &Sheet, rounds: usize) -> Times {
    both(&with_materials(sheet), rounds, true)
}

/// Each row has a material of its own, and the library's work area and outputs are made and given back within the time.
pub fn times_with_materials_and_new_slices(sheet: &Sheet, rounds: usize) -> Times {
    both(&with_materials(sheet), rounds, false)
}
