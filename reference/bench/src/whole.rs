//! The whole: a body turned, stitched and assembled, by the unchanged Rust's three steps in a row, and by the library's three calls.

use crate::assemble::{answer_of, mesh_room};
use crate::stitch::stitched_room;
use bench::race::{Times, race, timed};
use cad_ir::brep::Solid;
use cad_ir::scene::MaterialId;
use cad_tess::face::probe;
use compare::library::{self, Assembled, Mesh, Setting};
use driver::finish::{box_of, face_materials, faces_of};
use driver::flat::Flat;
use driver::sheet::Sheet;
use driver::tail::{self, Faces, tail};
use std::time::Duration;

/// What both sides must agree on: rows turned, contradictions, splits, and what assembling answers.
type Counts = (u32, u64, u64, Assembled);

/// A body made ready for the Rust.
struct Theirs {
    faces: Faces,
    sag: f64,
    solid: Solid,
    materials: Vec<Option<MaterialId>>,
    closed: bool,
}

impl Theirs {
    fn of(sheet: &Sheet) -> Theirs {
        let solid = Solid::new(Vec::new(), box_of(sheet));
        let (faces, sag) = (faces_of(sheet), f64::from_bits(sheet.sag));
        let mut stitched = faces.clone();
        probe::orient_shell(&mut stitched);
        probe::stitch_t_junctions(&mut stitched, sag);
        let closed = tail::assemble(stitched, sheet).closed();
        Theirs { faces, sag, solid, materials: face_materials(sheet), closed }
    }

    fn finished(&self, mut faces: Faces) -> Counts {
        let (turned, against) = probe::orient_shell(&mut faces);
        let splits = probe::stitch_t_junctions(&mut faces, self.sag);
        let done = tail("body", &self.solid, faces, None, &self.materials);
        (turned as u32, against as u64, splits as u64, answer_of(&done, self.closed))
    }
}

/// The library's outputs for one body.
struct Room {
    stitched: Flat,
    mesh: Mesh,
}

/// A body made ready for the library.
struct Ours {
    body: Flat,
    sag: f64,
    setting: Setting,
    /// New vertices of the stitched body.
    more: usize,
}

impl Ours {
    fn of(sheet: &Sheet) -> Ours {
        let (body, sag) = (Flat::of(sheet), f64::from_bits(sheet.sag));
        let entries = face_materials(sheet).iter().map(|m| m.map_or(0, |m| m.0 as u64 + 1)).collect();
        let setting = Setting { reference: box_of(sheet), materials: entries, default: 0 };
        let mut faces = faces_of(sheet);
        probe::orient_shell(&mut faces);
        probe::stitch_t_junctions(&mut faces, sag);
        let vertices: usize = faces.iter().flat_map(|(_, _, patch)| patch).map(|patch| patch.positions.len()).sum();
        let more = vertices - body.positions.len() / 3;
        Ours { body, sag, setting, more }
    }

    /// Outputs of exactly the stitched body's size.
    fn room(&self) -> Room {
        let stitched = stitched_room(&self.body, self.more);
        Room { mesh: mesh_room(&stitched), stitched }
    }

    fn finished(&self, body: &mut Flat, room: &mut Room, work: &mut [u64]) -> Counts {
        let turned = library::turn(body, work);
        let stitched = library::stitch(body, self.sag, &mut room.stitched, work);
        let assembled = library::assemble(&room.stitched, &self.setting, &mut room.mesh, work);
        assert_eq!((turned.refusal, stitched.refusal), (0, 0), "the body is turned and stitched");
        (turned.turned, turned.against, stitched.splits, assembled)
    }

    /// The same with slices that are made and given back.
    fn finished_in_new_slices(&self, body: &mut Flat) -> Counts {
        let mut room = self.room();
        let mut work = vec![0; room.stitched.words()];
        self.finished(body, &mut room, &mut work)
    }
}

/// Both sides finish the same bodies, one after another, from copies made before the clock starts; a caller keeps the library's outputs
/// and one work area, or they are made and given back within its time.
fn both(sheets: &[Sheet], rounds: usize, kept: bool) -> Times {
    let (theirs, ours): (Vec<Theirs>, Vec<Ours>) = sheets.iter().map(|sheet| (Theirs::of(sheet), Ours::of(sheet))).unzip();
    let mut rooms: Vec<Room> = ours.iter().map(Ours::room).collect();
    let mut work = vec![0; rooms.iter().map(|room| room.stitched.words()).max().unwrap_or(0)];
    let (mut wanted, mut answers) = (Vec::new(), Vec::new());
    let rust = || -> Duration {
        let copies: Vec<Faces> = theirs.iter().map(|body| body.faces.clone()).collect();
        let (time, counts) = timed(|| theirs.iter().zip(copies).map(|(body, copy)| body.finished(copy)).collect());
        wanted = counts;
        time
    };
    let own = || -> Duration {
        let mut copies: Vec<Flat> = ours.iter().map(|body| body.body.clone()).collect();
        let (time, counts) = timed(|| {
            let bodies = ours.iter().zip(&mut copies).zip(&mut rooms);
            bodies
                .map(|((body, copy), room)| match kept {
                    true => body.finished(copy, room, &mut work),
                    false => body.finished_in_new_slices(copy),
                })
                .collect()
        });
        answers = counts;
        time
    };
    let times = race(rounds, rust, own);
    assert_eq!(answers, wanted, "both sides agree");
    times
}

/// The library's work area and outputs are the same each time, as a caller keeps them.
pub fn times(sheet: &Sheet, rounds: usize) -> Times {
    both(std::slice::from_ref(sheet), rounds, true)
}

/// The library's work area and outputs are made and given back within the time, as the Rust does with its maps and lists.
pub fn times_with_new_slices(sheet: &Sheet, rounds: usize) -> Times {
    both(std::slice::from_ref(sheet), rounds, false)
}

/// Several bodies one after another, with one work area that is kept, or with new slices for each.
pub fn times_of_all(sheets: &[Sheet], rounds: usize, kept: bool) -> Times {
    both(sheets, rounds, kept)
}
