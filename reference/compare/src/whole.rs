//! A body finished by the library's three calls, each on what the one before left, with one work area; beside the whole Rust. Then it is
//! added to a page with the same area, beside the model.

use crate::assembling::{answer_of, laid_over, mesh_of, mesh_room, mesh_unlike};
use crate::lent;
use crate::reports;
use crate::stitching::{Held, outputs};
use crate::work::Work;
use compare::library::{Assembled, Setting, Stitched, Turned};
use driver::finish::{Finished, box_of, face_materials, finish};
use driver::flat::{Flat, ROW};
use driver::random::Random;
use driver::sheet::Sheet;

/// The box, materials and default of a sheet.
fn setting(sheet: &Sheet) -> Setting {
    let entry = |material: u32| material as u64 + 1;
    let materials = face_materials(sheet).iter().map(|m| m.map_or(0, |m| entry(m.0))).collect();
    Setting { reference: box_of(sheet), materials, default: sheet.default.map_or(0, entry) }
}

fn same<T: PartialEq + std::fmt::Debug>(want: T, got: T) -> Result<(), String> {
    if want == got { Ok(()) } else { Err(format!("{want:?}, not {got:?}")) }
}

/// A body stitched into slices that are longer than it needs, cut to what was written.
fn stitched(body: &Flat, sag: f64, done: &Finished, work: &mut Work, r: &mut Random) -> Result<Flat, String> {
    let room = |each: usize, count: usize| vec![0.0; each * count];
    let (vertices, indices) = (done.stitched_vertices, done.stitched_indices);
    let size = Flat { rows: body.rows.clone(), positions: room(3, vertices), normals: room(3, vertices), indices: vec![0; indices] };
    let mut out = outputs(&size, r);
    let got = lent::stitch(body, sag, &mut out, work)?;
    same(Stitched { refusal: 0, vertices: vertices as u32, indices: indices as u32, splits: done.splits as u64 }, got)?;
    out.rows.truncate(body.rows.len());
    out.positions.truncate(3 * vertices);
    out.normals.truncate(3 * vertices);
    out.indices.truncate(indices);
    Ok(out)
}

/// Turned, stitched and assembled, with what the Rust finished.
fn finished(sheet: &Sheet, done: &Finished, r: &mut Random) -> Result<(), String> {
    let mut body = Flat::of(sheet);
    let larger = 16 * done.stitched_indices + 16 * (body.rows.len() / ROW) + 4 * done.stitched_vertices;
    let needed = larger.max(body.words());
    let mut work = Work::new(needed + r.size(0, 5), r.next());
    let turned = lent::turn(&mut body, &mut work)?;
    same(Turned { refusal: 0, turned: done.turned as u32, against: done.against as u64 }, turned)?;
    let body = stitched(&body, f64::from_bits(sheet.sag), done, &mut work, r)?;
    let room = mesh_room(done, body.rows.len() / ROW, r);
    let mut mesh = room.clone();
    let assembled: Assembled = lent::assemble(&body, &setting(sheet), &mut mesh, &mut work)?;
    same(answer_of(done), assembled)?;
    mesh_unlike(&laid_over(&mesh_of(done), &room), &mesh).or_else(|| work.wrong(needed)).map_or(Ok(()), Err)?;
    reports::of_finished(body, box_of(sheet), &mut work, r)?;
    work.wrong(needed).map_or(Ok(()), Err)
}

/// Where a body is finished in another way than by the whole Rust. A body that isn't stitched with its own sag, for being outside 01's
/// condition or too open, is finished with one that splits nothing; so is one that passes the limits when stitched.
pub fn compared(sheet: &Sheet, held: &Held, seed: u64) -> Result<(), String> {
    let r = &mut Random::new(seed ^ 0x3401_e000);
    let own = matches!(held, Held::NoSag | Held::Stitched(_));
    let sheet = if own { sheet.clone() } else { Sheet { sag: 0, ..sheet.clone() } };
    let Ok(done) = finish(&sheet) else { return Ok(()) };
    finished(&sheet, &done, r).map_err(|what| format!("the three calls in a row: {what}"))
}
