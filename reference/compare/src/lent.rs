//! The library's calls with every slice lent between fences. An error says what a call changed that it may not touch.

use crate::fences::{Fenced, Spoil};
use crate::pegs;
use crate::plans::wrong;
use crate::planted;
use crate::reports;
use crate::searches;
use crate::searches::wrong::stitch::Out;
use crate::work::Work;
use crate::zeros;
use cad_ir::math::Aabb;
use compare::library::{
    Assembled, Judged, Lone, Lookup, Measured, Mesh, NearestBins, PlanRead, PlanWritten, Report, Reported, Setting, Stitched, Turned, raw,
};
use driver::flat::Flat;

/// A body turned where it stands.
pub fn turn(body: &mut Flat, work: &mut Work) -> Result<Turned, String> {
    let (mut rows, mut p) = (Fenced::new("rows", &body.rows), Fenced::new("positions", &body.positions));
    let (mut n, mut i) = (Fenced::new("normals", &body.normals), Fenced::new("indices", &body.indices));
    let (w, w_len) = (work.lent().as_mut_ptr(), work.lent().len());
    // Sound: each pointer has as many elements behind it as the length says, in a block of its own.
    #[rustfmt::skip]
    let mut answer = unsafe {
        raw::cad_turn(rows.start(), rows.len(), p.start(), p.len(), n.start(), n.len(), i.start(), i.len(), w, w_len)
    };
    planted::spoil("turn", &mut answer, &mut [&mut rows, &mut p, &mut n, &mut i], Some(work));
    rows.kept()?;
    p.kept()?;
    (body.normals, body.indices) = (n.left()?, i.left()?);
    Ok(answer)
}

/// A body stitched into another's slices.
pub fn stitch(body: &Flat, sag: f64, out: &mut Flat, work: &mut Work) -> Result<Stitched, String> {
    let (mut rows, mut p) = (Fenced::new("rows", &body.rows), Fenced::new("positions", &body.positions));
    let (mut n, mut i) = (Fenced::new("normals", &body.normals), Fenced::new("indices", &body.indices));
    let (mut or, mut op) = (Fenced::new("output rows", &out.rows), Fenced::new("output positions", &out.positions));
    let (mut on, mut oi) = (Fenced::new("output normals", &out.normals), Fenced::new("output indices", &out.indices));
    let (w, w_len) = (work.lent().as_mut_ptr(), work.lent().len());
    // Sound: each pointer has as many elements behind it as the length says, in a block of its own.
    #[rustfmt::skip]
    let mut answer = match searches::wrong::planted() {
        Some(wrong) => {
            let out = Out { rows: or.lent(), positions: op.lent(), normals: on.lent(), indices: oi.lent() };
            searches::wrong::stitch::stitch(body, sag, out, work.lent(), wrong)
        }
        None => unsafe {
            raw::cad_stitch(rows.start(), rows.len(), p.start(), p.len(), n.start(), n.len(), i.start(), i.len(), sag,
                or.start(), or.len(), op.start(), op.len(), on.start(), on.len(), oi.start(), oi.len(), w, w_len)
        },
    };
    let slices: &mut [&mut dyn Spoil] = &mut [&mut rows, &mut p, &mut n, &mut i, &mut or, &mut op, &mut on, &mut oi];
    planted::spoil("stitch", &mut answer, slices, Some(work));
    rows.kept()?;
    p.kept()?;
    n.kept()?;
    i.kept()?;
    *out = Flat { rows: or.left()?, positions: op.left()?, normals: on.left()?, indices: oi.left()? };
    Ok(answer)
}

/// A body laid into a mesh.
pub fn assemble(body: &Flat, setting: &Setting, mesh: &mut Mesh, work: &mut Work) -> Result<Assembled, String> {
    let (mut rows, mut p) = (Fenced::new("rows", &body.rows), Fenced::new("positions", &body.positions));
    let (mut n, mut i) = (Fenced::new("normals", &body.normals), Fenced::new("indices", &body.indices));
    let (a, c, mut m) = (setting.reference.min, setting.reference.max, Fenced::new("materials", &setting.materials));
    let (mut mp, mut mn) = (Fenced::new("mesh positions", &mesh.positions), Fenced::new("mesh normals", &mesh.normals));
    let (mut mi, mut parts) = (Fenced::new("mesh indices", &mesh.indices), Fenced::new("parts", &mesh.parts));
    let (mut ranges, mut failures) = (Fenced::new("ranges", &mesh.ranges), Fenced::new("failures", &mesh.failures));
    let (w, w_len) = (work.lent().as_mut_ptr(), work.lent().len());
    // Sound: each pointer has as many elements behind it as the length says, in a block of its own.
    #[rustfmt::skip]
    let mut answer = unsafe {
        raw::cad_assemble(rows.start(), rows.len(), p.start(), p.len(), n.start(), n.len(), i.start(), i.len(), a.x, a.y, a.z, c.x, c.y, c.z,
            m.start(), m.len(), setting.default, mp.start(), mp.len(), mn.start(), mn.len(), mi.start(), mi.len(),
            parts.start(), parts.len(), ranges.start(), ranges.len(), failures.start(), failures.len(), w, w_len)
    };
    if let Some(wrong) = zeros::wrong::planted().filter(|_| answer.refusal == 0) {
        let (vertices, indices) = (3 * answer.vertices as usize, answer.indices as usize);
        let (positions, normals) = (&mp.lent()[..vertices], &mn.lent()[..vertices]);
        let made = zeros::wrong::Triangles { positions, normals, indices: mi.lent()[..indices].to_vec() };
        zeros::wrong::change(&mut answer, body, &made, wrong);
    }
    let slices: &mut [&mut dyn Spoil] =
        &mut [&mut rows, &mut p, &mut n, &mut i, &mut m, &mut mp, &mut mn, &mut mi, &mut parts, &mut ranges, &mut failures];
    planted::spoil("assemble", &mut answer, slices, Some(work));
    rows.kept()?;
    p.kept()?;
    n.kept()?;
    i.kept()?;
    m.kept()?;
    *mesh = Mesh {
        positions: mp.left()?,
        normals: mn.left()?,
        indices: mi.left()?,
        parts: parts.left()?,
        ranges: ranges.left()?,
        failures: failures.left()?,
    };
    Ok(answer)
}

/// A patch's three slices lent to a call that only reads them.
fn alone<A: planted::Answer>(
    name: &str,
    patch: &Lone,
    call: impl Fn(*const f32, usize, *const f32, usize, *const u32, usize) -> A,
) -> Result<A, String> {
    let (mut p, mut n) = (Fenced::new("positions", &patch.positions), Fenced::new("normals", &patch.normals));
    let mut i = Fenced::new("indices", &patch.indices);
    let mut answer = call(p.start(), p.len(), n.start(), n.len(), i.start(), i.len());
    planted::spoil(name, &mut answer, &mut [&mut p, &mut n, &mut i], None);
    p.kept()?;
    n.kept()?;
    i.kept()?;
    Ok(answer)
}

// Sound, in the three calls below: each pointer has as many elements behind it as the length says.

pub fn volume(patch: &Lone, flip: bool) -> Result<Measured, String> {
    alone("volume", patch, |p, pn, n, nn, i, ni| unsafe { raw::cad_patch_volume(p, pn, n, nn, i, ni, flip) })
}

pub fn farthest(patch: &Lone, b: &Aabb) -> Result<Measured, String> {
    let (a, c) = (b.min, b.max);
    alone("farthest", patch, |p, pn, n, nn, i, ni| unsafe { raw::cad_farthest(p, pn, n, nn, i, ni, a.x, a.y, a.z, c.x, c.y, c.z) })
}

pub fn escapes(patch: &Lone, b: &Aabb) -> Result<Judged, String> {
    let (a, c) = (b.min, b.max);
    alone("escapes", patch, |p, pn, n, nn, i, ni| unsafe { raw::cad_escapes_body(p, pn, n, nn, i, ni, a.x, a.y, a.z, c.x, c.y, c.z) })
}

/// A plan's bins written to a list.
pub fn read_plan(text: &[u8], list: &mut Vec<i64>) -> Result<PlanRead, String> {
    let former = std::mem::take(list);
    let (mut t, mut l) = (Fenced::new("bytes of the text", text), Fenced::new("numbers of the list", &former));
    // Sound: each pointer has as many elements behind it as the length says, in a block of its own.
    let mut answer = match wrong::planted() {
        Some(fault) => wrong::reader::read(t.lent(), l.lent(), fault),
        None => unsafe { raw::cad_read_plan(t.start(), t.len(), l.start(), l.len()) },
    };
    planted::spoil("read_plan", &mut answer, &mut [&mut t, &mut l], None);
    t.kept()?;
    *list = l.left()?;
    Ok(answer)
}

/// A list written as text.
pub fn write_plan(list: &[i64], out: &mut Vec<u8>) -> Result<PlanWritten, String> {
    let former = std::mem::take(out);
    let (mut l, mut o) = (Fenced::new("numbers of the list", list), Fenced::new("bytes of the output", &former));
    // Sound: each pointer has as many elements behind it as the length says, in a block of its own.
    let mut answer = match wrong::planted() {
        Some(fault) => wrong::writer::write(l.lent(), o.lent(), fault),
        None => unsafe { raw::cad_write_plan(l.start(), l.len(), o.start(), o.len()) },
    };
    planted::spoil("write_plan", &mut answer, &mut [&mut l, &mut o], None);
    l.kept()?;
    *out = o.left()?;
    Ok(answer)
}

/// The bins nearest a peg written to a list.
pub fn nearest_bins(lookup: &Lookup, bins: &mut Vec<u32>) -> Result<NearestBins, String> {
    let (former, body, [x, y, z]) = (std::mem::take(bins), &lookup.body, lookup.peg);
    let (mut rows, mut p) = (Fenced::new("rows", &body.rows), Fenced::new("positions", &body.positions));
    let (mut n, mut i) = (Fenced::new("normals", &body.normals), Fenced::new("indices", &body.indices));
    let (mut places, mut b) = (Fenced::new("places", &lookup.places), Fenced::new("numbers of the bin list", &former));
    // Sound: each pointer has as many elements behind it as the length says, in a block of its own.
    #[rustfmt::skip]
    let mut answer = match pegs::wrong::planted() {
        Some(wrong) => pegs::wrong::lookup::find(lookup, b.lent(), wrong),
        None => unsafe {
            raw::cad_nearest_bins(rows.start(), rows.len(), p.start(), p.len(), n.start(), n.len(), i.start(), i.len(),
                places.start(), places.len(), x, y, z, b.start(), b.len())
        },
    };
    planted::spoil("nearest_bins", &mut answer, &mut [&mut rows, &mut p, &mut n, &mut i, &mut places, &mut b], None);
    rows.kept()?;
    p.kept()?;
    n.kept()?;
    i.kept()?;
    places.kept()?;
    *bins = b.left()?;
    Ok(answer)
}

/// The page with a body added, and its faces written to a list.
pub fn report(asked: &Report, faces: &mut Vec<u32>, work: &mut Work) -> Result<Reported, String> {
    let (former, body, page) = (std::mem::take(faces), &asked.body, &asked.page);
    let (mut rows, mut p) = (Fenced::new("rows", &body.rows), Fenced::new("positions", &body.positions));
    let (mut n, mut i) = (Fenced::new("normals", &body.normals), Fenced::new("indices", &body.indices));
    let (a, c, mut f) = (asked.reference.min, asked.reference.max, Fenced::new("numbers of the face list", &former));
    let (w, w_len) = (work.lent().as_mut_ptr(), work.lent().len());
    // Sound: each pointer has as many elements behind it as the length says, in a block of its own.
    #[rustfmt::skip]
    let mut answer = match reports::wrong::planted() {
        Some(wrong) => reports::wrong::report::report(asked, f.lent(), work.lent(), wrong),
        None => unsafe {
            raw::cad_report(rows.start(), rows.len(), p.start(), p.len(), n.start(), n.len(), i.start(), i.len(), a.x, a.y, a.z, c.x, c.y, c.z,
                page.bodies, page.accepted, page.failed, page.triangles, page.vertices, page.empty, page.upstream, page.escaped, page.listed,
                f.start(), f.len(), w, w_len)
        },
    };
    planted::spoil("report", &mut answer, &mut [&mut rows, &mut p, &mut n, &mut i, &mut f], Some(work));
    rows.kept()?;
    p.kept()?;
    n.kept()?;
    i.kept()?;
    *faces = f.left()?;
    Ok(answer)
}
