//! The proved library's calls, declared as its C exports are, and wrapped.

use cad_ir::math::Aabb;
use driver::flat::{Flat, ROW};
use driver::page::Page;

#[repr(C)]
#[derive(Debug, Clone, Copy, PartialEq)]
pub struct Measured {
    pub refusal: u32,
    pub value: f64,
}

#[repr(C)]
#[derive(Debug, Clone, Copy, PartialEq)]
pub struct Judged {
    pub refusal: u32,
    pub verdict: u32,
}

#[repr(C)]
#[derive(Debug, Clone, Copy, PartialEq)]
pub struct Turned {
    pub refusal: u32,
    pub turned: u32,
    pub against: u64,
}

#[repr(C)]
#[derive(Debug, Clone, Copy, PartialEq)]
pub struct Stitched {
    pub refusal: u32,
    pub vertices: u32,
    pub indices: u32,
    pub splits: u64,
}

#[repr(C)]
#[derive(Debug, Clone, Copy, PartialEq, Default)]
pub struct Assembled {
    pub refusal: u32,
    pub vertices: u32,
    pub indices: u32,
    pub parts: u32,
    pub ranges: u32,
    pub failures: u32,
    pub edges: u64,
    pub opens: u64,
    pub overs: u64,
    pub closed: u32,
}

#[repr(C)]
#[derive(Debug, Clone, Copy, PartialEq, Default)]
pub struct PlanRead {
    pub refusal: u32,
    pub entries: u64,
}

#[repr(C)]
#[derive(Debug, Clone, Copy, PartialEq, Default)]
pub struct PlanWritten {
    pub refusal: u32,
    pub length: u64,
}

#[repr(C)]
#[derive(Debug, Clone, Copy, PartialEq, Default)]
pub struct NearestBins {
    pub refusal: u32,
    pub bins: u32,
}

#[repr(C)]
#[derive(Debug, Clone, Copy, PartialEq, Default)]
pub struct Reported {
    pub refusal: u32,
    pub bodies: u64,
    pub accepted: u64,
    pub failed: u64,
    pub triangles: u64,
    pub vertices: u64,
    pub empty: u64,
    pub upstream: u64,
    pub escaped: u64,
    pub listed: u64,
    pub share_accepted: u64,
    pub share_faces: u64,
}

#[repr(C)]
#[derive(Debug, Clone, Copy, PartialEq, Default)]
pub struct Cell {
    pub value: i64,
    pub clamped: u32,
}

#[repr(C)]
#[derive(Debug, Clone, Copy, PartialEq, Default)]
pub struct Key {
    pub value: u64,
    pub clamped: u32,
}

pub mod raw {
    use super::{Assembled, Cell, Judged, Key, Measured, NearestBins, PlanRead, PlanWritten, ROW, Reported, Stitched, Turned};

    #[rustfmt::skip]
    unsafe extern "C" {
        pub fn cad_widen(b: u32) -> u64;
        pub fn cad_narrow(b: u64) -> u32;
        pub fn cad_sqrt(b: u64) -> u64;
        pub fn cad_round(b: u64) -> u64;
        pub fn cad_larger(a: u64, b: u64) -> u64;
        pub fn cad_cell(v: f32) -> Cell;
        pub fn cad_key(x: f32, y: f32, z: f32) -> Key;
        pub fn cad_face_at(rows: *const [u32; ROW], rows_len: usize, k: usize) -> u32;
        pub fn cad_face_indices(rows: *const u32, rows_len: usize, i: *const u32, ni: usize, stitched_rows: *const u32, stitched_rows_len: usize, si: *const u32, sin: usize, k: usize, out: *mut u32, out_len: usize) -> u64;
        pub fn cad_patch_volume(p: *const f32, pn: usize, n: *const f32, nn: usize, i: *const u32, ni: usize, flip: bool) -> Measured;
        pub fn cad_farthest(p: *const f32, pn: usize, n: *const f32, nn: usize, i: *const u32, ni: usize, x0: f64, y0: f64, z0: f64, x1: f64, y1: f64, z1: f64) -> Measured;
        pub fn cad_escapes_body(p: *const f32, pn: usize, n: *const f32, nn: usize, i: *const u32, ni: usize, x0: f64, y0: f64, z0: f64, x1: f64, y1: f64, z1: f64) -> Judged;
        pub fn cad_turn(rows: *const u32, rows_len: usize, p: *const f32, pn: usize, n: *mut f32, nn: usize, i: *mut u32, ni: usize, work: *mut u64, work_len: usize) -> Turned;
        pub fn cad_stitch(rows: *const u32, rows_len: usize, p: *const f32, pn: usize, n: *const f32, nn: usize, i: *const u32, ni: usize, sag: f64, out_rows: *mut u32, out_rows_len: usize, op: *mut f32, opn: usize, on: *mut f32, onn: usize, oi: *mut u32, oin: usize, work: *mut u64, work_len: usize) -> Stitched;
        pub fn cad_assemble(rows: *const u32, rows_len: usize, p: *const f32, pn: usize, n: *const f32, nn: usize, i: *const u32, ni: usize, x0: f64, y0: f64, z0: f64, x1: f64, y1: f64, z1: f64, materials: *const u64, materials_len: usize, default: u64, mp: *mut f32, mpn: usize, mn: *mut f32, mnn: usize, mi: *mut u32, min: usize, parts: *mut u32, parts_len: usize, ranges: *mut u32, ranges_len: usize, failures: *mut u64, failures_len: usize, work: *mut u64, work_len: usize) -> Assembled;
        pub fn cad_read_plan(text: *const u8, text_len: usize, list: *mut i64, list_len: usize) -> PlanRead;
        pub fn cad_write_plan(list: *const i64, list_len: usize, out: *mut u8, out_len: usize) -> PlanWritten;
        pub fn cad_nearest_bins(rows: *const u32, rows_len: usize, p: *const f32, pn: usize, n: *const f32, nn: usize, i: *const u32, ni: usize,
            places: *const i64, places_len: usize, x: i64, y: i64, z: i64, bins: *mut u32, bins_len: usize) -> NearestBins;
        pub fn cad_report(rows: *const u32, rows_len: usize, p: *const f32, pn: usize, n: *const f32, nn: usize, i: *const u32, ni: usize,
            x0: f64, y0: f64, z0: f64, x1: f64, y1: f64, z1: f64, bodies: u64, accepted: u64, failed: u64, triangles: u64, vertices: u64,
            empty: u64, upstream: u64, escaped: u64, listed: u64, faces: *mut u32, faces_len: usize, work: *mut u64, work_len: usize) -> Reported;
    }
}

// Sound: numbers pass as themselves, and a slice as its pointer and length.
pub fn widen(b: u32) -> u64 {
    unsafe { raw::cad_widen(b) }
}

pub fn narrow(b: u64) -> u32 {
    unsafe { raw::cad_narrow(b) }
}

pub fn sqrt(b: u64) -> u64 {
    unsafe { raw::cad_sqrt(b) }
}

pub fn round(b: u64) -> u64 {
    unsafe { raw::cad_round(b) }
}

pub fn larger(a: u64, b: u64) -> u64 {
    unsafe { raw::cad_larger(a, b) }
}

pub fn cell(v: f32) -> Cell {
    unsafe { raw::cad_cell(v) }
}

pub fn key(p: [f32; 3]) -> Key {
    unsafe { raw::cad_key(p[0], p[1], p[2]) }
}

/// A patch as the calls take it: flat coordinates and indices.
#[derive(Debug, Clone, Default)]
pub struct Lone {
    pub positions: Vec<f32>,
    pub normals: Vec<f32>,
    pub indices: Vec<u32>,
}

/// A body turned where it stands.
pub fn turn(body: &mut Flat, work: &mut [u64]) -> Turned {
    let (rows, p, n, i) = (&body.rows, &body.positions, &mut body.normals, &mut body.indices);
    unsafe {
        raw::cad_turn(
            rows.as_ptr(),
            rows.len(),
            p.as_ptr(),
            p.len(),
            n.as_mut_ptr(),
            n.len(),
            i.as_mut_ptr(),
            i.len(),
            work.as_mut_ptr(),
            work.len(),
        )
    }
}

/// A body stitched into another's slices.
pub fn stitch(body: &Flat, sag: f64, out: &mut Flat, work: &mut [u64]) -> Stitched {
    let (rows, p, n, i) = (&body.rows, &body.positions, &body.normals, &body.indices);
    unsafe {
        raw::cad_stitch(
            rows.as_ptr(),
            rows.len(),
            p.as_ptr(),
            p.len(),
            n.as_ptr(),
            n.len(),
            i.as_ptr(),
            i.len(),
            sag,
            out.rows.as_mut_ptr(),
            out.rows.len(),
            out.positions.as_mut_ptr(),
            out.positions.len(),
            out.normals.as_mut_ptr(),
            out.normals.len(),
            out.indices.as_mut_ptr(),
            out.indices.len(),
            work.as_mut_ptr(),
            work.len(),
        )
    }
}

/// The face number of row k of a body's table, lent as rows.
pub fn face_at(body: &Flat, k: usize) -> u32 {
    unsafe { raw::cad_face_at(body.rows.as_ptr().cast(), body.rows.len() / ROW, k) }
}

/// Row k's indices after stitching, as many as there is room for; how many there are.
pub fn face_indices(before: &Flat, stitched: &Flat, k: usize, out: &mut [u32]) -> u64 {
    unsafe {
        raw::cad_face_indices(
            before.rows.as_ptr(),
            before.rows.len(),
            before.indices.as_ptr(),
            before.indices.len(),
            stitched.rows.as_ptr(),
            stitched.rows.len(),
            stitched.indices.as_ptr(),
            stitched.indices.len(),
            k,
            out.as_mut_ptr(),
            out.len(),
        )
    }
}

/// How many numbers a part takes: material, start, count.
pub const PART: usize = 3;

/// How many numbers a range takes: face, bin, first index, one past the last.
pub const RANGE: usize = 4;

/// How many numbers a failure takes: face, bin, case, reach, span.
pub const FAILURE: usize = 5;

/// The slices that assembling writes: three numbers a vertex, and tables of parts, ranges and failures.
#[derive(Debug, Clone, Default)]
pub struct Mesh {
    pub positions: Vec<f32>,
    pub normals: Vec<f32>,
    pub indices: Vec<u32>,
    pub parts: Vec<u32>,
    pub ranges: Vec<u32>,
    pub failures: Vec<u64>,
}

/// What assembling takes besides a body: the box, an entry for each face number, and the default; 0 is none, n + 1 is material n.
#[derive(Debug, Clone)]
pub struct Setting {
    pub reference: Aabb,
    pub materials: Vec<u64>,
    pub default: u64,
}

/// A body laid into a mesh, with its edges counted.
pub fn assemble(body: &Flat, setting: &Setting, mesh: &mut Mesh, work: &mut [u64]) -> Assembled {
    let (rows, p, n, i) = (&body.rows, &body.positions, &body.normals, &body.indices);
    let (a, c) = (setting.reference.min, setting.reference.max);
    unsafe {
        raw::cad_assemble(
            rows.as_ptr(),
            rows.len(),
            p.as_ptr(),
            p.len(),
            n.as_ptr(),
            n.len(),
            i.as_ptr(),
            i.len(),
            a.x,
            a.y,
            a.z,
            c.x,
            c.y,
            c.z,
            setting.materials.as_ptr(),
            setting.materials.len(),
            setting.default,
            mesh.positions.as_mut_ptr(),
            mesh.positions.len(),
            mesh.normals.as_mut_ptr(),
            mesh.normals.len(),
            mesh.indices.as_mut_ptr(),
            mesh.indices.len(),
            mesh.parts.as_mut_ptr(),
            mesh.parts.len(),
            mesh.ranges.as_mut_ptr(),
            mesh.ranges.len(),
            mesh.failures.as_mut_ptr(),
            mesh.failures.len(),
            work.as_mut_ptr(),
            work.len(),
        )
    }
}

/// How many numbers an entry of a plan's list takes: bin, x, y, z.
pub const ENTRY: usize = 4;

/// The most bins that a plan places.
pub const MOST_ENTRIES: usize = 4096;

/// A plan's bins written to the front of a list.
pub fn read_plan(text: &[u8], list: &mut [i64]) -> PlanRead {
    unsafe { raw::cad_read_plan(text.as_ptr(), text.len(), list.as_mut_ptr(), list.len()) }
}

/// A list written as text to the front of a slice.
pub fn write_plan(list: &[i64], out: &mut [u8]) -> PlanWritten {
    unsafe { raw::cad_write_plan(list.as_ptr(), list.len(), out.as_mut_ptr(), out.len()) }
}

/// How many numbers a row's place takes: x, y, z.
pub const PLACE: usize = 3;

/// A body with a place for each row, in micrometres, behind which more numbers may stand; and a peg.
#[derive(Debug, Clone, Default)]
pub struct Lookup {
    pub body: Flat,
    pub places: Vec<i64>,
    pub peg: [i64; 3],
}

/// The bins nearest a peg written to the front of a list.
#[rustfmt::skip]
pub fn nearest_bins(lookup: &Lookup, bins: &mut [u32]) -> NearestBins {
    let Flat { rows, positions: p, normals: n, indices: i } = &lookup.body;
    let (places, [x, y, z]) = (&lookup.places, lookup.peg);
    unsafe {
        raw::cad_nearest_bins(rows.as_ptr(), rows.len(), p.as_ptr(), p.len(), n.as_ptr(), n.len(), i.as_ptr(), i.len(),
            places.as_ptr(), places.len(), x, y, z, bins.as_mut_ptr(), bins.len())
    }
}

/// A stitched body with its box, and the page so far.
#[derive(Debug, Clone)]
pub struct Report {
    pub body: Flat,
    pub reference: Aabb,
    pub page: Page,
}

/// The page with a body added, whose faces wound against a neighbour follow in the face list.
#[rustfmt::skip]
pub fn report(asked: &Report, faces: &mut [u32], work: &mut [u64]) -> Reported {
    let Flat { rows, positions: p, normals: n, indices: i } = &asked.body;
    let (a, c, page) = (asked.reference.min, asked.reference.max, &asked.page);
    unsafe {
        raw::cad_report(rows.as_ptr(), rows.len(), p.as_ptr(), p.len(), n.as_ptr(), n.len(), i.as_ptr(), i.len(),
            a.x, a.y, a.z, c.x, c.y, c.z, page.bodies, page.accepted, page.failed, page.triangles, page.vertices,
            page.empty, page.upstream, page.escaped, page.listed, faces.as_mut_ptr(), faces.len(), work.as_mut_ptr(), work.len())
    }
}
