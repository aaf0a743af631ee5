//! The library's C calls, and the only unsafe code of this crate.
//!
//! What the library takes for granted and cannot test is that a pointer with its length is a slice, aligned for its type, and that no
//! slice that a call may write overlaps another. References give both: `&[T]` and `&mut [T]` are aligned, as long as they say, and
//! a `&mut` overlaps nothing else that is lent. Each call ends before the references do, and the library keeps no pointer. It also takes
//! the processor's usual floating-point state for granted, as Rust does everywhere.

use crate::answers::{Assembled, Stitched, Turned};
use crate::body::{BinId, BodyMut, BodyOut, BodyRef, FaceId, Point, Row};
use crate::mesh::{Aabb, MeshOut, Setting};
use crate::plan::{Place, RawPlacedBin};
use crate::refusal::Refusal;
use crate::report::{Page, Share, WoundFace};
use crate::steps::{Cell, Key};

#[repr(C)]
struct CadTurned {
    refusal: u32,
    turned: u32,
    against: u64,
}

#[repr(C)]
struct CadStitched {
    refusal: u32,
    vertices: u32,
    indices: u32,
    splits: u64,
}

#[repr(C)]
struct CadAssembled {
    refusal: u32,
    vertices: u32,
    indices: u32,
    parts: u32,
    ranges: u32,
    failures: u32,
    edges: u64,
    opens: u64,
    overs: u64,
    closed: u32,
}

#[repr(C)]
struct CadMeasured {
    refusal: u32,
    value: f64,
}

#[repr(C)]
struct CadJudged {
    refusal: u32,
    verdict: u32,
}

#[repr(C)]
struct CadPlanRead {
    refusal: u32,
    entries: u64,
}

#[repr(C)]
struct CadPlanWritten {
    refusal: u32,
    length: u64,
}

#[repr(C)]
struct CadNearestBins {
    refusal: u32,
    bins: u32,
}

#[repr(C)]
struct CadReported {
    refusal: u32,
    bodies: u64,
    accepted: u64,
    failed: u64,
    triangles: u64,
    vertices: u64,
    empty: u64,
    upstream: u64,
    escaped: u64,
    listed: u64,
    share_accepted: u64,
    share_faces: u64,
}

#[repr(C)]
struct CadCell {
    value: i64,
    clamped: u32,
}

#[repr(C)]
struct CadKey {
    value: u64,
    clamped: u32,
}

#[rustfmt::skip]
extern "C" {
    fn cad_turn(rows: *const u32, rows_len: usize, positions: *const f32, positions_len: usize, normals: *mut f32, normals_len: usize, indices: *mut u32,
        indices_len: usize, work: *mut u64, work_len: usize) -> CadTurned;
    fn cad_stitch(rows: *const u32, rows_len: usize, positions: *const f32, positions_len: usize, normals: *const f32, normals_len: usize,
        indices: *const u32, indices_len: usize, sag: f64, out_rows: *mut u32, out_rows_len: usize, out_positions: *mut f32, out_positions_len: usize,
        out_normals: *mut f32, out_normals_len: usize, out_indices: *mut u32, out_indices_len: usize, work: *mut u64, work_len: usize) -> CadStitched;
    fn cad_assemble(rows: *const u32, rows_len: usize, positions: *const f32, positions_len: usize, normals: *const f32, normals_len: usize,
        indices: *const u32, indices_len: usize, min_x: f64, min_y: f64, min_z: f64, max_x: f64, max_y: f64, max_z: f64, materials: *const u64,
        materials_len: usize, default_material: u64, mesh_positions: *mut f32, mesh_positions_len: usize, mesh_normals: *mut f32, mesh_normals_len: usize,
        mesh_indices: *mut u32, mesh_indices_len: usize, parts: *mut u32, parts_len: usize, ranges: *mut u32, ranges_len: usize, failures: *mut u64,
        failures_len: usize, work: *mut u64, work_len: usize) -> CadAssembled;
    fn cad_report(rows: *const u32, rows_len: usize, positions: *const f32, positions_len: usize, normals: *const f32, normals_len: usize,
        indices: *const u32, indices_len: usize, min_x: f64, min_y: f64, min_z: f64, max_x: f64, max_y: f64, max_z: f64, bodies: u64, accepted: u64,
        failed: u64, triangles: u64, vertices: u64, empty: u64, upstream: u64, escaped: u64, listed: u64, faces: *mut u32, faces_len: usize,
        work: *mut u64, work_len: usize) -> CadReported;
    fn cad_read_plan(text: *const u8, text_len: usize, list: *mut i64, list_len: usize) -> CadPlanRead;
    fn cad_write_plan(list: *const i64, list_len: usize, out: *mut u8, out_len: usize) -> CadPlanWritten;
    fn cad_nearest_bins(rows: *const u32, rows_len: usize, positions: *const f32, positions_len: usize, normals: *const f32, normals_len: usize,
        indices: *const u32, indices_len: usize, places: *const i64, places_len: usize, x: i64, y: i64, z: i64, bins: *mut u32,
        bins_len: usize) -> CadNearestBins;
    fn cad_face_at(rows: *const Row, rows_len: usize, k: usize) -> u32;
    fn cad_face_indices(rows: *const u32, rows_len: usize, indices: *const u32, indices_len: usize, stitched_rows: *const u32, stitched_rows_len: usize,
        stitched_indices: *const u32, stitched_indices_len: usize, k: usize, out: *mut u32, out_len: usize) -> u64;
    fn cad_patch_volume(positions: *const f32, positions_len: usize, normals: *const f32, normals_len: usize, indices: *const u32, indices_len: usize,
        flip: bool) -> CadMeasured;
    fn cad_farthest(positions: *const f32, positions_len: usize, normals: *const f32, normals_len: usize, indices: *const u32, indices_len: usize,
        min_x: f64, min_y: f64, min_z: f64, max_x: f64, max_y: f64, max_z: f64) -> CadMeasured;
    fn cad_escapes_body(positions: *const f32, positions_len: usize, normals: *const f32, normals_len: usize, indices: *const u32, indices_len: usize,
        min_x: f64, min_y: f64, min_z: f64, max_x: f64, max_y: f64, max_z: f64) -> CadJudged;
    fn cad_widen(bits: u32) -> u64;
    fn cad_narrow(bits: u64) -> u32;
    fn cad_sqrt(bits: u64) -> u64;
    fn cad_round(bits: u64) -> u64;
    fn cad_larger(a: u64, b: u64) -> u64;
    fn cad_cell(v: f32) -> CadCell;
    fn cad_key(x: f32, y: f32, z: f32) -> CadKey;
}

/// A slice of records as a pointer to the numbers they are made of, and how many there are.
///
/// Records are lent here that are arrays or `repr(C)` structs of one type `N` alone, so that they have its alignment and no padding,
/// and every content of their numbers is a record.
fn numbers<T, N>(records: &[T]) -> (*const N, usize) {
    const { assert!(size_of::<T>() % size_of::<N>() == 0 && align_of::<T>() == align_of::<N>()) };
    (records.as_ptr().cast(), records.len() * (size_of::<T>() / size_of::<N>()))
}

/// The same of a slice that may be written.
fn numbers_mut<T, N>(records: &mut [T]) -> (*mut N, usize) {
    const { assert!(size_of::<T>() % size_of::<N>() == 0 && align_of::<T>() == align_of::<N>()) };
    (records.as_mut_ptr().cast(), records.len() * (size_of::<T>() / size_of::<N>()))
}

/// An answer, or the refusal that its number tells.
fn unless_refused<T>(number: u32, answer: T) -> Result<T, Refusal> {
    match number {
        0 => Ok(answer),
        _ => Err(Refusal::from_number(number).expect("the library gives a number of its table")),
    }
}

pub fn turn(body: BodyMut<'_>, work: &mut [u64]) -> Result<Turned, Refusal> {
    let (rows, rows_len) = numbers(body.rows);
    let (positions, positions_len) = numbers(body.positions);
    let (normals, normals_len) = numbers_mut(body.normals);
    let (indices, indices_len) = (body.indices.as_mut_ptr(), body.indices.len());
    let (work, work_len) = (work.as_mut_ptr(), work.len());
    // Sound: each pair is a live slice of the numbers that the call takes; normals, indices and work come from &mut, so they overlap
    // nothing. What is written to normals and indices are floats and numbers.
    let answer = unsafe { cad_turn(rows, rows_len, positions, positions_len, normals, normals_len, indices, indices_len, work, work_len) };
    unless_refused(answer.refusal, Turned { turned: answer.turned, against: answer.against })
}

#[rustfmt::skip]
pub fn stitch(body: BodyRef<'_>, sag: f64, out: BodyOut<'_>, work: &mut [u64]) -> Result<Stitched, Refusal> {
    let (rows, rows_len) = numbers(body.rows);
    let (positions, positions_len) = numbers(body.positions);
    let (normals, normals_len) = numbers(body.normals);
    let (indices, indices_len) = (body.indices.as_ptr(), body.indices.len());
    let (out_rows, out_rows_len) = numbers_mut(out.rows);
    let (out_positions, out_positions_len) = numbers_mut(out.positions);
    let (out_normals, out_normals_len) = numbers_mut(out.normals);
    let (out_indices, out_indices_len) = (out.indices.as_mut_ptr(), out.indices.len());
    let (work, work_len) = (work.as_mut_ptr(), work.len());
    // Sound: each pair is a live slice of the numbers that the call takes; the outputs and work come from &mut, so they overlap nothing.
    // Rows are six numbers and points three floats of any value.
    let answer = unsafe {
        cad_stitch(rows, rows_len, positions, positions_len, normals, normals_len, indices, indices_len, sag,
            out_rows, out_rows_len, out_positions, out_positions_len, out_normals, out_normals_len, out_indices, out_indices_len, work, work_len)
    };
    unless_refused(answer.refusal, Stitched { vertices: answer.vertices, indices: answer.indices, splits: answer.splits })
}

#[rustfmt::skip]
pub fn assemble(body: BodyRef<'_>, setting: &Setting<'_>, out: MeshOut<'_>, work: &mut [u64]) -> Result<Assembled, Refusal> {
    let (rows, rows_len) = numbers(body.rows);
    let (positions, positions_len) = numbers(body.positions);
    let (normals, normals_len) = numbers(body.normals);
    let (indices, indices_len) = (body.indices.as_ptr(), body.indices.len());
    let Aabb { min, max } = setting.bounds;
    let (materials, materials_len) = numbers(setting.materials);
    let (mesh_positions, mesh_positions_len) = numbers_mut(out.positions);
    let (mesh_normals, mesh_normals_len) = numbers_mut(out.normals);
    let (mesh_indices, mesh_indices_len) = (out.indices.as_mut_ptr(), out.indices.len());
    let (parts, parts_len) = numbers_mut(out.parts);
    let (ranges, ranges_len) = numbers_mut(out.ranges);
    let (failures, failures_len) = numbers_mut(out.failures);
    let (work, work_len) = (work.as_mut_ptr(), work.len());
    // Sound: each pair is a live slice of the numbers that the call takes; the outputs and work come from &mut, so they overlap nothing.
    // Points, parts, ranges and failures are three to five numbers of any value.
    let answer = unsafe {
        cad_assemble(rows, rows_len, positions, positions_len, normals, normals_len, indices, indices_len,
            min[0], min[1], min[2], max[0], max[1], max[2], materials, materials_len, setting.default.0,
            mesh_positions, mesh_positions_len, mesh_normals, mesh_normals_len, mesh_indices, mesh_indices_len,
            parts, parts_len, ranges, ranges_len, failures, failures_len, work, work_len)
    };
    unless_refused(answer.refusal, Assembled {
        vertices: answer.vertices,
        indices: answer.indices,
        parts: answer.parts,
        ranges: answer.ranges,
        failures: answer.failures,
        edges: answer.edges,
        opens: answer.opens,
        overs: answer.overs,
        closed: answer.closed == 1,
    })
}

#[rustfmt::skip]
pub fn report(body: BodyRef<'_>, bounds: Aabb, page: Page, faces: &mut [WoundFace], work: &mut [u64]) -> Result<Page, Refusal> {
    let (rows, rows_len) = numbers(body.rows);
    let (positions, positions_len) = numbers(body.positions);
    let (normals, normals_len) = numbers(body.normals);
    let (indices, indices_len) = (body.indices.as_ptr(), body.indices.len());
    let Aabb { min, max } = bounds;
    let (faces, faces_len) = numbers_mut(faces);
    let (work, work_len) = (work.as_mut_ptr(), work.len());
    // Sound: each pair is a live slice of the numbers that the call takes; the faces and work come from &mut, so they overlap nothing. An
    // entry of the faces is two numbers of any value.
    let answer = unsafe {
        cad_report(rows, rows_len, positions, positions_len, normals, normals_len, indices, indices_len,
            min[0], min[1], min[2], max[0], max[1], max[2], page.bodies, page.accepted, page.failed, page.triangles, page.vertices,
            page.empty, page.upstream, page.escaped, page.listed, faces, faces_len, work, work_len)
    };
    unless_refused(answer.refusal, page_of(&answer))
}

/// The page of an answer.
fn page_of(answer: &CadReported) -> Page {
    Page {
        bodies: answer.bodies,
        accepted: answer.accepted,
        failed: answer.failed,
        triangles: answer.triangles,
        vertices: answer.vertices,
        empty: answer.empty,
        upstream: answer.upstream,
        escaped: answer.escaped,
        listed: answer.listed,
        share: Share { accepted: answer.share_accepted, faces: answer.share_faces },
    }
}

pub fn read_plan(text: &[u8], list: &mut [RawPlacedBin]) -> Result<u64, Refusal> {
    let (list, list_len) = numbers_mut(list);
    // Sound: each pair is a live slice of the numbers that the call takes; the list comes from &mut, so it overlaps nothing. An entry
    // is four numbers of any value.
    let answer = unsafe { cad_read_plan(text.as_ptr(), text.len(), list, list_len) };
    unless_refused(answer.refusal, answer.entries)
}

pub fn write_plan(list: &[RawPlacedBin], out: &mut [u8]) -> Result<u64, Refusal> {
    let (list, list_len) = numbers(list);
    // Sound: each pair is a live slice of the numbers that the call takes; out comes from &mut, so it overlaps nothing.
    let answer = unsafe { cad_write_plan(list, list_len, out.as_mut_ptr(), out.len()) };
    unless_refused(answer.refusal, answer.length)
}

#[rustfmt::skip]
pub fn nearest_bins(body: BodyRef<'_>, places: &[Place], peg: Place, bins: &mut [BinId]) -> Result<u32, Refusal> {
    let (rows, rows_len) = numbers(body.rows);
    let (positions, positions_len) = numbers(body.positions);
    let (normals, normals_len) = numbers(body.normals);
    let (indices, indices_len) = (body.indices.as_ptr(), body.indices.len());
    let (places, places_len) = numbers(places);
    let [x, y, z] = peg;
    let (bins, bins_len) = numbers_mut(bins);
    // Sound: each pair is a live slice of the numbers that the call takes; the bins come from &mut, so they overlap nothing. A place is
    // three numbers and a bin is one, of any value.
    let answer = unsafe {
        cad_nearest_bins(rows, rows_len, positions, positions_len, normals, normals_len, indices, indices_len, places, places_len,
            x, y, z, bins, bins_len)
    };
    unless_refused(answer.refusal, answer.bins)
}

pub fn face_at(rows: &[Row], k: usize) -> FaceId {
    // Sound: the pair is a live slice of rows, which are six numbers in the order of C's, and the call writes nothing.
    FaceId(unsafe { cad_face_at(rows.as_ptr(), rows.len(), k) })
}

#[rustfmt::skip]
pub fn face_indices(rows: &[Row], indices: &[u32], stitched_rows: &[Row], stitched_indices: &[u32], k: usize, out: &mut [u32]) -> u64 {
    let ((r, r_len), (s, s_len)) = (numbers(rows), numbers(stitched_rows));
    // Sound: each pair is a live slice of the numbers that the call takes; out comes from &mut, so it overlaps nothing.
    unsafe {
        cad_face_indices(r, r_len, indices.as_ptr(), indices.len(), s, s_len, stitched_indices.as_ptr(), stitched_indices.len(), k,
            out.as_mut_ptr(), out.len())
    }
}

pub fn patch_volume(positions: &[Point], normals: &[Point], indices: &[u32], flip: bool) -> Result<f64, Refusal> {
    let ((p, p_len), (n, n_len)) = (numbers(positions), numbers(normals));
    // Sound: each pair is a live slice of the numbers that the call takes, and it writes nothing.
    let answer = unsafe { cad_patch_volume(p, p_len, n, n_len, indices.as_ptr(), indices.len(), flip) };
    unless_refused(answer.refusal, answer.value)
}

#[rustfmt::skip]
pub fn farthest(positions: &[Point], normals: &[Point], indices: &[u32], bounds: Aabb) -> Result<f64, Refusal> {
    let ((p, p_len), (n, n_len)) = (numbers(positions), numbers(normals));
    let Aabb { min, max } = bounds;
    // Sound: each pair is a live slice of the numbers that the call takes, and it writes nothing.
    let answer = unsafe {
        cad_farthest(p, p_len, n, n_len, indices.as_ptr(), indices.len(), min[0], min[1], min[2], max[0], max[1], max[2])
    };
    unless_refused(answer.refusal, answer.value)
}

#[rustfmt::skip]
pub fn escapes_body(positions: &[Point], normals: &[Point], indices: &[u32], bounds: Aabb) -> Result<bool, Refusal> {
    let ((p, p_len), (n, n_len)) = (numbers(positions), numbers(normals));
    let Aabb { min, max } = bounds;
    // Sound: each pair is a live slice of the numbers that the call takes, and it writes nothing.
    let answer = unsafe {
        cad_escapes_body(p, p_len, n, n_len, indices.as_ptr(), indices.len(), min[0], min[1], min[2], max[0], max[1], max[2])
    };
    unless_refused(answer.refusal, answer.verdict == 1)
}

// The calls below take and give numbers by value: every bit pattern is allowed, and nothing is lent.

pub fn widen(bits: u32) -> u64 {
    // Sound: see above.
    unsafe { cad_widen(bits) }
}

pub fn narrow(bits: u64) -> u32 {
    // Sound: see above.
    unsafe { cad_narrow(bits) }
}

pub fn sqrt(bits: u64) -> u64 {
    // Sound: see above.
    unsafe { cad_sqrt(bits) }
}

pub fn round(bits: u64) -> u64 {
    // Sound: see above.
    unsafe { cad_round(bits) }
}

pub fn larger(a: u64, b: u64) -> u64 {
    // Sound: see above.
    unsafe { cad_larger(a, b) }
}

pub fn cell(v: f32) -> Cell {
    // Sound: see above.
    let answer = unsafe { cad_cell(v) };
    Cell { value: answer.value, clamped: answer.clamped == 1 }
}

pub fn key(x: f32, y: f32, z: f32) -> Key {
    // Sound: see above.
    let answer = unsafe { cad_key(x, y, z) };
    Key { value: answer.value, clamped: answer.clamped == 1 }
}
