//! A body finished by the unchanged Rust, with everything that it returns or prints.

use crate::check::{MOST_INDICES, MOST_VERTICES};
use crate::closed::is_closed;
use crate::sheet::{Refusal, Row, Sheet};
use cad_ir::brep::{FaceId, Outcome, Solid};
use cad_ir::math::{Aabb, Vec3};
use cad_ir::record;
use cad_ir::scene::MaterialId;
use cad_tess::Report;
use cad_tess::edge::take_printed;
use cad_tess::face::{Patch, patch_of, probe};
use cad_tess::options::Resolved;
use std::sync::Once;

/// The largest face number of a material line: the source wants a list as long as that.
pub const MOST_MATERIAL_FACE: u32 = 0xff_ffff;

#[derive(Debug, Clone, PartialEq)]
pub enum Failure {
    Empty,
    Upstream(u32),
    Escape(f64, f64),
}

/// All that a finished body has.
#[derive(Debug, Clone, PartialEq, Default)]
pub struct Finished {
    pub positions: Vec<[f32; 3]>,
    pub normals: Vec<[f32; 3]>,
    pub indices: Vec<u32>,
    /// Material, start, count.
    pub parts: Vec<(u32, u32, u32)>,
    /// Face, bin, first index, one past the last. The bin is the row's own, set beside what the Rust says.
    pub ranges: Vec<(u32, u32, usize, usize)>,
    /// Face, bin, why.
    pub failures: Vec<(u32, u32, Failure)>,
    pub turned: usize,
    pub against: usize,
    pub splits: usize,
    pub ok: usize,
    pub edges: usize,
    pub open: usize,
    pub over: usize,
    /// Of the stitched body, accepted or not.
    pub stitched_vertices: usize,
    pub stitched_indices: usize,
}

/// What the source's winding audit prints of a finished body: how many face numbers are wound against a neighbour, and twelve of them at
/// most, each with its count. Which ones of equal counts, and in which order, hangs on map order.
#[derive(Debug, Clone, PartialEq, Default)]
pub struct Wound {
    pub faces: usize,
    pub printed: Vec<(u32, u64)>,
}

impl Finished {
    /// Added by document 01 and amended by 02: the two zeros being one point, no edge is open and none is over.
    pub fn closed(&self) -> bool {
        is_closed(&self.positions, &self.indices)
    }
}

/// Have the source print its counts. It looks for the two names in the environment.
fn watch() {
    static ONCE: Once = Once::new();
    // Sound: it happens once, before the first read of the environment by the source.
    ONCE.call_once(|| unsafe {
        std::env::set_var("CAD_TESS_CRACKS", "1");
        std::env::set_var("CAD_TESS_WIND", "1");
    });
}

pub fn floats(bits: &[[u32; 3]]) -> Vec<[f32; 3]> {
    bits.iter().map(|p| p.map(f32::from_bits)).collect()
}

pub fn box_of(sheet: &Sheet) -> Aabb {
    let c = sheet.corners.map(f64::from_bits);
    Aabb { min: Vec3::new(c[0], c[1], c[2]), max: Vec3::new(c[3], c[4], c[5]) }
}

pub fn outcome_of(row: &Row) -> Outcome {
    if row.outcome != 0 {
        return Outcome::Failed(row.outcome);
    }
    Outcome::Patch { positions: floats(&row.positions), normals: floats(&row.normals), indices: row.indices.clone() }
}

/// The rows as the source's private functions take them.
pub fn faces_of(sheet: &Sheet) -> Vec<(usize, FaceId, Result<Patch, String>)> {
    sheet.rows.iter().map(|r| (r.shell as usize, FaceId(r.face), patch_of(outcome_of(r)))).collect()
}

/// The materials by face that the source takes; a later line replaces.
pub fn face_materials(sheet: &Sheet) -> Vec<Option<MaterialId>> {
    let mut materials = Vec::new();
    for (face, material) in &sheet.materials {
        let face = *face as usize;
        if materials.len() <= face {
            materials.resize(face + 1, None);
        }
        materials[face] = Some(MaterialId(*material));
    }
    materials
}

fn resolved(sag: f64) -> Resolved {
    Resolved { sag, model: 0.0, relative: 0.0, angle: 1.0, min_edge_segments: 1, max_depth: 1, interior_points: false }
}

/// The numbers in a printed line that begins so.
fn numbers(lines: &[String], start: &str, word: &str) -> Vec<usize> {
    let line = lines.iter().find(|l| l.starts_with(start) && l.contains(word)).expect("the source prints its counts");
    line[start.len()..].split(|c: char| !c.is_ascii_digit()).filter_map(|n| n.parse().ok()).collect()
}

/// What the source's winding audit prints.
fn wound(lines: &[String]) -> Wound {
    let face = |line: &String| {
        let words: Vec<&str> = line.strip_prefix("[wind] body face ")?.split_whitespace().collect();
        let count = words.iter().skip_while(|word| **word != "conflicts").nth(1);
        Some((words[0].parse().expect("a face number"), count.expect("a count").parse().expect("a count")))
    };
    Wound { faces: numbers(lines, "[wind] body: ", "wound against")[0], printed: lines.iter().filter_map(face).collect() }
}

/// Why a row fails that the source does not accept. Its report has the reach and the span only as words.
fn failure(result: &Result<Patch, String>, reference: &Aabb) -> Option<Failure> {
    match result {
        Err(number) => Some(Failure::Upstream(number.parse().expect("an upstream number"))),
        Ok(patch) if patch.indices.is_empty() => Some(Failure::Empty),
        Ok(patch) if probe::escapes_body(patch, reference) => {
            Some(Failure::Escape(probe::farthest(patch, reference), reference.diagonal()))
        }
        Ok(_) => None,
    }
}

/// Whether a failure is the one that the source reports in words.
fn is_reported(failure: &Failure, reason: &str) -> bool {
    match failure {
        Failure::Empty => reason == "the triangulation produced no triangles",
        Failure::Upstream(number) => reason == number.to_string(),
        Failure::Escape(reach, span) => {
            reason == format!("patch reaches {reach:.1} mm from the body centre, but the body spans {span:.1} mm")
        }
    }
}

/// The failures in row order with their floats, held to the words of the source's report, each with the bin of its row.
pub fn reported_failures(
    faces: &[(usize, FaceId, Result<Patch, String>)],
    rows: &[Row],
    reference: &Aabb,
    report: &Report,
) -> Vec<(u32, u32, Failure)> {
    let of_row = |(row, (_, face, result)): (&Row, &(usize, FaceId, Result<Patch, String>))| {
        failure(result, reference).map(|failure| (face.0, row.bin, failure))
    };
    let failures: Vec<(u32, u32, Failure)> = rows.iter().zip(faces).filter_map(of_row).collect();
    assert_eq!(failures.len(), report.failed.len(), "each reported failure is known");
    for ((face, _, failure), reported) in failures.iter().zip(&report.failed) {
        assert!(*face == reported.face.0 && is_reported(failure, &reported.reason), "row failures are the reported ones");
    }
    failures
}

/// The source's ranges, one for each accepted row in row order, each with the bin of its row.
pub fn ranges_with_bins(
    faces: &[(usize, FaceId, Result<Patch, String>)],
    rows: &[Row],
    reference: &Aabb,
    ranges: Vec<(u32, usize, usize)>,
) -> Vec<(u32, u32, usize, usize)> {
    let accepted: Vec<&Row> =
        rows.iter().zip(faces).filter(|(_, (_, _, result))| failure(result, reference).is_none()).map(|(row, _)| row).collect();
    assert_eq!(accepted.len(), ranges.len(), "a range for each accepted row");
    let of_row = |(row, (face, first, past)): (&Row, (u32, usize, usize))| {
        assert_eq!(row.face, face, "ranges are in row order");
        (face, row.bin, first, past)
    };
    accepted.into_iter().zip(ranges).map(of_row).collect()
}

/// The vertices and indices of a stitched body, or refusal 33 where it passes the limits.
fn stitched_sizes(faces: &[(usize, FaceId, Result<Patch, String>)]) -> Result<(usize, usize), Refusal> {
    let patches = || faces.iter().filter_map(|(_, _, r)| r.as_ref().ok());
    let (vertices, indices) = (patches().map(|p| p.positions.len()).sum(), patches().map(|p| p.indices.len()).sum());
    if vertices > MOST_VERTICES || indices > MOST_INDICES {
        return Err(Refusal::new(33, "the stitched body has more than 262,144 vertices or 786,432 indices"));
    }
    Ok((vertices, indices))
}

/// The body finished, or refusal 33 where the stitched body passes the limits.
pub fn finish(sheet: &Sheet) -> Result<Finished, Refusal> {
    finish_and_audit(sheet).map(|(done, _)| done)
}

/// The same, with what the winding audit prints.
pub fn finish_and_audit(sheet: &Sheet) -> Result<(Finished, Wound), Refusal> {
    watch();
    let reference = box_of(sheet);
    let sag = f64::from_bits(sheet.sag);
    let mut faces = faces_of(sheet);
    let (turned, against) = probe::orient_shell(&mut faces);
    let splits = probe::stitch_t_junctions(&mut faces, sag);
    let (stitched_vertices, stitched_indices) = stitched_sizes(&faces)?;
    let solid = Solid::new(sheet.rows.iter().map(|r| (r.shell, r.face, outcome_of(r))).collect(), reference);
    let default = sheet.default.map(MaterialId);
    record::take_ranges();
    take_printed();
    let (mesh, report) = cad_tess::tessellate_solid("body", &solid, default, &face_materials(sheet), &resolved(sag));
    let printed = take_printed();
    let ranges = record::take_ranges();
    let wind = numbers(&printed, "[wind] body: ", "flipped");
    assert_eq!(wind, [turned, against, splits], "the steps alone and the whole agree");
    let cracks = numbers(&printed, "[cracks] body: ", "open");
    let failures = reported_failures(&faces, &sheet.rows, &reference, &report);
    assert_eq!(ranges.len(), report.faces_ok, "a range for each accepted row");

    let done = Finished {
        positions: mesh.positions,
        normals: mesh.normals,
        parts: mesh.parts.iter().map(|p| (p.material, p.start, p.count)).collect(),
        indices: mesh.indices.into_vec(),
        ranges: ranges_with_bins(&faces, &sheet.rows, &reference, ranges),
        failures,
        turned,
        against,
        splits,
        ok: report.faces_ok,
        edges: cracks[2],
        open: cracks[0],
        over: cracks[1],
        stitched_vertices,
        stitched_indices,
    };
    Ok((done, wound(&printed)))
}
