//! A body laid into a mesh by the unchanged Rust as it stands, neither turned nor stitched: the end of `tessellate_solid`, cut out of
//! it at build time.

use crate::finish::{Finished, box_of, face_materials, ranges_with_bins, reported_failures};
use crate::sheet::Sheet;
use cad_ir::brep::{FaceId, Solid};
use cad_ir::mesh::{Mesh, MeshPart};
use cad_ir::scene::MaterialId;
use cad_tess::face::probe::{escapes_body, farthest};
use cad_tess::face::{self, Patch};
use cad_tess::{FaceFailure, Report};

/// Rows as the source's private functions take them.
pub type Faces = Vec<(usize, FaceId, Result<Patch, String>)>;

/// What the source returns, and what it prints or keeps to itself: the face ranges and the three counts.
pub struct Tail {
    pub mesh: Mesh,
    pub report: Report,
    pub ranges: Vec<(FaceId, usize, usize)>,
    pub edges: usize,
    pub open: usize,
    pub over: usize,
}

include!(concat!(env!("OUT_DIR"), "/tail.rs"));

/// Rows assembled with a sheet's box, materials and default; the counts of turning and stitching are 0.
pub fn assemble(faces: Faces, sheet: &Sheet) -> Finished {
    let reference = box_of(sheet);
    let solid = Solid::new(Vec::new(), reference);
    let stitched_vertices = faces.iter().flat_map(|(_, _, r)| r).map(|p| p.positions.len()).sum();
    let stitched_indices = faces.iter().flat_map(|(_, _, r)| r).map(|p| p.indices.len()).sum();
    let rows = faces.clone();
    let Tail { mesh, report, ranges, edges, open, over } =
        tail("body", &solid, faces, sheet.default.map(MaterialId), &face_materials(sheet));
    let ranges = ranges.into_iter().map(|(face, first, past)| (face.0, first, past)).collect();
    Finished {
        positions: mesh.positions,
        normals: mesh.normals,
        parts: mesh.parts.iter().map(|p| (p.material, p.start, p.count)).collect(),
        indices: mesh.indices.into_vec(),
        ranges: ranges_with_bins(&rows, &sheet.rows, &reference, ranges),
        failures: reported_failures(&rows, &sheet.rows, &reference, &report),
        ok: report.faces_ok,
        edges,
        open,
        over,
        stitched_vertices,
        stitched_indices,
        ..Finished::default()
    }
}
