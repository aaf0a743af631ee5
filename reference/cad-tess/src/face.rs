//! A stub of face triangulation: each row has its patch already.

use crate::edge::Chain;
use crate::options::Resolved;
use cad_ir::brep::{FaceId, Outcome, Solid, Surface};

/// A triangulated face, in its own vertex numbering.
#[derive(Debug, Default, Clone, PartialEq)]
pub struct Patch {
    pub positions: Vec<[f32; 3]>,
    pub normals: Vec<[f32; 3]>,
    pub indices: Vec<u32>,
    pub crossings: usize,
    pub rebuilt: bool,
}

/// The patch of an outcome, or an upstream failure with its number as the reason.
pub fn patch_of(outcome: Outcome) -> Result<Patch, String> {
    match outcome {
        Outcome::Patch { positions, normals, indices } => {
            Ok(Patch { positions, normals, indices, crossings: 0, rebuilt: false })
        }
        Outcome::Failed(number) => Err(number.to_string()),
    }
}

pub fn tessellate(solid: &Solid, _: FaceId, _: &[Chain], _: &Resolved) -> Result<Patch, String> {
    patch_of(solid.next_outcome())
}

pub(crate) fn repeated_facets(_: &Patch) -> usize {
    0
}

pub fn self_overlaps(_: &Patch) -> usize {
    0
}

pub fn surface_kind(_: &Surface) -> &'static str {
    "plane"
}

pub fn curve_kind() -> &'static str {
    "line"
}

/// The source's private functions, for tools that run one step alone: a module below the crate's root may call them.
pub mod probe {
    use super::Patch;
    use cad_ir::brep::FaceId;
    use cad_ir::math::Aabb;

    pub type Faces = [(usize, FaceId, Result<Patch, String>)];

    pub fn orient_shell(faces: &mut Faces) -> (usize, usize) {
        crate::orient_shell(faces)
    }

    pub fn stitch_t_junctions(faces: &mut Faces, sag: f64) -> usize {
        crate::stitch_t_junctions(faces, sag)
    }

    pub fn patch_volume(patch: &Patch, flip: bool) -> f64 {
        crate::patch_volume(patch, flip)
    }

    pub fn farthest(patch: &Patch, reference: &Aabb) -> f64 {
        crate::farthest(patch, reference)
    }

    pub fn escapes_body(patch: &Patch, reference: &Aabb) -> bool {
        crate::escapes_body(patch, reference)
    }
}
