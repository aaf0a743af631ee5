//! A stub of the scene that `tessellate_scene` walks; the reference never makes one.

use crate::brep::Solid;
use crate::math::Aabb;
use crate::mesh::Mesh;

#[derive(Debug, Clone, Copy, PartialEq, Eq)]
pub struct MaterialId(pub u32);

pub struct Geometry {
    pub name: String,
    pub brep: Option<Solid>,
    pub material: Option<MaterialId>,
    pub face_materials: Vec<Option<MaterialId>>,
    pub mesh: Option<Mesh>,
}

pub struct Scene {
    pub geometry: Vec<Geometry>,
}

impl Scene {
    pub fn vertex_bounds(&self) -> Aabb {
        Aabb::EMPTY
    }
}
