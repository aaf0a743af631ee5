//! The unchanged `math.rs`, and stubs of the neighbours that `cad-tess` names: just enough for its source to compile.

pub mod brep;
pub mod math;
pub mod mesh;
pub mod record;
pub mod scene;

pub use math::Vec3;
pub use scene::Geometry;
