//! A stub of the solid: the rows' shells and faces, the given body box, and the outcome set aside for each row.

use crate::math::{Aabb, Frame};
use crate::record::{Event, note};
use std::cell::RefCell;
use std::collections::VecDeque;

#[derive(Debug, Clone, Copy, PartialEq, Eq)]
pub struct FaceId(pub u32);

impl FaceId {
    pub fn index(self) -> usize {
        self.0 as usize
    }
}

#[derive(Debug, Clone, Copy, PartialEq, Eq)]
pub struct EdgeId(pub u32);

impl EdgeId {
    pub fn index(self) -> usize {
        self.0 as usize
    }
}

#[derive(Debug, Clone, Copy, PartialEq, Eq)]
pub struct SurfaceId(pub u32);

pub struct Half {
    pub edge: EdgeId,
}

pub struct Bound {
    pub halves: Vec<Half>,
}

pub struct Face {
    pub bounds: Vec<Bound>,
    pub surface: SurfaceId,
    pub same_sense: bool,
}

pub enum Surface {
    Plane,
    Torus { major_radius: f64, minor_radius: f64, frame: Frame },
    Cylinder { radius: f64, frame: Frame },
    Cone { radius: f64, half_angle: f64, frame: Frame },
}

/// What upstream made of one row: three coordinates a vertex and a normal, and indices, or an upstream failure's number.
#[derive(Debug, Clone, PartialEq)]
pub enum Outcome {
    Patch { positions: Vec<[f32; 3]>, normals: Vec<[f32; 3]>, indices: Vec<u32> },
    Failed(u32),
}

pub struct Solid {
    pub name: String,
    pub faces: Vec<Face>,
    rows: Vec<(usize, FaceId)>,
    bounds: Aabb,
    plane: Face,
    surface: Surface,
    outcomes: RefCell<VecDeque<Outcome>>,
}

impl Solid {
    /// A body of rows (shell, face, outcome) in a box.
    pub fn new(rows: Vec<(u32, u32, Outcome)>, bounds: Aabb) -> Solid {
        let shells = rows.iter().map(|(shell, face, _)| (*shell as usize, FaceId(*face))).collect();
        Solid {
            name: "body".to_string(),
            faces: Vec::new(),
            rows: shells,
            bounds,
            plane: Face { bounds: Vec::new(), surface: SurfaceId(0), same_sense: true },
            surface: Surface::Plane,
            outcomes: RefCell::new(rows.into_iter().map(|(_, _, outcome)| outcome).collect()),
        }
    }

    pub fn shell_faces(&self) -> impl Iterator<Item = (usize, FaceId)> + '_ {
        self.rows.iter().copied()
    }

    pub fn geometric_bounds(&self) -> Aabb {
        self.bounds
    }

    pub fn face(&self, id: FaceId) -> &Face {
        note(Event::Asked(id.0));
        &self.plane
    }

    pub fn surface(&self, _: SurfaceId) -> &Surface {
        &self.surface
    }

    /// The outcome set aside for the next row: faces are asked for in row order.
    pub fn next_outcome(&self) -> Outcome {
        self.outcomes.borrow_mut().pop_front().expect("a row for each face")
    }
}
