//! A stub of the finished mesh.

use crate::record::{Event, note};
use std::ops::{Index, Range};

#[derive(Debug, Clone, PartialEq)]
pub struct MeshPart {
    pub material: u32,
    pub start: u32,
    pub count: u32,
}

/// The index buffer: a list that notes the ranges by which it is sliced.
#[derive(Debug, Default, Clone, PartialEq)]
pub struct Indices(Vec<u32>);

impl Indices {
    pub fn reserve_exact(&mut self, n: usize) {
        self.0.reserve_exact(n);
    }
    pub fn extend_from_slice(&mut self, more: &[u32]) {
        self.0.extend_from_slice(more);
    }
    pub fn into_vec(self) -> Vec<u32> {
        self.0
    }
}

impl std::ops::Deref for Indices {
    type Target = [u32];
    fn deref(&self) -> &[u32] {
        &self.0
    }
}

impl Index<Range<usize>> for Indices {
    type Output = [u32];
    fn index(&self, range: Range<usize>) -> &[u32] {
        note(Event::Sliced(range.start, range.end));
        &self.0[range]
    }
}

#[derive(Debug, Default, Clone, PartialEq)]
pub struct Mesh {
    pub positions: Vec<[f32; 3]>,
    pub normals: Vec<[f32; 3]>,
    pub indices: Indices,
    pub parts: Vec<MeshPart>,
}

impl Mesh {
    pub fn is_empty(&self) -> bool {
        self.indices.is_empty()
    }
}
