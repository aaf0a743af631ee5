//! What the three calls answer when they are done.

/// What turning found.
#[derive(Debug, Clone, Copy, PartialEq, Eq, Hash, Default)]
pub struct Turned {
    /// Rows turned.
    pub turned: u32,
    /// How often a pair of rows that contradicts the sides chosen was met, once from each end; 0 if all agree.
    pub against: u64,
}

/// The stitched body's size, and what stitching found.
#[derive(Debug, Clone, Copy, PartialEq, Eq, Hash, Default)]
pub struct Stitched {
    pub vertices: u32,
    pub indices: u32,
    /// Points that split a triangle.
    pub splits: u64,
}

/// The mesh's size, the lengths of its tables, and its edges.
#[derive(Debug, Clone, Copy, PartialEq, Eq, Hash, Default)]
pub struct Assembled {
    pub vertices: u32,
    pub indices: u32,
    pub parts: u32,
    pub ranges: u32,
    pub failures: u32,
    /// Edges of the mesh, whose points are the same if their bits agree: 0.0 and −0.0 are two.
    pub edges: u64,
    /// Edges used by one triangle.
    pub opens: u64,
    /// Edges used by more than two.
    pub overs: u64,
    /// Whether no edge is open and none is over where 0.0 and −0.0 are one point: so it may be true beside `opens` above 0, or false where
    /// `opens` and `overs` are 0. It is true of a mesh without triangles too, as of a body whose rows all failed: ask `indices` whether there
    /// is anything that is closed.
    pub closed: bool,
}
