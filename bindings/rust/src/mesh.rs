//! A mesh with its tables, and what assembling takes besides a body.

use crate::body::{BinId, FaceId, Point};

/// The number of a material.
#[derive(Debug, Clone, Copy, PartialEq, Eq, PartialOrd, Ord, Hash, Default)]
#[repr(transparent)]
pub struct MaterialId(pub u32);

/// An entry of the material list: none, or a material. It is a 64-bit word, 0 for none and n + 1 for material n, and words above 2^32
/// are refused with [`Refusal::Material`](crate::Refusal::Material).
///
/// ```
/// use body_finisher::{Entry, MaterialId};
///
/// assert_eq!(Entry::from(MaterialId(4)), Entry(5));
/// assert_eq!(Entry::from(None), Entry::NONE);
/// ```
#[derive(Debug, Clone, Copy, PartialEq, Eq, Hash, Default)]
#[repr(transparent)]
pub struct Entry(pub u64);

impl Entry {
    pub const NONE: Entry = Entry(0);
}

impl From<MaterialId> for Entry {
    fn from(material: MaterialId) -> Entry {
        Entry(u64::from(material.0) + 1)
    }
}

impl From<Option<MaterialId>> for Entry {
    fn from(material: Option<MaterialId>) -> Entry {
        material.map_or(Entry::NONE, Entry::from)
    }
}

/// A box: its lowest and its highest corner. It may be any numbers; if a minimum is above its maximum it is empty, and nothing escapes.
#[derive(Debug, Clone, Copy, PartialEq)]
pub struct Aabb {
    pub min: [f64; 3],
    pub max: [f64; 3],
}

impl Aabb {
    /// The box with nothing in it, which no patch escapes.
    pub const EMPTY: Aabb = Aabb { min: [f64::INFINITY; 3], max: [f64::NEG_INFINITY; 3] };
}

/// What assembling takes besides a body.
#[derive(Debug, Clone, Copy)]
pub struct Setting<'a> {
    pub bounds: Aabb,
    /// Entry k is that of face number k; a face beyond the list has the default.
    pub materials: &'a [Entry],
    /// The material of a face whose entry is none or missing; material 0 if this is none too.
    pub default: Entry,
}

impl Default for Setting<'_> {
    /// Nothing escapes, and all has material 0.
    fn default() -> Self {
        Setting { bounds: Aabb::EMPTY, materials: &[], default: Entry::NONE }
    }
}

/// The run of a mesh's indices that has one material.
#[derive(Debug, Clone, Copy, PartialEq, Eq, Hash, Default)]
#[repr(C)]
pub struct Part {
    pub material: MaterialId,
    pub start: u32,
    pub count: u32,
}

/// Where an accepted row's indices stand in the mesh: its first, and one past its last.
#[derive(Debug, Clone, Copy, PartialEq, Eq, Hash, Default)]
#[repr(C)]
pub struct FaceRange {
    pub face: FaceId,
    pub bin: BinId,
    pub first: u32,
    pub past: u32,
}

/// Why a row isn't in the mesh.
#[derive(Debug, Clone, Copy, PartialEq)]
pub enum Failure {
    /// Its patch has no triangles.
    Empty,
    /// It failed upstream, with this number.
    Upstream(u8),
    /// Its patch reaches further from the box's centre than the box spans.
    Escape { reach: f64, span: f64 },
}

/// A face that isn't in the mesh, its bin, and why.
#[derive(Debug, Clone, Copy, PartialEq)]
pub struct FaceFailure {
    pub face: FaceId,
    pub bin: BinId,
    pub failure: Failure,
}

/// A failure as it is written: face, bin, case, and the bits of reach and span.
#[derive(Debug, Clone, Copy, PartialEq, Eq, Hash, Default)]
#[repr(C)]
pub struct RawFailure {
    pub face: u64,
    pub bin: u64,
    pub case: u64,
    pub reach: u64,
    pub span: u64,
}

/// The case of an escape; 0 is empty, and a number between is upstream's.
const ESCAPE: u64 = 256;

impl RawFailure {
    /// The face, its bin and why it failed.
    pub fn decoded(self) -> FaceFailure {
        let failure = match self.case {
            0 => Failure::Empty,
            ESCAPE => Failure::Escape { reach: f64::from_bits(self.reach), span: f64::from_bits(self.span) },
            number => Failure::Upstream(number as u8),
        };
        FaceFailure { face: FaceId(self.face as u32), bin: BinId(self.bin as u32), failure }
    }
}

/// Slices that a mesh is written to; they may be longer than it. Parts, ranges and failures need as many elements as the body has rows.
#[derive(Debug)]
pub struct MeshOut<'a> {
    pub positions: &'a mut [Point],
    pub normals: &'a mut [Point],
    pub indices: &'a mut [u32],
    pub parts: &'a mut [Part],
    pub ranges: &'a mut [FaceRange],
    pub failures: &'a mut [RawFailure],
}

/// A mesh with lists of its own.
#[derive(Debug, Clone, PartialEq, Default)]
pub struct Mesh {
    pub positions: Vec<Point>,
    pub normals: Vec<Point>,
    pub indices: Vec<u32>,
    /// One run of indices a material, materials rising.
    pub parts: Vec<Part>,
    /// One for each accepted row, in row order.
    pub ranges: Vec<FaceRange>,
    /// One for each other row, in row order.
    pub failures: Vec<FaceFailure>,
}
