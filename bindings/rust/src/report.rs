//! A page over finished bodies, and the faces that are wound against a neighbour.

use crate::body::FaceId;

/// The most bodies of a page.
pub const MOST_BODIES: u64 = 4_096;

/// What no count of a page may pass for each of its bodies.
pub const MOST_PAGE_COUNT: u64 = 262_144;

/// A part of all faces as a reduced fraction: so many of so many, 1 of 1 where there is no face.
#[derive(Debug, Clone, Copy, PartialEq, Eq, Hash)]
pub struct Share {
    pub accepted: u64,
    pub faces: u64,
}

impl Default for Share {
    /// The share of no faces.
    fn default() -> Share {
        Share { accepted: 1, faces: 1 }
    }
}

/// One page over up to 4,096 bodies. The default is the empty page, from which the first body is reported;
/// [`Finisher::report`](crate::Finisher::report) gives the page with a body added. Faces are rows.
///
/// ```
/// use body_finisher::{Page, Share};
///
/// let empty = Page::default();
/// assert_eq!((empty.bodies, empty.accepted, empty.failed, empty.share), (0, 0, 0, Share { accepted: 1, faces: 1 }));
/// ```
#[derive(Debug, Clone, Copy, PartialEq, Eq, Hash, Default)]
pub struct Page {
    /// Bodies reported.
    pub bodies: u64,
    /// Their faces that are in the mesh.
    pub accepted: u64,
    /// All other faces, which the three kinds below part.
    pub failed: u64,
    /// The meshes' triangles.
    pub triangles: u64,
    /// The meshes' vertices, those that no triangle uses too.
    pub vertices: u64,
    /// Faces without triangles.
    pub empty: u64,
    /// Faces that failed upstream.
    pub upstream: u64,
    /// Faces that reach further from the middle of their body's box than the box spans.
    pub escaped: u64,
    /// Entries of the face list so far.
    pub listed: u64,
    /// The accepted share of all faces. It is made of the sums, and not read of a page that is handed over.
    pub share: Share,
}

/// An entry of the face list: a face number of a body that is wound against a neighbour, and how often that was met.
#[derive(Debug, Clone, Copy, PartialEq, Eq, Hash, Default)]
#[repr(C)]
pub struct WoundFace {
    pub face: FaceId,
    pub count: u32,
}
