//! The body finisher for Rust: the face patches of one body turned to agree on which side is outside, stitched where neighbours leave
//! cracks, and assembled into one mesh with its tables and edge counts. The work is done by the proved library `libcad_tess.a`; this
//! crate gives its calls Rust's types and sizes the slices.
//!
//! - [`Finisher`] finishes bodies one after another, with a work area that it keeps.
//! - [`Finisher::report`] adds a stitched body to a [`Page`] of counts over many bodies.
//! - [`lent`] has the same calls with every slice lent by the caller, without an allocation.
//! - [`read_plan`] and [`write_plan`] turn the text of a yard plan, which says where bins stand, into a list and back.
//! - [`nearest_bins`] says which of the bins that a plan places a probe peg is nearest to.
//! - [`face_at`] and [`face_indices`] read one face of a body, [`patch_volume`], [`farthest`] and [`escapes_body`] ask about one patch alone;
//!   [`steps`] has the float steps.
//!
//! ```
//! use body_finisher::{BinId, Body, Entry, FaceId, Finisher, MaterialId, Setting};
//!
//! let corners = [[0.0; 3], [1.0, 0.0, 0.0], [0.0, 1.0, 0.0], [0.0, 0.0, 1.0]];
//! let mut body = Body::default();
//! // A tetrahedron whose one row is wound inward.
//! body.push_patch(0, FaceId(1), BinId(0), &corners, &[[0.0, 0.0, 1.0]; 4], &[0, 1, 2, 0, 3, 1, 0, 2, 3, 1, 3, 2])?;
//! body.push_failure(0, FaceId(2), BinId(9), 40)?;
//!
//! let setting = Setting { default: Entry::from(MaterialId(5)), ..Setting::default() };
//! let done = Finisher::new().finish(body.view(), 0.001, &setting)?;
//! assert_eq!(done.counts.turned.turned, 1);
//! assert!(done.counts.assembled.closed);
//! assert_eq!(done.mesh.parts[0].material, MaterialId(5));
//! assert_eq!((done.mesh.failures[0].face, done.mesh.failures[0].bin), (FaceId(2), BinId(9)));
//! # Ok::<(), Box<dyn std::error::Error>>(())
//! ```

#![deny(unsafe_code)]
#![warn(missing_debug_implementations)]

mod answers;
mod body;
#[allow(unsafe_code)]
mod ffi;
mod finisher;
pub mod lent;
mod mesh;
mod peg;
mod plan;
mod refusal;
mod report;
pub mod steps;

pub use answers::{Assembled, Stitched, Turned};
pub use body::{work_words, BinId, Body, BodyMut, BodyOut, BodyRef, FaceId, Point, Row, RowError};
pub use finisher::{Counts, Finished, Finisher, MOST_BIN, MOST_INDICES, MOST_ROWS, MOST_VERTICES};
pub use lent::{escapes_body, face_at, face_indices, farthest, patch_volume};
pub use mesh::{Aabb, Entry, FaceFailure, FaceRange, Failure, MaterialId, Mesh, MeshOut, Part, RawFailure, Setting};
pub use peg::{nearest_bins, places_of, PlaceError, PEG_REACH};
pub use plan::{read_plan, write_plan, Place, PlacedBin, RawPlacedBin, MOST_OFFSET, MOST_PLAN_ENTRIES, MOST_PLAN_LINE};
pub use refusal::Refusal;
pub use report::{Page, Share, WoundFace, MOST_BODIES, MOST_PAGE_COUNT};
