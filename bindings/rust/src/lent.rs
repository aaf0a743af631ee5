//! The calls with every slice lent, as C has them: nothing is allocated.
//!
//! One work area serves all four calls if it is sized for the slices that [`stitch`] writes to: [`assemble`] and [`report`] are handed the
//! stitched body, which may be larger than the one before and is never larger than they are.
//!
//! ```
//! use body_finisher::{lent, work_words, BinId, Body, BodyOut, FaceId, Row};
//!
//! let mut body = Body::default();
//! body.push_patch(0, FaceId(0), BinId(0), &[[0.0; 3], [1.0, 0.0, 0.0], [0.0, 1.0, 0.0]], &[[0.0, 0.0, 1.0]; 3], &[0, 1, 2])?;
//!
//! // Room for a stitched body of 100 rows, 1,000 vertices and 3,000 indices, and the work area for it.
//! let (mut rows, mut indices) = (vec![Row::default(); 100], vec![0; 3_000]);
//! let (mut positions, mut normals) = (vec![[0.0; 3]; 1_000], vec![[0.0; 3]; 1_000]);
//! let mut work = vec![0; work_words(1_000, 3_000, 100)];
//! assert_eq!(lent::turn(body.view_mut(), &mut work)?.turned, 0);
//! let out = BodyOut { rows: &mut rows, positions: &mut positions, normals: &mut normals, indices: &mut indices };
//! assert_eq!(lent::stitch(body.view(), 0.05, out, &mut work)?.vertices, 3);
//! # Ok::<(), Box<dyn std::error::Error>>(())
//! ```

use crate::answers::{Assembled, Stitched, Turned};
use crate::body::{BinId, BodyMut, BodyOut, BodyRef, FaceId, Point, Row};
use crate::ffi;
use crate::mesh::{Aabb, MeshOut, Setting};
use crate::plan::{Place, RawPlacedBin};
use crate::refusal::Refusal;
use crate::report::{Page, WoundFace};

/// Turns the rows of a body so that neighbours of one shell agree on which side is outside: corners 1 and 2 of a turned row's triangles
/// are swapped and its normals negated, where they stand. The first [`work_words`](crate::work_words) words of the work area come back
/// zero, unless it is refused with 31 or a check before.
pub fn turn(body: BodyMut<'_>, work: &mut [u64]) -> Result<Turned, Refusal> {
    ffi::turn(body, work)
}

/// Stitches a body, which should be a turned one, into second slices. Points within the sag of an open edge split its triangle; a sag that
/// isn't above 0 splits nothing. What stands behind the written part stays as it was. A body inside the limits that is made to take long takes
/// minutes: include/cad_tess.h says at `cad_stitch` what the time goes with.
pub fn stitch(body: BodyRef<'_>, sag: f64, out: BodyOut<'_>, work: &mut [u64]) -> Result<Stitched, Refusal> {
    ffi::stitch(body, sag, out, work)
}

/// Assembles a body, which should be a stitched one, into one mesh with its tables. What stands behind the written part stays as it was.
/// The work area must be enough for the body handed over: see [`work_words`](crate::work_words).
pub fn assemble(body: BodyRef<'_>, setting: &Setting<'_>, out: MeshOut<'_>, work: &mut [u64]) -> Result<Assembled, Refusal> {
    ffi::assemble(body, setting, out, work)
}

/// Adds a body, which should be a stitched one, to a page, and answers the page with it. The faces that are wound against a neighbour go
/// into the list from `page.listed` on; what stands before and behind them stays as it was, and after a refusal all of it. The list must
/// have room for the page's entries even if none is new. The work area must be enough for the body handed over.
///
/// ```
/// use body_finisher::{lent, work_words, Aabb, BinId, Body, FaceId, Page, Refusal, WoundFace};
///
/// // A triangle laid twice: its three edges run the same way on both rows.
/// let (corners, up) = ([[0.0; 3], [10.0, 0.0, 0.0], [0.0, 10.0, 0.0]], [[0.0, 0.0, 1.0]; 3]);
/// let mut body = Body::default();
/// body.push_patch(0, FaceId(8), BinId(0), &corners, &up, &[0, 1, 2])?;
/// body.push_patch(0, FaceId(7), BinId(0), &corners, &up, &[0, 1, 2])?;
///
/// let (mut faces, mut work) = ([WoundFace { face: FaceId(9), count: 9 }; 3], vec![0; work_words(6, 6, 2)]);
/// let (view, empty) = (body.view(), Page::default());
/// assert_eq!(lent::report(view, Aabb::EMPTY, empty, &mut faces[..1], &mut work), Err(Refusal::FaceList));
/// let page = lent::report(view, Aabb::EMPTY, empty, &mut faces, &mut work)?;
/// assert_eq!((page.bodies, page.accepted, page.triangles, page.vertices, page.listed), (1, 2, 2, 6, 2));
/// assert_eq!(faces.map(|f| (f.face.0, f.count)), [(7, 3), (8, 3), (9, 9)]);
/// # Ok::<(), Box<dyn std::error::Error>>(())
/// ```
pub fn report(body: BodyRef<'_>, bounds: Aabb, page: Page, faces: &mut [WoundFace], work: &mut [u64]) -> Result<Page, Refusal> {
    ffi::report(body, bounds, page, faces, work)
}

/// Reads a plan's text: its bins go to the front of the list in the order read, and the answer is how many there are. The list has room
/// for as many as it is long, but never for more than 4,096. What stands behind them stays as it was, and after a refusal all of it.
///
/// ```
/// use body_finisher::{lent, RawPlacedBin, Refusal};
///
/// let (mut list, former) = ([RawPlacedBin { bin: 9, place: [9; 3] }; 2], RawPlacedBin { bin: 9, place: [9; 3] });
/// assert_eq!(lent::read_plan(b"(group 0 0 7\n(bin 3 1 -2 0)\n)\n", &mut list)?, 1);
/// assert_eq!(list, [RawPlacedBin { bin: 3, place: [1, -2, 7] }, former]);
/// assert_eq!(lent::read_plan(b"(bin 3 1 -2 0)\n", &mut []), Err(Refusal::Entries));
/// # Ok::<(), Refusal>(())
/// ```
pub fn read_plan(text: &[u8], list: &mut [RawPlacedBin]) -> Result<u64, Refusal> {
    ffi::read_plan(text, list)
}

/// Writes a list as a plan's text to the front of `out`, and answers its length in bytes. What stands behind it stays as it was, and
/// after a refusal all of it.
///
/// ```
/// use body_finisher::{lent, RawPlacedBin, Refusal};
///
/// let (list, mut out) = ([RawPlacedBin { bin: 3, place: [1, -2, 0] }], [b'.'; 17]);
/// assert_eq!(lent::write_plan(&list, &mut out[..14]), Err(Refusal::Text));
/// assert_eq!(lent::write_plan(&list, &mut out)?, 15);
/// assert_eq!(&out, b"(bin 3 1 -2 0)\n..");
/// # Ok::<(), Refusal>(())
/// ```
pub fn write_plan(list: &[RawPlacedBin], out: &mut [u8]) -> Result<u64, Refusal> {
    ffi::write_plan(list, out)
}

/// The bins that a peg is nearest to go to the front of `bins`, ascending, each once, and the answer is how many there are; see
/// [`nearest_bins`](crate::nearest_bins). Places beyond the last row's are not looked at. As many bins as the body has rows are always
/// room enough. What stands behind the bins stays as it was, and after a refusal all of it.
///
/// ```
/// use body_finisher::{lent, BinId, Body, FaceId, Refusal};
///
/// let (corners, up) = ([[0.0; 3], [10.0, 0.0, 0.0], [0.0, 10.0, 0.0]], [[0.0, 0.0, 1.0]; 3]);
/// let mut body = Body::default();
/// body.push_patch(0, FaceId(0), BinId(8), &corners, &up, &[0, 1, 2])?;
/// body.push_patch(1, FaceId(1), BinId(7), &corners, &up, &[0, 1, 2])?;
///
/// let (places, mut bins) = ([[0, 0, 0], [100, 0, 0]], [BinId(9); 3]);
/// assert_eq!(lent::nearest_bins(body.view(), &places, [50, 0, 0], &mut bins[..1]), Err(Refusal::BinList));
/// assert_eq!(lent::nearest_bins(body.view(), &places, [50, 0, 0], &mut bins), Ok(2));
/// assert_eq!(bins, [BinId(7), BinId(8), BinId(9)]);
/// assert_eq!(lent::nearest_bins(body.view(), &places, [-5_001, 0, 0], &mut []), Ok(0));
/// # Ok::<(), Box<dyn std::error::Error>>(())
/// ```
pub fn nearest_bins(body: BodyRef<'_>, places: &[Place], peg: Place, bins: &mut [BinId]) -> Result<u32, Refusal> {
    ffi::nearest_bins(body, places, peg, bins)
}

/// The face of row k of a table, or face 0 past its end.
///
/// ```
/// use body_finisher::{face_at, FaceId, Row};
///
/// let rows = [Row { face: FaceId(7), ..Row::default() }];
/// assert_eq!((face_at(&rows, 0), face_at(&rows, 1)), (FaceId(7), FaceId(0)));
/// ```
pub fn face_at(rows: &[Row], k: usize) -> FaceId {
    ffi::face_at(rows, k)
}

/// Row k's indices after stitching, copied to the front of `out` as far as it has room; the answer is how many there are. They are a
/// stretch of the body's own indices if the row came through unchanged, and of the stitched ones if it was stitched; past the end there
/// are none. The stitched rows and indices are what [`stitch`] left, and may be longer than what it wrote.
///
/// ```
/// use body_finisher::{face_indices, BinId, Body, FaceId, Finisher};
///
/// // A triangle, and two that meet in the middle of its first edge.
/// let (o, x, y, d, m) = ([0.0; 3], [10.0, 0.0, 0.0], [0.0, 10.0, 0.0], [0.0, -10.0, 0.0], [5.0, 0.0, 0.0]);
/// let (mut body, mut stitched) = (Body::default(), Body::default());
/// body.push_patch(0, FaceId(0), BinId(0), &[o, x, y], &[[0.0; 3]; 3], &[0, 1, 2])?;
/// body.push_patch(0, FaceId(1), BinId(0), &[o, d, m, m, d, x], &[[0.0; 3]; 6], &[0, 1, 2, 3, 4, 5])?;
/// Finisher::new().stitch(body.view(), 0.25, &mut stitched)?;
///
/// let (before, after, mut out) = (body.view(), stitched.view(), [9; 8]);
/// assert_eq!(face_indices(before.rows, before.indices, after.rows, after.indices, 0, &mut out), 6);
/// assert_eq!(out, [0, 3, 1, 0, 1, 2, 9, 9]);
/// # Ok::<(), Box<dyn std::error::Error>>(())
/// ```
pub fn face_indices(rows: &[Row], indices: &[u32], stitched_rows: &[Row], stitched_indices: &[u32], k: usize, out: &mut [u32]) -> u64 {
    ffi::face_indices(rows, indices, stitched_rows, stitched_indices, k, out)
}

/// The volume between a patch and the origin; as if turned, where `flip` says so.
///
/// ```
/// let corners = [[0.0; 3], [1.0, 0.0, 0.0], [0.0, 1.0, 0.0], [0.0, 0.0, 1.0]];
/// let tetrahedron = [0, 2, 1, 0, 1, 3, 0, 3, 2, 1, 2, 3];
/// let volume = body_finisher::patch_volume(&corners, &[[0.0; 3]; 4], &tetrahedron, false)?;
/// assert_eq!(volume.to_bits(), 0x3FC5555555555555);
/// # Ok::<(), body_finisher::Refusal>(())
/// ```
pub fn patch_volume(positions: &[Point], normals: &[Point], indices: &[u32], flip: bool) -> Result<f64, Refusal> {
    ffi::patch_volume(positions, normals, indices, flip)
}

/// How far a patch's farthest vertex is from a box's centre.
pub fn farthest(positions: &[Point], normals: &[Point], indices: &[u32], bounds: Aabb) -> Result<f64, Refusal> {
    ffi::farthest(positions, normals, indices, bounds)
}

/// Whether a patch escapes a box: the box isn't empty, its diagonal is above 0, and the farthest vertex is farther than that.
///
/// ```
/// use body_finisher::{escapes_body, Aabb};
///
/// let bounds = Aabb { min: [0.0; 3], max: [6.0, 8.0, 0.0] };
/// assert!(!escapes_body(&[[13.0, 4.0, 0.0]], &[[0.0; 3]], &[], bounds)?);
/// assert!(escapes_body(&[[13.000001, 4.0, 0.0]], &[[0.0; 3]], &[], bounds)?);
/// # Ok::<(), body_finisher::Refusal>(())
/// ```
pub fn escapes_body(positions: &[Point], normals: &[Point], indices: &[u32], bounds: Aabb) -> Result<bool, Refusal> {
    ffi::escapes_body(positions, normals, indices, bounds)
}
