//! Bodies finished one after another, with slices that are kept from body to body.

use crate::answers::{Assembled, Stitched, Turned};
use crate::body::{grow, work_words, Body, BodyMut, BodyRef};
use crate::lent;
use crate::mesh::{Aabb, Mesh, MeshOut, RawFailure, Setting};
use crate::refusal::Refusal;
use crate::report::{Page, WoundFace};

/// The most rows of a body.
pub const MOST_ROWS: usize = 4_096;
/// The most vertices of a body, and of a stitched one.
pub const MOST_VERTICES: usize = 262_144;
/// The most indices of a body, and of a stitched one.
pub const MOST_INDICES: usize = 786_432;

/// The largest bin number.
pub const MOST_BIN: u32 = 65_535;

/// New vertices that a stitched body gets room for at first, besides one for every eight of its own.
const SOME_VERTICES: usize = 64;

/// What the three calls answered.
#[derive(Debug, Clone, Copy, PartialEq, Eq, Hash, Default)]
pub struct Counts {
    pub turned: Turned,
    pub stitched: Stitched,
    pub assembled: Assembled,
}

/// A finished body.
#[derive(Debug, Clone, PartialEq, Default)]
pub struct Finished {
    pub counts: Counts,
    pub mesh: Mesh,
}

/// Turns, stitches and assembles bodies. It keeps a work area, as large as the largest body so far needed: to make it anew for a large
/// body costs about as much time as turning it. The calls on one finisher don't depend on one another.
///
/// ```
/// use body_finisher::{BinId, Body, FaceId, Finisher, Setting};
///
/// // Two triangles that disagree on which side is up.
/// let up = [[0.0, 0.0, 1.0]; 3];
/// let mut body = Body::default();
/// body.push_patch(0, FaceId(7), BinId(0), &[[0.0, 0.0, 0.0], [10.0, 0.0, 0.0], [0.0, 10.0, 0.0]], &up, &[0, 1, 2])?;
/// body.push_patch(0, FaceId(8), BinId(0), &[[10.0, 0.0, 0.0], [0.0, 10.0, 0.0], [10.0, 10.0, 0.0]], &up, &[0, 1, 2])?;
///
/// let mut finisher = Finisher::new();
/// let done = finisher.finish(body.view(), 0.25, &Setting::default())?;
/// assert_eq!(done.counts.turned.turned, 1);
/// assert_eq!((done.counts.assembled.edges, done.counts.assembled.opens), (5, 4));
/// assert_eq!(done.mesh.indices, [0, 1, 2, 3, 5, 4]);
/// # Ok::<(), Box<dyn std::error::Error>>(())
/// ```
#[derive(Debug, Default)]
pub struct Finisher {
    work: Vec<u64>,
    turned: Body,
    stitched: Body,
    failures: Vec<RawFailure>,
}

impl Finisher {
    /// One without a work area yet.
    pub fn new() -> Finisher {
        Finisher::default()
    }

    /// One with a work area for bodies of so many vertices, indices and rows, so that none is made while they are finished. Count them as
    /// they are once stitched, when they may have more vertices, and three indices for each of these: [`work_words`] says why.
    pub fn with_room(vertices: usize, indices: usize, rows: usize) -> Finisher {
        Finisher { work: vec![0; work_words(vertices, indices, rows)], ..Finisher::default() }
    }

    /// The 64-bit words of the work area.
    pub fn work_words(&self) -> usize {
        self.work.len()
    }

    /// Room for a body; no more than the limits allow, since a body past them is refused anyway.
    fn make_room(&mut self, body: BodyRef<'_>) {
        grow(&mut self.work, body.work_words().min(work_words(MOST_VERTICES, MOST_INDICES, MOST_ROWS)));
    }

    /// Turns a body where it stands. A refused body is as it was.
    ///
    /// ```
    /// use body_finisher::{BinId, Body, FaceId, Finisher, Refusal};
    ///
    /// let mut body = Body::default();
    /// body.push_patch(0, FaceId(0), BinId(0), &[[0.0; 3]; 3], &[[0.0; 3]; 3], &[0, 1, 3])?;
    /// assert_eq!(Finisher::new().turn(body.view_mut()), Err(Refusal::Index));
    /// # Ok::<(), body_finisher::RowError>(())
    /// ```
    pub fn turn(&mut self, body: BodyMut<'_>) -> Result<Turned, Refusal> {
        self.make_room(body.view());
        lent::turn(body, &mut self.work)
    }

    /// Stitches a body, which should be a turned one, into another, whose former content is lost. If the body is refused, the other is as it was.
    /// A body inside the limits that is made to take long takes minutes: see [`lent::stitch`].
    ///
    /// ```
    /// use body_finisher::{BinId, Body, FaceId, Finisher};
    ///
    /// // A triangle, and two that meet in the middle of its first edge.
    /// let up = [[0.0, 0.0, 1.0]; 6];
    /// let (o, x, y, m, d) = ([0.0; 3], [10.0, 0.0, 0.0], [0.0, 10.0, 0.0], [5.0, 0.0, 0.0], [0.0, -10.0, 0.0]);
    /// let mut body = Body::default();
    /// body.push_patch(0, FaceId(0), BinId(0), &[o, x, y], &up[..3], &[0, 1, 2])?;
    /// body.push_patch(0, FaceId(1), BinId(0), &[o, d, m, m, d, x], &up, &[0, 1, 2, 3, 4, 5])?;
    ///
    /// let mut stitched = Body::default();
    /// let done = Finisher::new().stitch(body.view(), 0.25, &mut stitched)?;
    /// assert_eq!(done.splits, 1);
    /// assert_eq!(stitched.indices[..6], [0, 3, 1, 0, 1, 2]);
    /// # Ok::<(), Box<dyn std::error::Error>>(())
    /// ```
    pub fn stitch(&mut self, body: BodyRef<'_>, sag: f64, out: &mut Body) -> Result<Stitched, Refusal> {
        self.make_room(body);
        let before = out.lengths();
        let rows = body.rows.len().min(MOST_ROWS);
        let mut more = SOME_VERTICES + body.positions.len() / 8;
        loop {
            let vertices = (body.positions.len() + more).min(MOST_VERTICES);
            let indices = (body.indices.len() + 3 * more).min(MOST_INDICES);
            out.grow(rows, vertices, indices);
            match lent::stitch(body, sag, out.out(), &mut self.work) {
                Ok(answer) => {
                    let (vertices, indices) = (answer.vertices as usize, answer.indices as usize);
                    out.truncate([rows, vertices, vertices, indices]);
                    return Ok(answer);
                }
                // With the most vertices and indices there are, 33 comes instead.
                Err(Refusal::Output) if vertices < MOST_VERTICES || indices < MOST_INDICES => more = (4 * more).min(MOST_VERTICES),
                Err(refusal) => {
                    out.truncate(before);
                    return Err(refusal);
                }
            }
        }
    }

    /// Assembles a body, which should be a stitched one, into a mesh, whose former content is lost. If the body is refused, the mesh is as it was.
    pub fn assemble(&mut self, body: BodyRef<'_>, setting: &Setting<'_>, mesh: &mut Mesh) -> Result<Assembled, Refusal> {
        self.make_room(body);
        let rows = body.rows.len().min(MOST_ROWS);
        let (vertices, indices) = (body.positions.len().min(MOST_VERTICES), body.indices.len().min(MOST_INDICES));
        let before = [mesh.positions.len(), mesh.normals.len(), mesh.indices.len(), mesh.parts.len(), mesh.ranges.len()];
        grow(&mut mesh.positions, vertices);
        grow(&mut mesh.normals, vertices);
        grow(&mut mesh.indices, indices);
        grow(&mut mesh.parts, rows);
        grow(&mut mesh.ranges, rows);
        grow(&mut self.failures, rows);
        let out = MeshOut {
            positions: &mut mesh.positions,
            normals: &mut mesh.normals,
            indices: &mut mesh.indices,
            parts: &mut mesh.parts,
            ranges: &mut mesh.ranges,
            failures: &mut self.failures,
        };
        let answer = lent::assemble(body, setting, out, &mut self.work);
        let [positions, normals, indices, parts, ranges] = answer.map_or(before, |a| {
            let vertices = a.vertices as usize;
            [vertices, vertices, a.indices as usize, a.parts as usize, a.ranges as usize]
        });
        mesh.positions.truncate(positions);
        mesh.normals.truncate(normals);
        mesh.indices.truncate(indices);
        mesh.parts.truncate(parts);
        mesh.ranges.truncate(ranges);
        if let Ok(a) = answer {
            mesh.failures.clear();
            mesh.failures.extend(self.failures[..a.failures as usize].iter().map(|failure| failure.decoded()));
        }
        answer
    }

    /// Adds a body, which should be a stitched one, to a page over bodies: the answer is the page with that body. Its faces that are wound
    /// against a neighbour follow in the list from `page.listed` on, highest count first, then by number; the list grows for them. If the
    /// body is refused, the list is as it was. With the same list from body to body it is as long as the page's `listed`; a shorter one is
    /// refused with [`FaceList`](Refusal::FaceList) where it can't hold the page's entries.
    ///
    /// A face number's count: over the whole body, shells ignored, each later use of an edge that runs the same way as its first adds 1 to
    /// the face numbers of both rows, 2 if they are one number.
    ///
    /// ```
    /// use body_finisher::{Aabb, BinId, Body, FaceId, Finisher, Page, Share, WoundFace};
    ///
    /// // Two triangles with one edge that both run along the same way, in two shells, so that turning leaves them; and a failed face.
    /// let (o, x, y, z) = ([0.0; 3], [10.0, 0.0, 0.0], [0.0, 10.0, 0.0], [0.0, 0.0, 10.0]);
    /// let (mut body, mut stitched) = (Body::default(), Body::default());
    /// body.push_patch(0, FaceId(4), BinId(0), &[o, x, y], &[[0.0, 0.0, 1.0]; 3], &[0, 1, 2])?;
    /// body.push_patch(1, FaceId(3), BinId(0), &[o, x, z], &[[0.0, 1.0, 0.0]; 3], &[0, 1, 2])?;
    /// body.push_failure(0, FaceId(5), BinId(0), 40)?;
    ///
    /// let (mut finisher, mut faces, mut page) = (Finisher::new(), Vec::new(), Page::default());
    /// for _ in 0..2 {
    ///     finisher.turn(body.view_mut())?;
    ///     finisher.stitch(body.view(), 0.05, &mut stitched)?;
    ///     page = finisher.report(stitched.view(), Aabb::EMPTY, page, &mut faces)?;
    /// }
    /// assert_eq!((page.bodies, page.accepted, page.failed, page.upstream), (2, 4, 2, 2));
    /// assert_eq!(page.share, Share { accepted: 2, faces: 3 });
    /// let wound = |face| WoundFace { face: FaceId(face), count: 1 };
    /// assert_eq!(faces, [wound(3), wound(4), wound(3), wound(4)]);
    /// # Ok::<(), Box<dyn std::error::Error>>(())
    /// ```
    pub fn report(&mut self, body: BodyRef<'_>, bounds: Aabb, page: Page, faces: &mut Vec<WoundFace>) -> Result<Page, Refusal> {
        self.make_room(body);
        let before = faces.len();
        // A row has one face number, so that a list that holds the page's entries is never what is too short.
        grow(faces, before + body.rows.len().min(MOST_ROWS));
        let answer = lent::report(body, bounds, page, faces, &mut self.work);
        faces.truncate(answer.map_or(before, |page| before.max(page.listed as usize)));
        answer
    }

    /// Turns, stitches and assembles a body, which stays as it is, into a mesh, whose former content is lost. If the body is refused,
    /// the mesh is as it was.
    pub fn finish_into(&mut self, body: BodyRef<'_>, sag: f64, setting: &Setting<'_>, mesh: &mut Mesh) -> Result<Counts, Refusal> {
        let (mut own, mut second) = (std::mem::take(&mut self.turned), std::mem::take(&mut self.stitched));
        own.copy_from(body);
        let counts = (|| {
            let turned = self.turn(own.view_mut())?;
            let stitched = self.stitch(own.view(), sag, &mut second)?;
            let assembled = self.assemble(second.view(), setting, mesh)?;
            Ok(Counts { turned, stitched, assembled })
        })();
        (self.turned, self.stitched) = (own, second);
        counts
    }

    /// Turns, stitches and assembles a body, which stays as it is.
    pub fn finish(&mut self, body: BodyRef<'_>, sag: f64, setting: &Setting<'_>) -> Result<Finished, Refusal> {
        let mut mesh = Mesh::default();
        let counts = self.finish_into(body, sag, setting, &mut mesh)?;
        Ok(Finished { counts, mesh })
    }
}
