//! A body: its row table and its patches, owned or borrowed.

use std::error::Error;
use std::fmt;

/// The number of a face.
#[derive(Debug, Clone, Copy, PartialEq, Eq, PartialOrd, Ord, Hash, Default)]
#[repr(transparent)]
pub struct FaceId(pub u32);

/// The number of a bin, 0 to 65,535: whose face it is. It goes through turning, stitching and assembling as it is and changes nothing
/// else, and is what [`nearest_bins`](crate::nearest_bins) answers with.
#[derive(Debug, Clone, Copy, PartialEq, Eq, PartialOrd, Ord, Hash, Default)]
#[repr(transparent)]
pub struct BinId(pub u32);

/// An entry of the row table: a patch with its counts, or a failure from upstream.
#[derive(Debug, Clone, Copy, PartialEq, Eq, Hash, Default)]
#[repr(C)]
pub struct Row {
    pub shell: u32,
    pub face: FaceId,
    /// 0 for a patch, 1 to 255 for a failure from upstream, whose row has no vertices and no indices.
    pub outcome: u32,
    pub vertices: u32,
    pub indices: u32,
    pub bin: BinId,
}

/// A vertex's position or normal.
pub type Point = [f32; 3];

/// A body that is only read: the row table, and the patches one after another without gaps.
#[derive(Debug, Clone, Copy, Default)]
pub struct BodyRef<'a> {
    pub rows: &'a [Row],
    pub positions: &'a [Point],
    pub normals: &'a [Point],
    /// Three a triangle, counted from 0 within their row's vertices.
    pub indices: &'a [u32],
}

impl BodyRef<'_> {
    /// The 64-bit words of work area that this body needs, its slices being as long as its rows say. Once stitched it may need more:
    /// see [`work_words`].
    pub fn work_words(&self) -> usize {
        work_words(self.positions.len(), self.indices.len(), self.rows.len())
    }

    /// A copy.
    pub fn to_owned(&self) -> Body {
        let mut body = Body::default();
        body.copy_from(*self);
        body
    }
}

/// A body that is turned where it stands.
#[derive(Debug)]
pub struct BodyMut<'a> {
    pub rows: &'a [Row],
    pub positions: &'a [Point],
    pub normals: &'a mut [Point],
    pub indices: &'a mut [u32],
}

impl BodyMut<'_> {
    /// The same body, only read.
    pub fn view(&self) -> BodyRef<'_> {
        BodyRef { rows: self.rows, positions: self.positions, normals: self.normals, indices: self.indices }
    }
}

/// Slices that a stitched body is written to; they may be longer than it.
#[derive(Debug)]
pub struct BodyOut<'a> {
    pub rows: &'a mut [Row],
    pub positions: &'a mut [Point],
    pub normals: &'a mut [Point],
    pub indices: &'a mut [u32],
}

/// The 64-bit words of work area that a call needs for a body of so many vertices, indices and rows: the body that is handed to that
/// call. Assembling and reporting are handed the stitched body, which has a vertex and three indices more for each vertex that stitching adds; an area
/// sized for the body before is refused with [`Refusal::WorkArea`](crate::Refusal::WorkArea) after one split. So count the slices that
/// stitching writes to: no stitched body is larger than they are.
///
/// ```
/// assert_eq!(body_finisher::work_words(8, 36, 6), 16 * 36 + 16 * 6 + 4 * 8);
/// ```
pub const fn work_words(vertices: usize, indices: usize, rows: usize) -> usize {
    16 * indices + 16 * rows + 4 * vertices
}

/// A body with lists of its own.
///
/// ```
/// use body_finisher::{BinId, Body, FaceId};
///
/// let up = [[0.0, 0.0, 1.0]; 3];
/// let mut body = Body::default();
/// body.push_patch(0, FaceId(7), BinId(0), &[[0.0, 0.0, 0.0], [10.0, 0.0, 0.0], [0.0, 10.0, 0.0]], &up, &[0, 1, 2])?;
/// body.push_failure(0, FaceId(8), BinId(0), 3)?;
/// assert_eq!(body.rows.len(), 2);
/// assert_eq!(body.rows[0].vertices, 3);
/// # Ok::<(), body_finisher::RowError>(())
/// ```
#[derive(Debug, Clone, PartialEq, Default)]
pub struct Body {
    pub rows: Vec<Row>,
    pub positions: Vec<Point>,
    pub normals: Vec<Point>,
    pub indices: Vec<u32>,
}

impl Body {
    /// A row more, with its patch, which has one normal a vertex. Whether its indices and its size fit is for the calls to say.
    ///
    /// Other normals are an error, and the body stays as it is: they would be taken for those of the next row's vertices.
    ///
    /// ```
    /// use body_finisher::{BinId, Body, FaceId, RowError};
    ///
    /// let mut body = Body::default();
    /// let short = body.push_patch(0, FaceId(7), BinId(0), &[[0.0; 3]; 3], &[[0.0, 0.0, 1.0]; 2], &[0, 1, 2]);
    /// assert_eq!(short, Err(RowError::Normals { face: FaceId(7), vertices: 3, normals: 2 }));
    /// assert_eq!(body, Body::default());
    /// ```
    pub fn push_patch(
        &mut self,
        shell: u32,
        face: FaceId,
        bin: BinId,
        positions: &[Point],
        normals: &[Point],
        indices: &[u32],
    ) -> Result<(), RowError> {
        if normals.len() != positions.len() {
            return Err(RowError::Normals { face, vertices: positions.len(), normals: normals.len() });
        }
        // A count that no row can hold is past every limit, and so is the largest that one can.
        let count = |length: usize| u32::try_from(length).unwrap_or(u32::MAX);
        self.rows.push(Row { shell, face, outcome: 0, vertices: count(positions.len()), indices: count(indices.len()), bin });
        self.positions.extend_from_slice(positions);
        self.normals.extend_from_slice(normals);
        self.indices.extend_from_slice(indices);
        Ok(())
    }

    /// A row more, which failed upstream with a number from 1 to 255; its type keeps larger ones out.
    ///
    /// The number 0 is an error, and the body stays as it is: a row with that outcome is a patch, here an empty one.
    ///
    /// ```
    /// use body_finisher::{BinId, Body, FaceId, RowError};
    ///
    /// let mut body = Body::default();
    /// assert_eq!(body.push_failure(0, FaceId(8), BinId(0), 0), Err(RowError::NoFailure { face: FaceId(8) }));
    /// assert_eq!(body, Body::default());
    /// ```
    pub fn push_failure(&mut self, shell: u32, face: FaceId, bin: BinId, number: u8) -> Result<(), RowError> {
        if number == 0 {
            return Err(RowError::NoFailure { face });
        }
        self.rows.push(Row { shell, face, outcome: u32::from(number), bin, ..Row::default() });
        Ok(())
    }

    /// This body, only read.
    pub fn view(&self) -> BodyRef<'_> {
        BodyRef { rows: &self.rows, positions: &self.positions, normals: &self.normals, indices: &self.indices }
    }

    /// This body, to be turned.
    pub fn view_mut(&mut self) -> BodyMut<'_> {
        BodyMut { rows: &self.rows, positions: &self.positions, normals: &mut self.normals, indices: &mut self.indices }
    }

    /// Become a copy of another body, in the lists that are there.
    pub fn copy_from(&mut self, other: BodyRef<'_>) {
        self.clear();
        self.append(other);
    }

    /// The rows of another body behind its own, as bodies are laid together for [`nearest_bins`](crate::nearest_bins). Indices count
    /// within their row, so they stay as they are; so do shells and faces.
    ///
    /// ```
    /// use body_finisher::{BinId, Body, FaceId};
    ///
    /// let (mut first, mut second) = (Body::default(), Body::default());
    /// first.push_patch(0, FaceId(7), BinId(1), &[[0.0; 3]; 3], &[[0.0; 3]; 3], &[0, 1, 2])?;
    /// second.push_failure(0, FaceId(8), BinId(2), 3)?;
    /// first.append(second.view());
    /// assert_eq!((first.rows.len(), first.rows[1].bin, first.positions.len()), (2, BinId(2), 3));
    /// # Ok::<(), body_finisher::RowError>(())
    /// ```
    pub fn append(&mut self, other: BodyRef<'_>) {
        self.rows.extend_from_slice(other.rows);
        self.positions.extend_from_slice(other.positions);
        self.normals.extend_from_slice(other.normals);
        self.indices.extend_from_slice(other.indices);
    }

    /// Without a row; the lists keep their memory.
    pub fn clear(&mut self) {
        self.rows.clear();
        self.positions.clear();
        self.normals.clear();
        self.indices.clear();
    }

    pub(crate) fn lengths(&self) -> [usize; 4] {
        [self.rows.len(), self.positions.len(), self.normals.len(), self.indices.len()]
    }

    /// Each list longer, if it is shorter than this.
    pub(crate) fn grow(&mut self, rows: usize, vertices: usize, indices: usize) {
        grow(&mut self.rows, rows);
        grow(&mut self.positions, vertices);
        grow(&mut self.normals, vertices);
        grow(&mut self.indices, indices);
    }

    pub(crate) fn truncate(&mut self, [rows, positions, normals, indices]: [usize; 4]) {
        self.rows.truncate(rows);
        self.positions.truncate(positions);
        self.normals.truncate(normals);
        self.indices.truncate(indices);
    }

    pub(crate) fn out(&mut self) -> BodyOut<'_> {
        BodyOut { rows: &mut self.rows, positions: &mut self.positions, normals: &mut self.normals, indices: &mut self.indices }
    }
}

/// Why a row can't be added to a body.
#[derive(Debug, Clone, Copy, PartialEq, Eq, Hash)]
pub enum RowError {
    /// A patch hasn't one normal a vertex.
    Normals { face: FaceId, vertices: usize, normals: usize },
    /// A failure has the number 0, which is that of a patch.
    NoFailure { face: FaceId },
}

impl fmt::Display for RowError {
    fn fmt(&self, f: &mut fmt::Formatter<'_>) -> fmt::Result {
        match self {
            RowError::Normals { face, vertices, normals } => {
                write!(f, "face {}: a patch of {vertices} vertices can't have {normals} normals", face.0)
            }
            RowError::NoFailure { face } => write!(f, "face {}: a failure's number is 1 to 255, not 0", face.0),
        }
    }
}

impl Error for RowError {}

/// A list longer, if it is shorter than this.
pub(crate) fn grow<T: Clone + Default>(list: &mut Vec<T>, length: usize) {
    if list.len() < length {
        list.resize(length, T::default());
    }
}
