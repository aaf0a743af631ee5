//! Why a call is refused.

use std::error::Error;
use std::fmt;

/// Why a call is refused: the first check that it fails, each over the whole body before the next; of a plan the first line or entry
/// that offends decides. A refused call leaves bodies and outputs as they were.
///
/// ```
/// use body_finisher::Refusal;
///
/// assert_eq!(Refusal::WorkArea.number(), 31);
/// assert_eq!(Refusal::from_number(31), Some(Refusal::WorkArea));
/// assert_eq!(Refusal::NotFinite.to_string(), "refused with 23: a position or normal isn't finite");
/// ```
#[derive(Debug, Clone, Copy, PartialEq, Eq, Hash)]
pub enum Refusal {
    /// 11: more than 4,096 rows. (In C also a table that isn't whole rows.)
    Table,
    /// 12: an outcome is above 255, or a failed row has a count other than 0.
    Outcome,
    /// 13: more than 262,144 vertices or 786,432 indices.
    Limit,
    /// 14: positions, normals or indices aren't as many as the rows say.
    Lengths,
    /// 15: a row, failed or not, has a bin above 65,535.
    Bin,
    /// 21: a row's index count isn't a multiple of 3.
    Triangles,
    /// 22: an index isn't below its row's vertex count.
    Index,
    /// 23: a position or normal isn't finite.
    NotFinite,
    /// 24: a position, of a vertex that no triangle uses too, has a cell that clamps: see [`steps::cell`](crate::steps::cell).
    Clamped,
    /// 31: the work area is too short for the body handed to that call; assembling and reporting are handed the stitched one.
    WorkArea,
    /// 33: the stitched body passes the limits of 13.
    StitchedLimit,
    /// 32: an output slice is shorter than the stitched body needs.
    Output,
    /// 42: a material entry or the default is above 2^32.
    Material,
    /// 41: a mesh slice is shorter than the accepted patches need, or a table has fewer rows than the body.
    Mesh,
    /// 61: a line of a plan is malformed, or its end is missing; of a list, a bin is below 0 or above 65,535.
    Line,
    /// 62: a seventeenth group of a plan is open at once.
    Depth,
    /// 63: a bin's place is beyond plus or minus 2^40 on an axis.
    Place,
    /// 64: a bin beyond the 4,096th, or beyond the list.
    Entries,
    /// 65: a peg, or the place of a row, failed or not, is beyond plus or minus 2^40 on an axis, or there are fewer places than rows.
    Peg,
    /// 66: the bin list is shorter than the bins that share the smallest distance from a peg.
    BinList,
    /// 67: a page that a body is added to has 4,096 bodies or more, or a count above 262,144 for each of its bodies.
    Page,
    /// 68: the slice is shorter than the text that is written to it.
    Text,
    /// 69: the face list has no room for the page's entries and the new ones.
    FaceList,
}

impl Refusal {
    /// Every refusal, in the order in which the checks go; those of a peg come straight after 24, those of a page straight after 31.
    pub const ALL: [Refusal; 23] = [
        Refusal::Table,
        Refusal::Outcome,
        Refusal::Limit,
        Refusal::Lengths,
        Refusal::Bin,
        Refusal::Triangles,
        Refusal::Index,
        Refusal::NotFinite,
        Refusal::Clamped,
        Refusal::WorkArea,
        Refusal::StitchedLimit,
        Refusal::Output,
        Refusal::Material,
        Refusal::Mesh,
        Refusal::Line,
        Refusal::Depth,
        Refusal::Place,
        Refusal::Entries,
        Refusal::Peg,
        Refusal::BinList,
        Refusal::Page,
        Refusal::Text,
        Refusal::FaceList,
    ];

    /// The number that the C call gives.
    pub const fn number(self) -> u32 {
        match self {
            Refusal::Table => 11,
            Refusal::Outcome => 12,
            Refusal::Limit => 13,
            Refusal::Lengths => 14,
            Refusal::Bin => 15,
            Refusal::Triangles => 21,
            Refusal::Index => 22,
            Refusal::NotFinite => 23,
            Refusal::Clamped => 24,
            Refusal::WorkArea => 31,
            Refusal::StitchedLimit => 33,
            Refusal::Output => 32,
            Refusal::Material => 42,
            Refusal::Mesh => 41,
            Refusal::Line => 61,
            Refusal::Depth => 62,
            Refusal::Place => 63,
            Refusal::Entries => 64,
            Refusal::Peg => 65,
            Refusal::BinList => 66,
            Refusal::Page => 67,
            Refusal::Text => 68,
            Refusal::FaceList => 69,
        }
    }

    /// The refusal with a number, if it is one.
    pub fn from_number(number: u32) -> Option<Refusal> {
        Refusal::ALL.into_iter().find(|refusal| refusal.number() == number)
    }

    /// What is wrong, in words.
    pub const fn reason(self) -> &'static str {
        match self {
            Refusal::Table => "the row table isn't whole rows, or has more than 4,096",
            Refusal::Outcome => "an outcome is above 255, or a failed row has a count other than 0",
            Refusal::Limit => "there are more than 262,144 vertices or 786,432 indices",
            Refusal::Lengths => "positions or normals aren't one a vertex, or indices aren't as many as the rows say",
            Refusal::Bin => "a bin is above 65,535",
            Refusal::Triangles => "an index count isn't a multiple of 3",
            Refusal::Index => "an index isn't below its row's vertex count",
            Refusal::NotFinite => "a position or normal isn't finite",
            Refusal::Clamped => "a position's cell clamps: a coordinate is beyond plus or minus 9,223,372,013,568",
            Refusal::WorkArea => {
                "the work area has fewer than 16 × indices + 16 × rows + 4 × vertices 64-bit words, of the body handed to that call"
            }
            Refusal::StitchedLimit => "the stitched body has more than 262,144 vertices or 786,432 indices",
            Refusal::Output => "an output slice is shorter than the stitched body needs",
            Refusal::Material => "a material entry or the default is above 2^32",
            Refusal::Mesh => "a mesh slice is shorter than the accepted patches need, or a table has fewer rows than the body",
            Refusal::Line => "a line of the plan is malformed or its end is missing, or a bin isn't from 0 to 65,535",
            Refusal::Depth => "a seventeenth group is open at once",
            Refusal::Place => "a bin's place is beyond plus or minus 2^40 on an axis",
            Refusal::Entries => "there is a bin beyond the 4,096th, or beyond the list",
            Refusal::Peg => "the peg or a row's place is beyond plus or minus 2^40 on an axis, or there are fewer places than rows",
            Refusal::BinList => "the bin list is shorter than the bins that share the smallest distance",
            Refusal::Page => "the page has 4,096 bodies or more, or a count above 262,144 times its bodies",
            Refusal::Text => "the slice is shorter than the text",
            Refusal::FaceList => "the face list is shorter than the page's entries and the new ones",
        }
    }
}

impl fmt::Display for Refusal {
    fn fmt(&self, f: &mut fmt::Formatter<'_>) -> fmt::Result {
        write!(f, "refused with {}: {}", self.number(), self.reason())
    }
}

impl Error for Refusal {}
