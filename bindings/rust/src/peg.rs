//! Probe pegs: which bin one stands at, among the bodies that a plan places.

use std::collections::HashMap;
use std::error::Error;
use std::fmt;

use crate::body::{BinId, BodyRef};
use crate::finisher::MOST_ROWS;
use crate::lent;
use crate::plan::{Place, PlacedBin};
use crate::refusal::Refusal;

/// How far from a peg a vertex may be on each axis to be near it, in micrometres.
pub const PEG_REACH: i64 = 5_000;

/// The bins that a peg is nearest to, exactly: ascending, each once, all at one distance; none if no vertex is near.
///
/// Bodies that a plan places are laid together as one body ([`Body::append`](crate::Body::append)), with a place for each row: the row
/// is drawn near its own bin's origin, in millimetres, and moved by its place ([`places_of`] has them of a plan). A vertex, used by a
/// triangle or not, is taken to the nearest whole micrometre, halves away from zero, and its row's place is added then; one that is more
/// than [`PEG_REACH`] from the peg on any axis is ignored. The smallest sum of the squares of the three differences wins. Distances are
/// to vertices, never to the walls between them.
///
/// After the checks of a body comes [`Peg`](Refusal::Peg), for a peg or a place out of range and for fewer places than rows.
///
/// ```
/// use body_finisher::{nearest_bins, places_of, read_plan, BinId, Body, FaceId};
///
/// // A bin's wall, 3 m wide and 6 m high, drawn once: bin 1 and bin 2 have it four kilometres out, a tenth of a millimetre apart.
/// let corners = [[0.0; 3], [3000.0, 0.0, 0.0], [3000.0, 0.0, 6000.0], [0.0, 0.0, 6000.0]];
/// let mut body = Body::default();
/// for bin in [1, 2] {
///     body.push_patch(0, FaceId(bin), BinId(bin), &corners, &[[0.0, 1.0, 0.0]; 4], &[0, 1, 2, 0, 2, 3])?;
/// }
/// let plan = read_plan(b"(bin 1 0 4000000000 0)\n(bin 2 0 4000000100 0)\n")?;
/// let places = places_of(body.view(), &plan)?;
///
/// assert_eq!(nearest_bins(body.view(), &places, [0, 4_000_000_030, 0])?, [BinId(1)]);
/// assert_eq!(nearest_bins(body.view(), &places, [0, 4_000_000_070, 0])?, [BinId(2)]);
/// assert_eq!(nearest_bins(body.view(), &places, [0, 4_000_000_050, 0])?, [BinId(1), BinId(2)]);
/// assert_eq!(nearest_bins(body.view(), &places, [1_000_000, 4_000_000_050, 0])?, []);
/// # Ok::<(), Box<dyn std::error::Error>>(())
/// ```
pub fn nearest_bins(body: BodyRef<'_>, places: &[Place], peg: Place) -> Result<Vec<BinId>, Refusal> {
    // A row has one bin, so that the list is never what is too short; more rows than the most are refused before it is looked at.
    let mut bins = vec![BinId::default(); body.rows.len().min(MOST_ROWS)];
    let count = lent::nearest_bins(body, places, peg, &mut bins)?;
    bins.truncate(count as usize);
    Ok(bins)
}

/// The place of each row of a body, failed ones too: that of its bin in a plan's list. The first row whose bin isn't placed exactly once
/// is an error; bins that no row has may be placed as often as the plan likes.
///
/// ```
/// use body_finisher::{places_of, BinId, Body, FaceId, PlaceError, PlacedBin};
///
/// let mut body = Body::default();
/// body.push_failure(0, FaceId(7), BinId(2), 40)?;
/// body.push_failure(0, FaceId(8), BinId(1), 40)?;
/// let mut plan = vec![PlacedBin { bin: BinId(1), place: [5, 0, 0] }, PlacedBin { bin: BinId(2), place: [0, 0, -5] }];
/// assert_eq!(places_of(body.view(), &plan), Ok(vec![[0, 0, -5], [5, 0, 0]]));
///
/// plan.push(plan[0]);
/// assert_eq!(places_of(body.view(), &plan), Err(PlaceError::Several { bin: BinId(1) }));
/// assert_eq!(places_of(body.view(), &plan[..1]), Err(PlaceError::Missing { bin: BinId(2) }));
/// # Ok::<(), body_finisher::RowError>(())
/// ```
pub fn places_of(body: BodyRef<'_>, plan: &[PlacedBin]) -> Result<Vec<Place>, PlaceError> {
    // None for a bin that the plan places more than once.
    let mut only = HashMap::new();
    for placed in plan {
        only.entry(placed.bin).and_modify(|place| *place = None).or_insert(Some(placed.place));
    }
    let place_of = |bin| only.get(&bin).ok_or(PlaceError::Missing { bin })?.ok_or(PlaceError::Several { bin });
    body.rows.iter().map(|row| place_of(row.bin)).collect()
}

/// Why a plan doesn't say where a bin stands.
#[derive(Debug, Clone, Copy, PartialEq, Eq, Hash)]
pub enum PlaceError {
    /// The plan doesn't place it.
    Missing { bin: BinId },
    /// The plan places it more than once.
    Several { bin: BinId },
}

impl fmt::Display for PlaceError {
    fn fmt(&self, f: &mut fmt::Formatter<'_>) -> fmt::Result {
        match self {
            PlaceError::Missing { bin } => write!(f, "bin {}: the plan doesn't place it", bin.0),
            PlaceError::Several { bin } => write!(f, "bin {}: the plan places it more than once", bin.0),
        }
    }
}

impl Error for PlaceError {}
