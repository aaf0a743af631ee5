//! Yard plans: where bins stand, as a text of nested groups and as a list.

use crate::body::BinId;
use crate::lent;
use crate::refusal::Refusal;

/// The most bins that a plan places.
pub const MOST_PLAN_ENTRIES: usize = 4_096;

/// How far an offset or a bin's place may be from 0 on each axis, in micrometres: 2^40.
pub const MOST_OFFSET: i64 = 1 << 40;

/// The most bytes of a bin's line, its LF included: [`lent::write_plan`] never refuses so many for each entry with
/// [`Refusal::Text`].
///
/// ```
/// use body_finisher::{write_plan, BinId, PlacedBin, MOST_BIN, MOST_OFFSET, MOST_PLAN_LINE};
///
/// let longest = PlacedBin { bin: BinId(MOST_BIN), place: [-MOST_OFFSET; 3] };
/// assert_eq!(write_plan(&[longest])?.len(), MOST_PLAN_LINE);
/// # Ok::<(), body_finisher::Refusal>(())
/// ```
pub const MOST_PLAN_LINE: usize = 57;

/// The fewest bytes of a bin's line.
const LEAST_PLAN_LINE: usize = b"(bin 0 0 0 0)\n".len();

/// A place in the yard: x, y and z in whole micrometres.
pub type Place = [i64; 3];

/// A bin, and where it stands.
#[derive(Debug, Clone, Copy, PartialEq, Eq, PartialOrd, Ord, Hash, Default)]
pub struct PlacedBin {
    pub bin: BinId,
    pub place: Place,
}

/// A placed bin as it is lent: four 64-bit numbers, which may be any.
#[derive(Debug, Clone, Copy, PartialEq, Eq, Hash, Default)]
#[repr(C)]
pub struct RawPlacedBin {
    pub bin: i64,
    pub place: Place,
}

impl RawPlacedBin {
    /// The bin and its place, of an entry that [`lent::read_plan`] wrote.
    pub fn decoded(self) -> PlacedBin {
        PlacedBin { bin: BinId(self.bin as u32), place: self.place }
    }
}

impl From<PlacedBin> for RawPlacedBin {
    fn from(placed: PlacedBin) -> RawPlacedBin {
        RawPlacedBin { bin: i64::from(placed.bin.0), place: placed.place }
    }
}

/// The bins that a plan places, in the order read, each at the sum of its own offset and those of the groups it stands in.
///
/// A plan's lines, each ending in LF, are `(group x y z`, `(bin n x y z)` and `)`. The first line that offends decides which refusal
/// comes: [`Line`](Refusal::Line), [`Depth`](Refusal::Depth), [`Place`](Refusal::Place) or [`Entries`](Refusal::Entries), on one line
/// in this order.
///
/// ```
/// use body_finisher::{read_plan, BinId, PlacedBin, Refusal};
///
/// let bins = read_plan(b"(bin 1 5 0 0)\n(group 100 0 0\n(bin 2 1 -2 3)\n)\n")?;
/// assert_eq!(bins, [PlacedBin { bin: BinId(1), place: [5, 0, 0] }, PlacedBin { bin: BinId(2), place: [101, -2, 3] }]);
/// assert_eq!(read_plan(b"(group 100 0 0\n"), Err(Refusal::Line));
/// assert_eq!(read_plan(b"")?, []);
/// # Ok::<(), Refusal>(())
/// ```
pub fn read_plan(text: &[u8]) -> Result<Vec<PlacedBin>, Refusal> {
    // No text has more bins than this, so that the list is never what is too short.
    let room = (text.len() / LEAST_PLAN_LINE).min(MOST_PLAN_ENTRIES);
    let mut list = vec![RawPlacedBin::default(); room];
    let entries = lent::read_plan(text, &mut list)?;
    Ok(list[..entries as usize].iter().map(|entry| entry.decoded()).collect())
}

/// A list of placed bins as a plan's text, a line `(bin n x y z)` for each; [`read_plan`] gives the same list of it.
///
/// The first entry that offends decides which refusal comes: [`Line`](Refusal::Line) for a bin above 65,535,
/// [`Place`](Refusal::Place), or [`Entries`](Refusal::Entries) for one beyond the 4,096th.
///
/// ```
/// use body_finisher::{read_plan, write_plan, BinId, PlacedBin};
///
/// let bins = [PlacedBin { bin: BinId(2), place: [101, -2, 3] }, PlacedBin { bin: BinId(2), place: [0; 3] }];
/// let text = write_plan(&bins)?;
/// assert_eq!(text, b"(bin 2 101 -2 3)\n(bin 2 0 0 0)\n");
/// assert_eq!(read_plan(&text)?, bins);
/// # Ok::<(), body_finisher::Refusal>(())
/// ```
pub fn write_plan(bins: &[PlacedBin]) -> Result<Vec<u8>, Refusal> {
    let list: Vec<RawPlacedBin> = bins.iter().map(|placed| RawPlacedBin::from(*placed)).collect();
    let mut text = vec![0; MOST_PLAN_LINE * bins.len().min(MOST_PLAN_ENTRIES)];
    let length = lent::write_plan(&list, &mut text)?;
    text.truncate(length as usize);
    Ok(text)
}
