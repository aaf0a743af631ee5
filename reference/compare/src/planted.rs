//! Faults planted behind the library's calls, to see that the comparison finds them: an answer's field raised by one, or a bit changed
//! in a slice's first or last element, before it or behind it, or a bin in a table that a call writes.

use crate::fences::{Place, Spoil};
use crate::plantable::plantable;
use crate::work::Work;
use compare::library::{Assembled, FAILURE, Judged, Measured, NearestBins, PlanRead, PlanWritten, RANGE, Reported, Stitched, Turned};
use driver::flat::ROW;

/// What is changed: field k of the answer, slice k, or the work area.
#[derive(Debug, Clone, Copy, PartialEq)]
pub enum What {
    Field(usize),
    Slice(usize, Place),
    Work(Place),
    Bin(Table, Wrong),
}

/// A table with bins that a call writes: its slice, how many numbers an entry takes, and which of them are the bin and the face.
#[derive(Debug, Clone, Copy, PartialEq)]
pub struct Table {
    slice: usize,
    width: usize,
    bin: usize,
    face: usize,
}

/// A bin gone wrong: the first entry's is 0 or its face, or the first two entries have each other's.
#[derive(Debug, Clone, Copy, PartialEq)]
pub enum Wrong {
    Dropped,
    Face,
    Exchanged,
}

/// The tables with bins, by the calls that write them.
const BINS: [(&str, Table); 3] = [
    ("stitch", Table { slice: 4, width: ROW, bin: 5, face: 1 }),
    ("assemble", Table { slice: 9, width: RANGE, bin: 1, face: 0 }),
    ("assemble", Table { slice: 10, width: FAILURE, bin: 1, face: 0 }),
];

/// A fault behind one call, where it is done or where it is refused.
#[derive(Debug, Clone, Copy, PartialEq)]
pub struct Plant {
    pub call: &'static str,
    pub refused: bool,
    pub what: What,
}

impl Plant {
    /// Whether it lies behind a call that reads or writes plans.
    pub fn of_plans(&self) -> bool {
        self.call.ends_with("_plan")
    }

    /// Whether it lies behind the call that looks for a peg's bins.
    pub fn of_pegs(&self) -> bool {
        self.call == "nearest_bins"
    }

    /// Whether it lies behind the call that adds a body to a page.
    pub fn of_reports(&self) -> bool {
        self.call == "report"
    }
}

/// The calls, with how many fields their answers and how many slices besides the work area they have, and whether they have one.
const CALLS: [(&str, usize, usize, bool); 10] = [
    ("turn", 3, 4, true),
    ("stitch", 4, 8, true),
    ("assemble", 10, 11, true),
    ("volume", 2, 3, false),
    ("farthest", 2, 3, false),
    ("escapes", 2, 3, false),
    ("read_plan", 2, 2, false),
    ("write_plan", 2, 2, false),
    ("nearest_bins", 2, 6, false),
    ("report", 12, 5, true),
];

plantable!(Plant);

/// Every fault there is.
pub fn all() -> Vec<Plant> {
    let places = [Place::Front, Place::Back, Place::Before, Place::Behind];
    let mut faults = Vec::new();
    for (call, fields, slices, work) in CALLS {
        let of_slices = (0..slices).flat_map(|k| places.map(|place| What::Slice(k, place)));
        let of_work = places.map(What::Work).into_iter().filter(|_| work);
        let whats: Vec<What> = (0..fields).map(What::Field).chain(of_slices).chain(of_work).collect();
        faults.extend([false, true].iter().flat_map(|refused| whats.iter().map(|what| Plant { call, refused: *refused, what: *what })));
    }
    let wrongs = [Wrong::Dropped, Wrong::Face, Wrong::Exchanged];
    let of_table = |(call, table)| wrongs.map(|wrong| Plant { call, refused: false, what: What::Bin(table, wrong) });
    faults.extend(BINS.into_iter().flat_map(of_table));
    faults
}

/// An answer whose fields can be raised.
pub trait Answer {
    fn refusal(&self) -> u32;
    fn raise(&mut self, field: usize);
    /// How many entries a call that is done wrote to the table in slice k, the body's table having so many.
    fn entries(&self, k: usize, rows: usize) -> usize;
}

/// The fields of an answer that can be raised, the refusal first, each with what is added to it.
macro_rules! raised {
    ($answer:ty, $entries:expr; $($field:ident + $more:expr),+) => {
        impl Answer for $answer {
            fn refusal(&self) -> u32 {
                self.refusal
            }

            fn raise(&mut self, field: usize) {
                let raises: &[fn(&mut $answer)] = &[$(|answer| answer.$field += $more),+];
                raises[field](self);
            }

            fn entries(&self, k: usize, rows: usize) -> usize {
                let entries: fn(&$answer, usize, usize) -> usize = $entries;
                entries(self, k, rows)
            }
        }
    };
}

raised!(Turned, |_, _, _| 0; refusal + 1, turned + 1, against + 1);
raised!(Stitched, |_, _, rows| rows; refusal + 1, vertices + 1, indices + 1, splits + 1);
raised!(Assembled, |answer, k, _| if k == 9 { answer.ranges as usize } else { answer.failures as usize }; refusal + 1, vertices + 1, indices + 1, parts + 1, ranges + 1, failures + 1, edges + 1, opens + 1, overs + 1, closed + 1);
raised!(Measured, |_, _, _| 0; refusal + 1, value + 1.0);
raised!(Judged, |_, _, _| 0; refusal + 1, verdict + 1);
raised!(PlanRead, |_, _, _| 0; refusal + 1, entries + 1);
raised!(PlanWritten, |_, _, _| 0; refusal + 1, length + 1);
raised!(NearestBins, |_, _, _| 0; refusal + 1, bins + 1);
raised!(Reported, |_, _, _| 0; refusal + 1, bodies + 1, accepted + 1, failed + 1, triangles + 1, vertices + 1, empty + 1, upstream + 1,
    escaped + 1, listed + 1, share_accepted + 1, share_faces + 1);

/// Change what the planted fault changes, if it is one of this call.
pub fn spoil(call: &str, answer: &mut dyn Answer, slices: &mut [&mut dyn Spoil], work: Option<&mut Work>) {
    let Some(fault) = planted() else { return };
    if fault.call != call || fault.refused != (answer.refusal() != 0) {
        return;
    }
    match (fault.what, work) {
        (What::Field(k), _) => answer.raise(k),
        (What::Slice(k, place), _) => slices[k].spoil(place),
        (What::Work(place), Some(work)) => work.spoil(place),
        (What::Work(_), None) => {}
        (What::Bin(table, wrong), _) => {
            let entries = answer.entries(table.slice, slices[0].length() / ROW);
            spoil_bin(&table, wrong, entries, slices[table.slice]);
        }
    }
}

/// Change a bin of a table of so many entries, if it has as many as that takes.
fn spoil_bin(table: &Table, wrong: Wrong, entries: usize, slice: &mut dyn Spoil) {
    match wrong {
        Wrong::Dropped if entries > 0 => slice.set(table.bin, None),
        Wrong::Face if entries > 0 => slice.set(table.bin, Some(table.face)),
        Wrong::Exchanged if entries > 1 => slice.exchange(table.bin, table.width + table.bin),
        _ => {}
    }
}
