//! Bodies with 0.0 and −0.0 side by side, of which closed is held to the model in `driver::closed`: some with answers by hand, and those
//! of the generator's own kinds.

mod cases;
pub mod wrong;

use crate::assembling::{self, Tally};
use crate::stitching::Held;
use crate::whole;
use driver::check::check;
use driver::generate::{ZEROS, body_of};

/// The bodies with answers by hand, assembled as they are and as the last of the three calls; how many, or what differs.
pub fn by_hand(tally: &mut Tally) -> Result<u64, String> {
    let cases = cases::cases();
    for (seed, case) in cases.iter().enumerate() {
        let named = |what| format!("{}: {what}", case.name);
        tally.add(&assembling::by_hand(&case.sheet, case.counts, case.closed, seed as u64).map_err(named)?);
        whole::compared(&case.sheet, &Held::NoSag, seed as u64).map_err(named)?;
    }
    Ok(cases.len() as u64)
}

/// The small bodies of a seed assembled, or what differs.
fn assembled(seed: u64, tally: &mut Tally) -> Result<(), String> {
    for kind in ZEROS {
        let sheet = body_of(kind, seed, 0).filter(|sheet| check(sheet).is_ok());
        sheet.map_or(Ok(()), |sheet| assembling::compared(&sheet, seed).map(|more| tally.add(&more)))?;
    }
    Ok(())
}

/// Whether the bodies by hand, or the small ones of some seeds, show a fault that is planted.
pub fn shows(first: u64, last: u64) -> bool {
    let tally = &mut Tally::default();
    by_hand(tally).is_err() || (first..=last).any(|seed| assembled(seed, tally).is_err())
}
