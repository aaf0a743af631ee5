//! One lookup held to the model: its answer, the whole list, and all that it may not touch.

use super::model;
use crate::lent;
use compare::library::{Lookup, NearestBins};

/// Looks for a peg's bins with a list of former numbers; the answer, or what differs.
pub fn find(lookup: &Lookup, former: &[u32]) -> Result<NearestBins, String> {
    let (mut list, mut wanted) = (former.to_vec(), former.to_vec());
    let answer = lent::nearest_bins(lookup, &mut list)?;
    let expected = match model::find(lookup, former.len()) {
        Ok(bins) => {
            wanted[..bins.len()].copy_from_slice(&bins);
            NearestBins { refusal: 0, bins: bins.len() as u32 }
        }
        Err(refusal) => NearestBins { refusal, bins: 0 },
    };
    if answer != expected {
        return Err(format!("with a list of {} numbers it answers {answer:?}, not {expected:?}", former.len()));
    }
    match (0..wanted.len()).find(|k| list[*k] != wanted[*k]) {
        Some(k) => Err(format!("with a list of {} numbers, number {k} is {}, not {}", former.len(), list[k], wanted[k])),
        None => Ok(answer),
    }
}
