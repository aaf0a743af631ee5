//! Damaged lookups: a body broken in the ways of document 01's table, a peg or a place out of range, too few places, a list too short.

use super::model::{MOST_PLACE, find};
use crate::faults::{FAULTS, Fault, broken};
use compare::library::{Lookup, PLACE};
use driver::flat::{Flat, ROW};
use driver::random::Random;

/// A damaged lookup, the length of its list, and the number that it must be refused with.
pub struct Damaged {
    pub lookup: Lookup,
    pub list: usize,
    pub number: u32,
}

/// A number outside the range.
fn outside(r: &mut Random) -> i64 {
    let more = 1 + r.below(1 << 62) as i64;
    let beyond = *r.pick(&[1, 1, 1, 1 << 40, more, i64::MAX - MOST_PLACE]);
    *r.pick(&[MOST_PLACE + beyond, -MOST_PLACE - beyond, i64::MIN])
}

/// The rows that are failed, or else have no vertices, or all.
fn rows_to_place(body: &Flat, r: &mut Random) -> Vec<usize> {
    let rows: Vec<&[u32]> = body.rows.chunks_exact(ROW).collect();
    let column = *r.pick(&[None, Some(2), Some(3)]);
    let chosen = |k: &usize| column.is_none_or(|c: usize| (rows[*k][c] != 0) == (c == 2));
    (0..rows.len()).filter(chosen).collect()
}

/// One number of one row's place is out of range.
fn place_outside(lookup: &mut Lookup, r: &mut Random) -> Option<()> {
    let rows = rows_to_place(&lookup.body, r);
    let (first, last) = (*rows.first()?, *rows.last()?);
    let any = *r.pick(&rows);
    let row = *r.pick(&[first, last, any]);
    lookup.places[PLACE * row + r.size(0, PLACE - 1)] = outside(r);
    Some(())
}

/// A number of the last places is missing, or several are, or all.
fn places_short(lookup: &mut Lookup, r: &mut Random) -> Option<()> {
    let rows = lookup.body.rows.len() / ROW;
    let most = (PLACE * rows).checked_sub(1)?;
    let any = r.size(0, most);
    lookup.places.truncate((*r.pick(&[most, most, most - 1, most - 2, rows, 2 * rows, 0, any])).min(most));
    Some(())
}

/// What 65 is for, in one way; nothing where there is no row for it.
fn out_of_range(lookup: &mut Lookup, r: &mut Random) -> Option<()> {
    match r.below(3) {
        0 => {
            lookup.peg[r.size(0, 2)] = outside(r);
            Some(())
        }
        1 => place_outside(lookup, r),
        _ => places_short(lookup, r),
    }
}

/// No fault of a body that needs no work area, or up to two of different checks.
fn body_faults(r: &mut Random) -> Vec<&'static Fault> {
    let all: Vec<&Fault> = FAULTS.iter().filter(|fault| fault.number < 31).collect();
    let mut faults: Vec<&Fault> = (0..*r.pick(&[0, 0, 1, 2])).map(|_| *r.pick(&all)).collect();
    faults.dedup_by_key(|fault| fault.number);
    faults
}

/// A lookup damaged in one way or in several, the first of which decides; nothing if it has no place for one of them.
pub fn damaged(whole: &Lookup, r: &mut Random) -> Option<Damaged> {
    let tied = find(whole, usize::MAX).map_or(0, |bins| bins.len());
    let (mut lookup, faults) = (whole.clone(), body_faults(r));
    let (range, short) = (r.chance(50), r.chance(50) && tied > 0);
    if range {
        out_of_range(&mut lookup, r)?;
    }
    lookup.body = broken(&lookup.body, &faults, r)?.0;
    let first = faults.iter().map(|fault| fault.number).min();
    let number = first.or(range.then_some(65)).or(short.then_some(66))?;
    let list = if short { *r.pick(&[0, tied - 1]) } else { tied + r.size(0, 2) };
    assert_eq!(find(&lookup, list), Err(number), "the first check that fails decides");
    Some(Damaged { lookup, list, number })
}
