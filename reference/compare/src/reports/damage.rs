//! Damaged reports: a body broken in the ways of document 01's table, a page beyond its limits, a face list that doesn't fit.

use super::bodies::Made;
use super::pages;
use crate::faults::{FAULTS, Fault, broken};
use compare::library::Report;
use driver::page::{ENTRY, reported};
use driver::random::Random;

/// A damaged report, the length of its list, the words of its work area, and the number that it must be refused with.
pub struct Damaged {
    pub asked: Report,
    pub numbers: usize,
    pub words: usize,
    pub number: u32,
}

/// No fault of a body, or up to two of different checks; often one of the last two checks, which come straight before the page's.
fn body_faults(r: &mut Random) -> Vec<&'static Fault> {
    let late: Vec<&Fault> = FAULTS.iter().filter(|fault| fault.number >= 24).collect();
    let all: Vec<&Fault> = FAULTS.iter().collect();
    let of = if r.chance(30) { &late } else { &all };
    let mut faults: Vec<&Fault> = (0..*r.pick(&[0, 0, 1, 1, 2])).map(|_| *r.pick(of)).collect();
    faults.dedup_by_key(|fault| fault.number);
    faults
}

/// A list that is too short for so many entries; an odd number more than a shorter one holds is still too short.
fn short(needed: usize, r: &mut Random) -> usize {
    let most = ENTRY * needed - 1;
    *r.pick(&[most, most, most - 1, needed.min(most), 0])
}

/// A report damaged in one way or in several, the first of which decides; nothing if there is no place for one of them.
pub fn damaged(made: &Made, new: usize, r: &mut Random) -> Option<Damaged> {
    let (faults, beyond, tight) = (body_faults(r), r.chance(40), r.chance(50));
    let page = if beyond { pages::beyond(r) } else { pages::within(r) };
    let needed = page.listed.saturating_add(new as u64);
    let numbers = if tight && needed > 0 { short(needed.min(100) as usize, r) } else { ENTRY * needed.min(100) as usize + r.size(0, 3) };
    let (body, words) = broken(&made.body, &faults, r)?;
    let first = faults.iter().map(|fault| fault.number).min();
    let fits = needed <= (numbers / ENTRY) as u64;
    let number = first.or(beyond.then_some(67)).or((!fits).then_some(69))?;
    let asked = Report { body, reference: made.reference, page };
    let refused = reported(&asked.body, &asked.reference, &asked.page, numbers, words);
    assert_eq!(refused, Err(number), "the first check that fails decides");
    Some(Damaged { asked, numbers, words, number })
}
