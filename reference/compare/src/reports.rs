//! Reports of bodies held to a plain model of the page, and the winding audit among them to the unchanged Rust's own.

mod bodies;
mod damage;
mod held;
mod limits;
mod pages;
mod sequences;
mod tally;
pub mod wrong;

pub use tally::Tally;

use crate::work::Work;
use bodies::Made;
use cad_ir::math::Aabb;
use compare::library::Report;
use driver::flat::{Flat, ROW};
use driver::generate::{KINDS, Kind, SEAMS, ZEROS};
use driver::page::{ENTRY, Page, wound};
use driver::random::Random;

/// How often a way to damage a report is tried, since not every body has a place for each.
const DAMAGES_TRIED: usize = 8;

/// Damaged reports of a body.
const DAMAGES: usize = 3;

/// Of a hundred bodies so many are reported in a row as well.
const IN_A_ROW: u64 = 25;

/// Reports a body with a face list of so many numbers and a work area that is long enough.
fn ask(asked: &Report, numbers: usize, r: &mut Random, tally: &mut Tally) -> Result<(), String> {
    let words = asked.body.words() + r.size(0, 5);
    let answer = held::report(asked, &pages::former(numbers, r), Work::new(words, r.next()))?;
    tally.answered(answer);
    Ok(())
}

/// A body added to a page with a list of exactly enough room, and to another with a list of another length; and damaged.
fn body_held(made: &Made, r: &mut Random, tally: &mut Tally) -> Result<(), String> {
    tally.bodies += 1;
    let new = wound(&made.body).len();
    for exact in [true, false] {
        let asked = Report { body: made.body.clone(), reference: made.reference, page: pages::within(r) };
        let needed = ENTRY * (asked.page.listed as usize + new);
        let other = [needed + 1, needed + r.size(2, 9), needed.saturating_sub(1), needed.saturating_sub(ENTRY), needed / ENTRY, 0, 1];
        ask(&asked, if exact { needed } else { *r.pick(&other) }, r, tally)?;
    }
    for _ in 0..DAMAGES {
        let Some(damaged) = (0..DAMAGES_TRIED).find_map(|_| damage::damaged(made, new, r)) else { continue };
        tally.damaged += 1;
        let former = pages::former(damaged.numbers, r);
        let answer = held::report(&damaged.asked, &former, Work::new(damaged.words, r.next()));
        tally.answered(answer.map_err(|what| format!("to be refused with {}: {what}", damaged.number))?);
    }
    Ok(())
}

/// The reports that go with a seed, of small bodies and of some of a size; then some of them in a row. Or what differs.
pub fn compared(seed: u64, size: usize, tally: &mut Tally) -> Result<(), String> {
    let (r, mut yard) = (&mut Random::new(seed ^ 0x4e07_ace5), Vec::new());
    for size in [0, size] {
        for kind in KINDS.iter().chain(SEAMS).chain(ZEROS) {
            for made in bodies::of_kind(kind, seed, size, r, tally) {
                let named = |what| format!("kind {}, seed {seed}, size {size}, {}: {what}", kind.name, made.name);
                body_held(&made, r, tally).map_err(named)?;
                if r.chance(IN_A_ROW) {
                    yard.push(made);
                }
            }
        }
    }
    sequences::held(&yard, r, tally).map_err(|what| format!("seed {seed}, in a row: {what}"))
}

/// A large body of a kind added to a page with room for all its rows, or what differs.
pub fn large(kind: &Kind, seed: u64, triangles: usize, tally: &mut Tally) -> Result<(), String> {
    let r = &mut Random::new(seed ^ 0x4e07_1a49);
    let Some(Made { body, reference, .. }) = bodies::large(kind, seed, triangles, tally) else { return Ok(()) };
    tally.bodies += 1;
    let asked = Report { page: pages::within(r), reference, body };
    let room = asked.page.listed as usize + asked.body.rows.len() / ROW;
    ask(&asked, ENTRY * room, r, tally).map_err(|what| format!("kind {}, seed {seed}, size {triangles}: {what}", kind.name))
}

/// A body that the library finished, added to a page with the work area that it was finished with; or what differs.
pub fn of_finished(body: Flat, reference: Aabb, work: &mut Work, r: &mut Random) -> Result<(), String> {
    let asked = Report { page: pages::within(r), reference, body };
    let room = ENTRY * (asked.page.listed as usize + wound(&asked.body).len()) + r.size(0, 3);
    held::with(&asked, &pages::former(room, r), work).map(|_| ())
}

/// What is wrong with the refusal of a body that a check up to 31 refuses, whatever the page and the face list are.
pub fn refused(before: &Flat, words: usize, number: u32, r: &mut Random) -> Option<String> {
    let page = if r.chance(50) { pages::beyond(r) } else { pages::within(r) };
    let asked = Report { body: before.clone(), reference: Aabb::EMPTY, page };
    let former = pages::former(r.size(0, 9), r);
    match held::report(&asked, &former, Work::new(words, r.next())) {
        Ok(answer) => (answer.refusal != number).then(|| format!("report: refused with {}, not {number}", answer.refusal)),
        Err(what) => Some(what),
    }
}

/// The reports at the limits, the answers of which are known, and a page of as many bodies as there may be.
pub fn at_the_limits(tally: &mut Tally) -> Result<(), String> {
    let r = &mut Random::new(3);
    for case in limits::cases() {
        tally.by_hand += 1;
        ask(&case.asked, case.numbers, r, tally).map_err(|what| format!("{}: {what}", case.name))?;
    }
    sequences::most_bodies(r)
}

/// Whether the reports of some seeds, and those at the limits, show a fault that is planted.
pub fn shows(first: u64, last: u64) -> bool {
    let tally = &mut Tally::default();
    at_the_limits(tally).is_err() || (first..=last).any(|seed| compared(seed, 0, tally).is_err())
}

/// A page that a call may be given, besides a body without rows.
fn nothing(page: Page) -> Report {
    Report { body: Flat::default(), reference: Aabb::EMPTY, page }
}
