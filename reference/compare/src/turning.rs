//! Turning against the unchanged Rust's, and its refusals.

use crate::lent;
use crate::source_bodies::{flat_of, unlike};
use crate::work::Work;
use cad_tess::face::probe;
use compare::library::Turned;
use driver::check::refusal;
use driver::finish::faces_of;
use driver::flat::Flat;
use driver::random::Random;
use driver::sheet::Sheet;

fn named(what: String) -> String {
    format!("turn: {what}")
}

/// A body as the Rust leaves it, and the two counts.
fn turned_by_source(sheet: &Sheet) -> (Flat, usize, usize) {
    let mut faces = faces_of(sheet);
    let (turned, against) = probe::orient_shell(&mut faces);
    (flat_of(&faces, sheet), turned, against)
}

/// Where an accepted body is turned in another way than by the Rust, if it is.
pub fn differs(sheet: &Sheet, r: &mut Random) -> Result<(), String> {
    let mut body = Flat::of(sheet);
    let needed = body.words();
    assert_eq!(refusal(&body, needed), 0, "the body is accepted");
    let mut work = Work::new(needed + r.size(0, 5), r.next());
    let got = lent::turn(&mut body, &mut work).map_err(named)?;
    let (after, turned, against) = turned_by_source(sheet);
    let want = Turned { refusal: 0, turned: turned as u32, against: against as u64 };
    let what = if got != want { Some(format!("{want:?}, not {got:?}")) } else { unlike(&after, &body).or_else(|| work.wrong(needed)) };
    what.map(named).map_or(Ok(()), Err)
}

/// What is wrong with the refusal of a body that a check up to 31 refuses.
pub fn refused(before: &Flat, words: usize, number: u32, r: &mut Random) -> Result<(), String> {
    let mut work = Work::new(words, r.next());
    let mut after = before.clone();
    let got = lent::turn(&mut after, &mut work).map_err(named)?;
    let want = Turned { refusal: number, turned: 0, against: 0 };
    let what = if got != want {
        Some(format!("{want:?}, not {got:?}"))
    } else if !after.same_bits(before) {
        Some("a refused body is changed".to_string())
    } else {
        work.wrong(0)
    };
    what.map(named).map_or(Ok(()), Err)
}
