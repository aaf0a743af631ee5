//! Broken bodies, which every call refuses with the number of the first check that fails.

use crate::faults::{FAULTS, Fault, broken};
use crate::{assembling, reports, stitching, turning};
use driver::check::refusal;
use driver::flat::Flat;
use driver::random::Random;
use driver::sheet::Sheet;

/// Whether a body could be broken so, or how its refusal is not what it should be.
fn refused(body: &Flat, faults: &[&Fault], r: &mut Random) -> Result<bool, String> {
    let Some((before, words)) = broken(body, faults, r) else { return Ok(false) };
    let number = refusal(&before, words);
    let first = faults.iter().map(|f| f.number).min();
    assert_eq!(Some(number), first, "the first check that faults fail decides: {}", names(faults));
    let what = turning::refused(&before, words, number, r)
        .err()
        .or_else(|| stitching::refused(&before, words, number, r))
        .or_else(|| assembling::refused(&before, words, number, r))
        .or_else(|| reports::refused(&before, words, number, r));
    what.map_or(Ok(true), |what| Err(format!("{}: {what}", names(faults))))
}

fn names(faults: &[&Fault]) -> String {
    faults.iter().map(|f| f.name).collect::<Vec<_>>().join(" and ")
}

/// Each fault alone, and some pairs of different checks; for a large body a few of each.
fn choices(body: &Flat, r: &mut Random) -> Vec<Vec<&'static Fault>> {
    let all = FAULTS;
    let small = body.indices.len() + body.positions.len() < 2000;
    let mut out: Vec<Vec<&Fault>> = if small { all.iter().map(|f| vec![f]).collect() } else { (0..5).map(|_| vec![r.pick(all)]).collect() };
    for _ in 0..if small { 40 } else { 5 } {
        let pair = vec![r.pick(all), r.pick(all)];
        if pair[0].number != pair[1].number {
            out.push(pair);
        }
    }
    out
}

/// How many broken forms of a body are refused as they should be, or what is wrong with one.
pub fn refusals(sheet: &Sheet, r: &mut Random) -> Result<u64, String> {
    let body = Flat::of(sheet);
    let mut count = 0;
    for faults in choices(&body, r) {
        count += refused(&body, &faults, r)? as u64;
    }
    Ok(count)
}
