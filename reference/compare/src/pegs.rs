//! Lookups of a peg's bins held to a plain model: placed bodies with every kind of coordinate, and damaged ones.

mod bodies;
mod coordinates;
mod damage;
mod decimals;
mod held;
mod limits;
mod model;
mod tally;
pub mod wrong;

pub use tally::Tally;

use compare::library::{Lookup, PLACE};
use driver::check::refusal;
use driver::flat::ROW;
use driver::generate::{KINDS, SEAMS};
use driver::random::Random;

/// Placed bodies that go with a seed, besides twin walls, some of the generator's and a large one; each is damaged too.
const BODIES_A_SEED: usize = 1000;
const WALLS_A_SEED: usize = 20;
const KINDS_A_SEED: usize = 20;

/// How often a way to damage a body is tried, since not every body has a place for each.
const DAMAGES_TRIED: usize = 8;

/// Coordinates of a body whose micrometres the model is held to the decimal digits of.
const DIGITS_A_BODY: usize = 2;

/// Looks for a peg's bins with a list of so many numbers.
fn look(lookup: &Lookup, room: usize, r: &mut Random, tally: &mut Tally) -> Result<(), String> {
    let former: Vec<u32> = (0..room).map(|_| r.next() as u32).collect();
    let answer = held::find(lookup, &former).map_err(|what| differing(lookup, room, &what))?;
    tally.answered(answer);
    Ok(())
}

/// A lookup without row k and its vertices, indices and place.
fn without_row(lookup: &Lookup, k: usize) -> Lookup {
    let mut less = lookup.clone();
    let before = |column: usize| lookup.body.rows[..ROW * k].chunks_exact(ROW).map(|row| row[column] as usize).sum::<usize>();
    let (v, i, row) = (before(3), before(4), &lookup.body.rows[ROW * k..ROW * (k + 1)]);
    less.body.positions.drain(3 * v..3 * (v + row[3] as usize));
    less.body.normals.drain(3 * v..3 * (v + row[3] as usize));
    less.body.indices.drain(i..i + row[4] as usize);
    less.body.rows.drain(ROW * k..ROW * (k + 1));
    less.places.drain(PLACE * k..PLACE * (k + 1));
    less
}

/// What differs, with the lookup, of which rows are left out as long as it differs and the body is one that is accepted.
fn differing(lookup: &Lookup, room: usize, what: &str) -> String {
    let (mut least, mut what) = (lookup.clone(), what.to_string());
    let whole = |lookup: &Lookup| refusal(&lookup.body, usize::MAX) == 0 && lookup.places.len() >= PLACE * (lookup.body.rows.len() / ROW);
    let mut k = 0;
    while whole(&least) && k < least.body.rows.len() / ROW && least.body.rows.len() < 300 * ROW {
        let less = without_row(&least, k);
        match held::find(&less, &vec![0x5555_5555; room]) {
            Err(other) => (least, what) = (less, other),
            Ok(_) => k += 1,
        }
    }
    let body = &least.body;
    let positions: Vec<String> = body.positions.iter().take(60).map(|v| format!("{:08X}", v.to_bits())).collect();
    let (rows, places) = (&body.rows[..body.rows.len().min(20 * ROW)], &least.places[..least.places.len().min(20 * PLACE)]);
    format!("table {rows:?}, positions {}, places {places:?}, peg {:?}: {what}", positions.join(" "), least.peg)
}

/// The model's micrometres of some coordinates held to those of their decimal digits.
fn digits_held(lookup: &Lookup, r: &mut Random) {
    for _ in 0..DIGITS_A_BODY.min(lookup.body.positions.len()) {
        let v = *r.pick(&lookup.body.positions);
        assert_eq!(model::micrometres(v), decimals::micrometres(v), "the model's micrometres of {v:e}");
    }
}

/// A lookup with a list of exactly enough room and one of another length, and a damaged one.
fn body_held(lookup: &Lookup, r: &mut Random, tally: &mut Tally) -> Result<(), String> {
    tally.bodies += 1;
    digits_held(lookup, r);
    let tied = model::find(lookup, usize::MAX).map_or(0, |bins| bins.len());
    let rows = lookup.body.rows.len() / ROW;
    let choices = [tied.saturating_sub(1), tied.saturating_sub(1), 0, tied + 1, tied + r.size(0, 40), rows];
    for room in [tied, *r.pick(&choices)] {
        look(lookup, room, r, tally)?;
    }
    if let Some(damaged) = (0..DAMAGES_TRIED).find_map(|_| damage::damaged(lookup, r)) {
        tally.damaged += 1;
        look(&damaged.lookup, damaged.list, r, tally).map_err(|what| format!("to be refused with {}: {what}", damaged.number))?;
    }
    Ok(())
}

/// The lookups that go with a seed, or what differs.
pub fn compared(seed: u64, tally: &mut Tally) -> Result<(), String> {
    let r = &mut Random::new(seed ^ 0x9E65_B125);
    let mut held = |lookup: &Lookup, r: &mut Random| body_held(lookup, r, tally).map_err(|what| format!("seed {seed}: {what}"));
    for _ in 0..BODIES_A_SEED {
        held(&bodies::small(r), r)?;
    }
    for _ in 0..WALLS_A_SEED {
        held(&bodies::twin_walls(r), r)?;
    }
    for _ in 0..KINDS_A_SEED {
        let kinds = if r.chance(70) { KINDS } else { SEAMS };
        if let Some(lookup) = bodies::of_kind(r.pick(kinds), seed, r) {
            held(&lookup, r)?;
        }
    }
    held(&bodies::large(r), r)
}

/// The lookups at the limits.
pub fn at_the_limits(tally: &mut Tally) -> Result<(), String> {
    let r = &mut Random::new(2);
    limits::cases().iter().try_for_each(|(lookup, room, _)| look(lookup, *room, r, tally))
}

/// Whether the lookups of some seeds, and those at the limits, show a fault that is planted.
pub fn shows(first: u64, last: u64) -> bool {
    let tally = &mut Tally::default();
    at_the_limits(tally).is_err() || (first..=last).any(|seed| compared(seed, tally).is_err())
}
