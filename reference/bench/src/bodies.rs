//! The bodies that stages are timed on.

use driver::closed::NEGATIVE_ZERO;
use driver::generate::large::{torus, torus_with_holes};
use driver::random::Random;
use driver::sheet::Sheet;

/// What a body is, how it is made, and how many rounds it is timed.
pub struct Body {
    pub name: &'static str,
    pub make: Box<dyn Fn() -> Sheet>,
    pub rounds: usize,
}

/// Triangles of the closed body, and rounds.
const SIZES: [(usize, usize); 4] = [(300, 1001), (1_000, 501), (10_000, 101), (100_000, 21)];

/// Quadrilaterals on a row.
const EVERY: usize = 20;

/// What the body is: whether every fifth row is left out, and whether it stands four kilometres from the origin.
const KINDS: [(&str, bool, bool); 4] =
    [("closed", false, false), ("open", true, false), ("closed, 4 km away", false, true), ("open, 4 km away", true, true)];

fn torus_body(name: &'static str, triangles: usize, rounds: usize, open: bool, far: bool) -> Body {
    Body { name, make: Box::new(move || torus(&mut Random::new(1), triangles, EVERY, open, far)), rounds }
}

/// Closed and open bodies of every size.
pub fn closed_and_open() -> Vec<Body> {
    let kinds = |(triangles, rounds)| KINDS.iter().map(move |(name, open, far)| torus_body(name, triangles, rounds, *open, *far));
    SIZES.into_iter().flat_map(kinds).collect()
}

/// A closed body of 100,000 triangles that has −0.0 for 0.0 in the second half of its rows, so many times at most.
fn zeros_body(name: &'static str, count: usize) -> Body {
    let make = move || {
        let mut sheet = torus(&mut Random::new(1), 100_000, EVERY, false, false);
        let half = sheet.rows.len() / 2;
        let zeros = sheet.rows[half..].iter_mut().flat_map(|row| &mut row.positions).flatten().filter(|bits| **bits == 0);
        zeros.take(count).for_each(|bits| *bits = NEGATIVE_ZERO);
        sheet
    };
    Body { name, make: Box::new(make), rounds: 21 }
}

/// One body without a −0.0, with one, and with −0.0 for every 0.0 in half its rows.
pub fn with_zeros() -> Vec<Body> {
    [("no −0.0", 0), ("one −0.0", 1), ("−0.0 for 0.0 in half the rows", usize::MAX)].map(|(name, count)| zeros_body(name, count)).into()
}

fn holes(name: &'static str, triangles: usize, rounds: usize, holes: usize, patched: bool) -> Body {
    Body { name, make: Box::new(move || torus_with_holes(triangles, EVERY, holes, patched)), rounds }
}

/// Closed bodies, and bodies with 20 and 2,000 open edges, without and with points that split them.
pub fn with_open_edges() -> Vec<Body> {
    let mut all: Vec<Body> = SIZES.iter().map(|(triangles, rounds)| torus_body("closed", *triangles, *rounds, false, false)).collect();
    for (triangles, rounds) in [(1_000, 501), (10_000, 101), (100_000, 21)] {
        all.push(holes("20 open edges", triangles, rounds, 5, false));
        all.push(holes("20 open edges, 10 splits", triangles, rounds, 5, true));
    }
    for (triangles, rounds) in [(20_000, 21), (100_000, 21)] {
        all.push(holes("2,000 open edges", triangles, rounds, 500, false));
        all.push(holes("2,000 open edges, 1,000 splits", triangles, rounds, 500, true));
    }
    all
}

/// A yard: sixty bodies of 300 triangles, each with other rows wound inward; a third of them stand four kilometres away and a third lack
/// every fifth row.
pub fn yard() -> Vec<Sheet> {
    (0..60).map(|k| torus(&mut Random::new(k), 300, EVERY, k % 3 == 2, k % 3 == 1)).collect()
}

/// Closed bodies of rising size, with rounds.
pub fn rising() -> Vec<Body> {
    let sizes = [(300, 501), (1_000, 301), (3_000, 101), (10_000, 51), (30_000, 31), (100_000, 15), (160_000, 9)];
    sizes.into_iter().map(|(triangles, rounds)| torus_body("closed", triangles, rounds, false, false)).collect()
}

/// Bodies of 40,000 triangles with ever more open edges.
pub fn rising_open_edges() -> Vec<(usize, Body)> {
    [125, 250, 500, 1_000].into_iter().map(|count| (4 * count, holes("open", 40_000, 7, count, false))).collect()
}
