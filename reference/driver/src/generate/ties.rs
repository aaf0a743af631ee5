//! Bodies in which many loose points have one parameter on an edge: the Rust leaves their order to its maps, and document 01 says it.

use super::edges::row_of;
use super::shapes::{Point, sheet, shuffle};
use crate::random::Random;
use crate::sheet::{Row, Sheet};

type Triangle = [Point; 3];

/// Triangles of a small body: the bench program's limit.
const FEW: usize = 32;

/// Triangles on a row, at most.
const EVERY: usize = 4;

/// Triangles for each piece of a larger body.
const EACH: usize = 4;

/// How many triangles a body of a size has.
pub fn triangles(r: &mut Random, size: usize) -> usize {
    if size == 0 { r.size(4, FEW) } else { EACH * size }
}

/// Triangles dealt out to rows, in order or not; to few enough of them for a small body.
pub fn body(r: &mut Random, mut all: Vec<Triangle>, sag: f64) -> Sheet {
    if r.chance(50) {
        shuffle(r, &mut all);
    }
    let every = r.size(2, EVERY);
    let rows: Vec<Row> = all.chunks(every).enumerate().map(|(k, own)| row_of(own, r.below(2) as u32, k as u32)).collect();
    sheet(rows, sag)
}

/// A triangle with a corner at a point, whose others stand far from everything, each at a place of its own.
fn needle(r: &mut Random, at: Point, unit: f64) -> Triangle {
    let mut far = || [0; 3].map(|_| *r.pick(&[-1.0, 1.0]) * unit * r.between(40.0, 90.0));
    [at, far(), far()]
}

/// Corners in turn, from one of the three on.
fn from_any(r: &mut Random, [a, b, c]: Triangle) -> Triangle {
    *r.pick(&[[a, b, c], [b, c, a], [c, a, b]])
}

/// Triangles on a lattice, with a sag that lattice points are exactly as far from edges as, or a little more.
pub fn grid(r: &mut Random, size: usize) -> Sheet {
    let (unit, wide) = (*r.pick(&[1.0, 0.5, 100.0]), r.size(3, if size == 0 { 5 } else { 12 }) as u64);
    let high = r.size(1, 3) as u64;
    let count = triangles(r, size);
    let mut corner = || [r.below(wide), r.below(wide), r.below(high)].map(|n| n as f64 * unit);
    let all: Vec<Triangle> = (0..count).map(|_| [corner(), corner(), corner()]).collect();
    let sag = unit * *r.pick(&[0.5, 1.0, 1.0, 1.5, 2.0]);
    body(r, all, sag)
}

/// Long edges along one line and beside it, past points that stand around eighths of it.
pub fn line(r: &mut Random, size: usize) -> Sheet {
    let unit = *r.pick(&[1.0, 0.125, 64.0]);
    let tilt = *r.pick(&[[1.0, 0.0, 0.0], [0.0, 1.0, 0.0], [0.0, 0.0, -1.0], [0.5, 0.5, 0.0], [0.5, -0.25, 0.5]]);
    let at = |x: f64, off: Point| [0, 1, 2].map(|k| unit * (x * tilt[k] + off[k]));
    let count = triangles(r, size);
    let mut all = Vec::new();
    for k in 0..count.div_ceil(6) {
        let beside = [0.0, 0.0, k as f64 / 64.0];
        let apex = [*r.pick(&[0.0, 4.0, 8.0]), 8.0, -8.0].map(|v: f64| unit * v);
        all.push(from_any(r, [at(0.0, beside), at(8.0, beside), apex]));
    }
    while all.len() < count {
        let off = [0; 3].map(|_| *r.pick(&[0.0, 0.125, -0.125, 0.25]));
        let point = at(r.size(1, 7) as f64, off);
        all.push(needle(r, point, unit));
    }
    let sag = unit * *r.pick(&[0.25, 0.5, 1.0]);
    body(r, all, sag)
}

/// Triangles with one edge that isn't open, and points nearest that edge which the other two find: the near ones the first of them, and those
/// a little higher over it the second alone. All have one parameter on it, or one of a few.
pub fn finders(r: &mut Random, size: usize) -> Sheet {
    let unit = *r.pick(&[1.0, 4.0, 0.25]);
    let scaled = |p: Point| p.map(|v| v * unit);
    let (a, b, tip, other) = ([0.0; 3], [4.0, 0.0, 0.0], [2.0, 3.0, 0.0], [2.0, -9.0, 0.0]);
    let mut all = vec![from_any(r, [a, b, tip].map(scaled)), from_any(r, [b, a, other].map(scaled))];
    let (count, places) = (triangles(r, size), r.size(1, 4));
    while all.len() < count {
        let x = *r.pick(&[1.75, 2.25, 1.5, 2.5][..places]);
        // Around the middle both open edges are within the sag of points up to 0.7 high, and only the nearer one of those above.
        let z = *r.pick(&[-1.0, 1.0]) * r.size(1, 88) as f64 / 64.0;
        all.push(needle(r, scaled([x, 0.0, z]), unit));
    }
    body(r, all, 2.0 * unit)
}
