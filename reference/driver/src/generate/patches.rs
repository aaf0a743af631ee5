//! Bodies in patches whose neighbours cut the seam between them differently, so that every row is open along its seams and stitching splits it.

use super::shapes::{Point, bits, sheet, shuffle, turn};
use crate::random::Random;
use crate::sheet::{Row, Sheet};
use std::f64::consts::TAU;

const SAG: f64 = 0.25;
const NORMAL: Point = [0.0, 0.6, 0.8];

/// The size of a grain bin, in millimetres.
const MAJOR: f64 = 3000.0;
const MINOR: f64 = 1000.0;

/// Half the side of a plane, and its height.
const REACH: f64 = 2000.0;
const HEIGHT: f64 = 17.0;

/// Pieces that a patch cuts its seams into, by turns, so that two neighbours have only the ends of their seam in common.
pub const CUTS: [usize; 2] = [4, 5];

/// The two triangles of a quadrilateral, by its corners in turn.
pub fn halves([a, b, c, d]: [u32; 4]) -> [u32; 6] {
    [a, b, c, a, c, d]
}

/// A patch between four corners, straight along its sides, of so many quadrilaterals each way.
fn patch(face: usize, [a, b, c, d]: [Point; 4], cuts: usize) -> Row {
    let part = |n: usize| n as f64 / cuts as f64;
    let between = |p: Point, q: Point, n: usize| [0, 1, 2].map(|k| (1.0 - part(n)) * p[k] + part(n) * q[k]);
    let places = (0..=cuts).flat_map(|i| (0..=cuts).map(move |j| (i, j)));
    let positions: Vec<[u32; 3]> = places.map(|(i, j)| bits(between(between(a, b, j), between(d, c, j), i))).collect();
    let at = |i: usize, j: usize| (i * (cuts + 1) + j) as u32;
    let quad = |(i, j): (usize, usize)| [at(i, j), at(i + 1, j), at(i + 1, j + 1), at(i, j + 1)];
    let indices = (0..cuts * cuts).flat_map(|k| halves(quad((k / cuts, k % cuts)))).collect();
    Row { face: face as u32, normals: vec![bits(NORMAL); positions.len()], positions, indices, ..Row::default() }
}

/// Patches over a grid, a row each, whose corners are placed by their two numbers, which run to m and n.
fn patches(m: usize, n: usize, cuts: [usize; 2], at: impl Fn(usize, usize) -> Point) -> Sheet {
    let corners = |i: usize, j: usize| [at(i, j), at(i, j + 1), at(i + 1, j + 1), at(i + 1, j)];
    let all = (0..m * n).map(|k| patch(k, corners(k / n, k % n), cuts[(k / n + k % n) % 2]));
    sheet(all.collect(), SAG)
}

/// Patches around a torus, the last beside the first.
pub fn torus(m: usize, n: usize, cuts: [usize; 2]) -> Sheet {
    patches(m, n, cuts, |i, j| {
        let (u, v) = (TAU * (i % m) as f64 / m as f64, TAU * (j % n) as f64 / n as f64);
        let out = MAJOR + MINOR * v.cos();
        [out * u.cos(), out * u.sin(), MINOR * v.sin()]
    })
}

/// The same in a plane.
pub fn plane(m: usize, n: usize, cuts: [usize; 2]) -> Sheet {
    let at = |k: usize, count: usize| REACH * (2.0 * k as f64 / count as f64 - 1.0);
    patches(m, n, cuts, |i, j| [at(i, m), at(j, n), HEIGHT])
}

/// About so many triangles in patches of either form with cuts at random, some rows turned, in order or not.
pub fn seams(r: &mut Random, triangles: usize) -> Sheet {
    let triangles = if triangles == 0 { 200 } else { triangles };
    let cuts = *r.pick(&[CUTS, [2, 3], [1, 6], [3, 7]]);
    let count = triangles / (cuts[0] * cuts[0] + cuts[1] * cuts[1]);
    let m = 2 * (count.isqrt() / 2).max(1);
    let n = 2 * (count / m / 2).max(1);
    let mut body = if r.chance(50) { torus(m, n, cuts) } else { plane(m, n, cuts) };
    for row in &mut body.rows {
        if r.chance(30) {
            turn(row);
        }
    }
    if r.chance(40) {
        shuffle(r, &mut body.rows);
    }
    body
}
