//! Bodies of a given number of triangles, up to the limits of document 01.

use super::shapes::{Point, Shape, band, bits, row, rows, sheet, shuffle, torus as torus_shape, turn, wound_rows};
use crate::check::{MOST_INDICES, MOST_ROWS, MOST_VERTICES};
use crate::random::Random;
use crate::sheet::{Row, Sheet};

const SAG: f64 = 0.25;

/// The size of a grain bin, in millimetres.
const MAJOR: f64 = 3000.0;
const MINOR: f64 = 1000.0;

const FOUR_KILOMETRES: Point = [4.0e6, 4.0e6, 0.0];

/// Two sides whose product is so many quadrilaterals or a little less, neither below 3.
fn sides(quads: usize) -> (usize, usize) {
    let root = quads.isqrt().max(3);
    let even = (root / 2 + 1..=root).rev().find(|m| *m >= 3 && quads.is_multiple_of(*m));
    let m = even.unwrap_or(root);
    (m, (quads / m).max(3))
}

/// A few hundred triangles where no size is asked for.
fn quads(triangles: usize) -> usize {
    if triangles == 0 { 100 } else { triangles / 2 }
}

/// How many quadrilaterals a row gets, for some number of rows within the limit.
fn every(r: &mut Random, quads: usize) -> usize {
    quads.div_ceil(r.size(2, MOST_ROWS.min(quads.max(2)))).max(1)
}

fn grid_of(triangles: usize) -> Shape {
    let (m, n) = sides(quads(triangles));
    torus_shape(m, n, MAJOR, MINOR)
}

/// What is left with every fifth thing taken out.
fn without_fifths<T>(things: Vec<T>) -> Vec<T> {
    things.into_iter().enumerate().filter(|(k, _)| k % 5 != 4).map(|(_, t)| t).collect()
}

/// A torus with so many quadrilaterals a row, half of its rows wound inward, closed or open, near the origin or far away.
pub fn torus(r: &mut Random, triangles: usize, every: usize, open: bool, far: bool) -> Sheet {
    let shape = grid_of(triangles).moved(if far { FOUR_KILOMETRES } else { [0.0; 3] }).merged(every);
    let all = wound_rows(r, &shape, 0, 0, 50);
    sheet(if open { without_fifths(all) } else { all }, SAG)
}

/// A torus in rows of so many quadrilaterals, of which some single ones, apart from each other, are left out: each leaves four open edges.
/// Or each has a patch of its own in their place that cuts one of its edges in three: these are four open edges as well, and two splits.
pub fn torus_with_holes(triangles: usize, every: usize, holes: usize, patched: bool) -> Sheet {
    let (m, n) = sides(quads(triangles));
    let all = torus_shape(m, n, MAJOR, MINOR);
    // No two of these share a corner: from one to the next of them it is ten along, or one across and three along.
    let apart = |k: usize| (3 * (k / n) + k % n).is_multiple_of(10) && k % n < n / 10 * 10 && k / n < m / 10 * 10;
    let places: Vec<usize> = (0..m * n).filter(|k| apart(*k)).collect();
    assert!(places.len() >= holes, "room for {holes} holes");
    let chosen: Vec<usize> = (0..holes).map(|k| places[k * places.len() / holes]).collect();
    let quad = |k: &usize| all.faces[*k].clone();
    let mut shape = Shape { points: all.points.clone(), faces: Vec::new() };
    shape.faces = (0..m * n).filter(|k| !chosen.contains(k)).map(|k| quad(&k)).collect();
    shape = shape.merged(every);
    if patched {
        chosen.iter().for_each(|k| patch_with_cut(&mut shape, &quad(k)));
    }
    sheet(shape.faces.iter().enumerate().map(|(k, face)| row(&shape, face, 0, k as u32)).collect(), SAG)
}

/// A face in the place of a quadrilateral that cuts its first edge at a third and two thirds.
fn patch_with_cut(shape: &mut Shape, quad: &[[usize; 3]]) {
    let [[a, b, c], [_, _, d]] = quad[..] else { unreachable!("two triangles") };
    let at = |t: f64| [0, 1, 2].map(|k| shape.points[a][k] * (1.0 - t) + shape.points[b][k] * t);
    let cut = [at(1.0 / 3.0), at(2.0 / 3.0)];
    let p = shape.points.len();
    shape.points.extend(cut);
    shape.faces.push(vec![[d, a, p], [d, p, p + 1], [d, p + 1, b], [d, b, c]]);
}

fn some_torus(r: &mut Random, triangles: usize, open: bool, by: Point) -> Sheet {
    let every = every(r, quads(triangles));
    let all = rows(r, &grid_of(triangles).moved(by).merged(every), 0, 0);
    sheet(if open { without_fifths(all) } else { all }, SAG)
}

pub fn closed(r: &mut Random, triangles: usize) -> Sheet {
    some_torus(r, triangles, false, [0.0; 3])
}

pub fn open(r: &mut Random, triangles: usize) -> Sheet {
    some_torus(r, triangles, true, [0.0; 3])
}

pub fn far(r: &mut Random, triangles: usize) -> Sheet {
    some_torus(r, triangles, false, FOUR_KILOMETRES)
}

pub fn flat(r: &mut Random, triangles: usize) -> Sheet {
    let (m, n) = sides(quads(triangles));
    let z = *r.pick(&[0.0, 0.0, 5.0, -5.0]);
    let every = every(r, m * n);
    let all = rows(r, &band(m, n, |i, j| [i as f64, j as f64, z]).merged(every), 0, 0);
    sheet(all, SAG)
}

/// A torus with its points strewn over a plane beside the origin: it encloses nothing, and rounding alone decides the sign of V.
pub fn flattened(r: &mut Random, triangles: usize) -> Sheet {
    let mut shape = grid_of(triangles);
    let (axis, at) = (r.below(3) as usize, r.between(-MAJOR, MAJOR));
    for p in &mut shape.points {
        *p = [0; 3].map(|_| r.between(-MAJOR, MAJOR));
        p[axis] = at;
    }
    let every = every(r, shape.faces.len());
    let all = rows(r, &shape.merged(every), 0, 0);
    sheet(all, SAG)
}

pub fn twisted(r: &mut Random, triangles: usize) -> Sheet {
    let (m, n) = sides(quads(triangles));
    // The last points are the first in the other order, bit for bit.
    let at = |i: usize, j: usize| {
        let (i, j) = if i == m { (0, n - j) } else { (i, j) };
        let (angle, across) = (std::f64::consts::TAU * i as f64 / m as f64, MINOR * (j as f64 / n as f64 - 0.5));
        let out = MAJOR + across * (angle / 2.0).cos();
        [out * angle.cos(), out * angle.sin(), across * (angle / 2.0).sin()]
    };
    let every = every(r, m * n);
    let all = rows(r, &band(m, n, at).merged(every), 0, 0);
    sheet(all, SAG)
}

/// Closed shapes of about a hundred triangles on four rows each, some of them at one place.
pub fn shells(r: &mut Random, triangles: usize) -> Sheet {
    let count = (quads(triangles) / 50).clamp(1, MOST_ROWS / 4);
    let (m, n) = sides((quads(triangles) / count).max(9));
    let mut all = Vec::new();
    for k in 0..count {
        let shape = torus_shape(m, n, 30.0, 10.0).merged((m * n).div_ceil(4));
        let shape = if r.chance(30) { shape.reversed() } else { shape };
        let by = if r.chance(30) { [0.0; 3] } else { [100.0 * k as f64, 0.0, 0.0] };
        let shell = *r.pick(&[0, k as u32, u32::MAX, 7]);
        let first = all.len() as u32;
        all.extend(rows(r, &shape.moved(by), shell, first));
    }
    if r.chance(40) {
        shuffle(r, &mut all);
    }
    sheet(all, SAG)
}

/// So many triangles in all, dealt out to as many rows as there may be, or fewer.
fn dealt(r: &mut Random, triangles: usize, mut row: impl FnMut(&mut Random, usize, u32) -> Row) -> Sheet {
    let triangles = if triangles == 0 { 200 } else { triangles };
    let most = r.size(2, MOST_ROWS).min(triangles);
    let each = triangles.div_ceil(most);
    let counts = (0..triangles).step_by(each).map(|done| each.min(triangles - done));
    let all = counts.enumerate().map(|(k, count)| row(r, count, k as u32)).collect();
    sheet(all, SAG)
}

pub fn soup(r: &mut Random, triangles: usize) -> Sheet {
    let grid = r.size(3, 40) as u64;
    dealt(r, triangles, |r, count, face| {
        let mut row = Row { shell: r.below(2) as u32, face, ..Row::default() };
        for _ in 0..count + 2 {
            row.positions.push(bits([0; 3].map(|_| r.below(grid) as f64)));
            row.normals.push(bits([0; 3].map(|_| r.between(-1.0, 1.0))));
        }
        row.indices = (0..3 * count).map(|_| r.below(count as u64 + 2) as u32).collect();
        row
    })
}

pub fn pinwheel(r: &mut Random, triangles: usize) -> Sheet {
    dealt(r, triangles, |r, count, face| {
        let mut row = Row { face, positions: vec![bits([0.0; 3]), bits([0.0, 0.0, 10.0])], ..Row::default() };
        for k in 0..count as u32 {
            row.positions.push(bits([r.between(-9.0, 9.0), r.between(-9.0, 9.0), r.between(0.0, 10.0)]));
            row.indices.extend([0, 1, 2 + k]);
        }
        row.normals = vec![bits([0.0, 1.0, 0.0]); row.positions.len()];
        if r.chance(50) {
            turn(&mut row);
        }
        row
    })
}

pub fn one_row(r: &mut Random, triangles: usize) -> Sheet {
    let shape = grid_of(triangles);
    let all = shape.faces.len();
    let shape = if r.chance(50) { shape.reversed() } else { shape };
    let one = rows(r, &shape.merged(all), 0, 0);
    sheet(one, SAG)
}

/// Vertices that no triangle uses, on rows at random, up to as many as a body may have.
fn filled(r: &mut Random, mut body: Sheet) -> Sheet {
    let patches: Vec<usize> = (0..body.rows.len()).filter(|k| body.rows[*k].outcome == 0).collect();
    for _ in body.vertices()..MOST_VERTICES {
        let row = &mut body.rows[*r.pick(&patches)];
        row.positions.push(bits([r.between(-9.0, 9.0), 0.0, -0.0]));
        row.normals.push(bits([-0.0, 0.0, r.between(-1.0, 1.0)]));
    }
    body
}

pub fn points(r: &mut Random, triangles: usize) -> Sheet {
    let few = closed(r, (triangles / 100).max(200));
    filled(r, few)
}

/// Two whole rings a row, since vertices would pass their limit before indices otherwise, then empty rows and unused vertices.
pub fn full(r: &mut Random, triangles: usize) -> Sheet {
    let (m, n) = sides(quads(triangles.min(MOST_INDICES / 3)));
    let mut all = rows(r, &torus_shape(m, n, MAJOR, MINOR).merged(2 * n), 0, 0);
    for face in all.len()..MOST_ROWS {
        let outcome = *r.pick(&[0, 0, 0, 1, 255]);
        let at = r.size(0, all.len());
        all.insert(at, Row { face: face as u32, outcome, ..Row::default() });
    }
    filled(r, sheet(all, SAG))
}
