//! Bodies that try the edges: open, shared by many, contradictory, split.

use super::shapes::{Point, bits, cuboid, normal, rows, sheet, shuffle, turn};
use crate::random::Random;
use crate::sheet::{Row, Sheet};

/// A row of triangles, each with three vertices of its own.
pub fn row_of(triangles: &[[Point; 3]], shell: u32, face: u32) -> Row {
    let mut row = Row { shell, face, ..Row::default() };
    for t in triangles {
        let n = normal(t[0], t[1], t[2]);
        for p in t {
            row.indices.push(row.positions.len() as u32);
            row.positions.push(bits(*p));
            row.normals.push(bits(n));
        }
    }
    row
}

/// The axes in another order, and a move by whole millimetres.
fn placed(r: &mut Random, mut rows: Vec<Row>) -> Vec<Row> {
    let order = *r.pick(&[[0, 1, 2], [1, 2, 0], [2, 1, 0], [0, 2, 1]]);
    let by = if r.chance(50) { [0.0; 3] } else { [3.0, -7.0, 11.0] };
    for p in rows.iter_mut().flat_map(|row| &mut row.positions) {
        let q = order.map(|k| f32::from_bits(p[k]) as f64);
        *p = bits([q[0] + by[0], q[1] + by[1], q[2] + by[2]]);
    }
    rows
}

/// A triangle with an edge from (0,0,0) to (10,0,0), and a row on its other side that has points along it.
fn along(r: &mut Random, points: &[Point]) -> Vec<Row> {
    let apex = [*r.pick(&[0.0, 5.0, 10.0, 3.0]), 10.0, 0.0];
    let one = row_of(&[[[0.0; 3], [10.0, 0.0, 0.0], apex]], 0, 0);
    let far = [5.0, -10.0, 0.0];
    let mut chain = vec![[0.0; 3]];
    chain.extend(points);
    chain.push([10.0, 0.0, 0.0]);
    let fan: Vec<[Point; 3]> = chain.windows(2).map(|w| [w[1], w[0], far]).collect();
    vec![one, row_of(&fan, r.below(2) as u32, 1)]
}

pub fn junction(r: &mut Random, size: usize) -> Sheet {
    let sag = *r.pick(&[0.25, 0.5, 0.125, 1.0]);
    let count = if size == 0 { r.size(1, 5) } else { size };
    let mut points: Vec<Point> = (0..count)
        .map(|_| {
            let x = if r.chance(50) { r.size(1, 9) as f64 } else { r.between(0.0, 10.0) };
            let y = *r.pick(&[0.0, 0.0, sag, -sag, sag * 1.001, -sag * 0.5]);
            [x, y, if r.chance(20) { sag * 0.5 } else { 0.0 }]
        })
        .collect();
    if r.chance(15) {
        points.push([*r.pick(&[1e-6, 1e-5, 9.99999, 1.1e-5]), 0.0, 0.0]);
    }
    points.sort_by(|a, b| a[0].total_cmp(&b[0]));
    points.dedup_by(|a, b| a[0] == b[0]);
    let mut all = along(r, &points);
    if r.chance(50) {
        turn(&mut all[1]);
    }
    for n in all.iter_mut().flat_map(|row| &mut row.normals) {
        if r.chance(20) {
            *n = *r.pick(&[bits([0.0; 3]), bits([1.0, 0.0, 0.0]), bits([0.0, 0.0, -1.0]), bits([1e-30, 1e-38, 0.0])]);
        }
    }
    let all = placed(r, all);
    sheet(all, sag)
}

/// A box whose top is cut at points along its edges while the sides are not.
pub fn cracked(r: &mut Random, size: usize) -> Sheet {
    let mut all = rows(r, &cuboid(10.0, 8.0, 6.0), 0, 0);
    all.retain(|row| !(row.positions.iter().all(|p| p[2] == 6.0f32.to_bits())));
    let mut border: Vec<Point> = vec![[0.0, 0.0, 6.0], [10.0, 0.0, 6.0], [10.0, 8.0, 6.0], [0.0, 8.0, 6.0]];
    for _ in 0..if size == 0 { r.size(1, 4) } else { size } {
        let k = r.below(border.len() as u64) as usize;
        let (a, b) = (border[k], border[(k + 1) % border.len()]);
        let t = *r.pick(&[0.5, 0.25, 0.3, 0.7]);
        let off = *r.pick(&[0.0, 0.0, 0.0, 0.1]);
        border.insert(k + 1, [a[0] + (b[0] - a[0]) * t, a[1] + (b[1] - a[1]) * t, 6.0 - off]);
    }
    let fan: Vec<[Point; 3]> = (1..border.len() - 1).map(|k| [border[0], border[k], border[k + 1]]).collect();
    let face = 9;
    let mut top = row_of(&fan, 0, face);
    if r.chance(50) {
        turn(&mut top);
    }
    all.push(top);
    shuffle(r, &mut all);
    sheet(all, 0.25)
}

/// Points so near each other that some are dropped again, on all edges of one triangle.
pub fn crowded(r: &mut Random, size: usize) -> Sheet {
    let big = [[0.0; 3], [4096.0, 0.0, 0.0], [0.0, 4096.0, 0.0]];
    let mut all = vec![row_of(&[big], 0, 0)];
    let count = if size == 0 { r.size(2, 6) } else { size };
    for k in 0..count {
        let x = *r.pick(&[1024.0, 1024.000_001, 2048.0, 100.0, 1024.000_002, 3.5]);
        let at = match r.below(3) {
            0 => [x, 0.0, 0.0],
            1 => [0.0, x, 0.0],
            _ => [x, 4096.0 - x, 0.0],
        };
        let at = [at[0], at[1], *r.pick(&[0.0, 0.0, 0.125, 0.25])];
        let away = [at[0] + 1.0, at[1] - 1.0, -50.0];
        all.push(row_of(&[[at, away, [away[0], away[1], -60.0]]], 0, 1 + k as u32));
    }
    sheet(all, *r.pick(&[0.25, 10.0, 1e9]))
}

pub fn contradictory(r: &mut Random, size: usize) -> Sheet {
    let n = if size == 0 { r.size(3, 7) } else { size.max(3) };
    // A band of n quadrilaterals closed with a half twist, or without.
    let twist = r.chance(70);
    let at = |k: usize, side: usize| -> Point {
        let angle = std::f64::consts::TAU * (k % n) as f64 / n as f64;
        let z = if (side == 1) != (twist && k >= n) { 1.0 } else { -1.0 };
        [10.0 * angle.cos(), 10.0 * angle.sin(), z]
    };
    let mut all = Vec::new();
    for k in 0..n {
        let (a, b, c, d) = (at(k, 0), at(k + 1, 0), at(k + 1, 1), at(k, 1));
        let mut row = row_of(&[[a, b, c], [a, c, d]], 0, k as u32);
        if r.chance(40) {
            turn(&mut row);
        }
        all.push(row);
    }
    if r.chance(40) {
        shuffle(r, &mut all);
    }
    sheet(all, 0.01)
}

/// Rows around one shared edge, each wound at random.
pub fn pinwheel(r: &mut Random, size: usize) -> Sheet {
    let n = if size == 0 { r.size(3, 9) } else { size };
    let (a, b) = ([0.0; 3], [0.0, 0.0, 10.0]);
    let mut all = Vec::new();
    for k in 0..n {
        let angle = std::f64::consts::TAU * k as f64 / n as f64;
        let out = [5.0 * angle.cos(), 5.0 * angle.sin(), *r.pick(&[0.0, 5.0, 10.0])];
        let t = if r.chance(50) { [a, b, out] } else { [b, a, out] };
        let triangles = vec![t; if r.chance(20) { 2 } else { 1 }];
        all.push(row_of(&triangles, r.below(2) as u32 * r.below(2) as u32, k as u32));
    }
    sheet(all, *r.pick(&[0.01, 0.0, 3.0]))
}

pub fn soup(r: &mut Random, size: usize) -> Sheet {
    let grid = r.size(2, 4) as u64;
    let unit = *r.pick(&[1.0, 10.0, 0.5]);
    let mut all = Vec::new();
    let (mut triangles, count) = (0, if size == 0 { r.size(1, 8) } else { size });
    for k in 0..count {
        let own = r.size(1, 5);
        let mut row = Row { shell: r.below(2) as u32, face: r.below(10) as u32, ..Row::default() };
        for _ in 0..own + 3 {
            row.positions.push(bits([0; 3].map(|_| r.below(grid) as f64 * unit)));
            row.normals.push(bits([0; 3].map(|_| r.between(-1.0, 1.0))));
        }
        for _ in 0..r.size(0, 4) {
            if size == 0 && triangles == 31 {
                break;
            }
            triangles += 1;
            for _ in 0..3 {
                row.indices.push(r.below(row.positions.len() as u64) as u32);
            }
        }
        if k == 3 && r.chance(30) {
            row = Row { shell: 1, face: 11, outcome: 3, ..Row::default() };
        }
        all.push(row);
    }
    let mut body = sheet(all, *r.pick(&[0.0, 0.25, 1.0, 3.0, f64::INFINITY]));
    body.default = *r.pick(&[None, Some(1)]);
    body.materials = vec![(2, 5), (3, 0)];
    body
}

/// Plane sheets through the origin: every volume is 0, so the greater part decides.
pub fn flat(r: &mut Random, size: usize) -> Sheet {
    let n = if size == 0 { r.size(2, 6) } else { size };
    let mut all = Vec::new();
    for k in 0..n {
        let x = k as f64;
        let square = [[[x, 0.0, 0.0], [x + 1.0, 0.0, 0.0], [x + 1.0, 1.0, 0.0]], [[x, 0.0, 0.0], [x + 1.0, 1.0, 0.0], [x, 1.0, 0.0]]];
        let mut row = row_of(&square[..r.size(1, 2)], 0, k as u32);
        if r.chance(50) {
            turn(&mut row);
        }
        all.push(row);
    }
    let all = if r.chance(50) { placed(r, all) } else { all };
    sheet(all, 0.01)
}

pub fn sag(r: &mut Random, size: usize) -> Sheet {
    let mut body = junction(r, size);
    let special = [0.0, -0.0, -0.25, f64::NAN, f64::INFINITY, f64::NEG_INFINITY, 5e-324, 1e308, f64::MIN_POSITIVE];
    body.sag = r.pick(&special).to_bits();
    if r.chance(20) {
        body.sag = 0xFFF0_0000_0000_0001;
    }
    body
}

/// Two loose points in one cell, a step of f32 apart: which of them stands hangs on map order in the Rust.
pub fn same_cell(r: &mut Random, _: usize) -> Sheet {
    let x = 1.0 + r.size(1, 6) as f64;
    let mut all = along(r, &[[x, 0.0, 0.0]]);
    let low = bits([x, 0.0, 0.0]);
    let bent = [low[0], *r.pick(&[0x3400_0000, 0x3300_0000, 0x8000_0000, 0x0000_0001]), low[2]];
    let mut other = row_of(&[[[x, 0.0, 0.0], [x, -3.0, 4.0], [x + 0.5, -3.0, 4.0]]], 0, 2);
    other.positions[0] = bent;
    all.push(other);
    if r.chance(50) {
        shuffle(r, &mut all);
    }
    sheet(all, 0.25)
}

/// Points on both sides of an edge with the same parameter.
pub fn tie(r: &mut Random, _: usize) -> Sheet {
    let x = 1.0 + r.size(1, 6) as f64;
    let mut all = vec![row_of(&[[[0.0; 3], [10.0, 0.0, 0.0], [0.0, 10.0, 0.0]]], 0, 0)];
    for (k, z) in [0.1, -0.1, 0.05].iter().take(r.size(2, 3)).enumerate() {
        all.push(row_of(&[[[x, 0.0, *z], [x, -3.0, 4.0 + *z], [x + 0.5, -3.0, 4.0]]], 0, 1 + k as u32));
    }
    sheet(all, 0.25)
}
