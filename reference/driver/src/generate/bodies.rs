//! Bodies of closed shapes.

use super::shapes::{Point, Shape, bits, cuboid, lathe, rows, sheet, shuffle, torus as torus_shape, turn};
use crate::check::LAST_UNCLAMPED;
use crate::random::Random;
use crate::sheet::{Row, Sheet};

/// The sign among a float's bits.
const SIGN: u32 = 0x8000_0000;

fn sag(r: &mut Random) -> f64 {
    *r.pick(&[0.25, 0.01, 0.001, 1.0])
}

fn cuboid_at_random(r: &mut Random) -> Shape {
    let side = |r: &mut Random| *r.pick(&[1.0, 2.5, 10.0, 1234.5]);
    let s = cuboid(side(r), side(r), side(r));
    let by = [r.between(-50.0, 50.0), r.between(-50.0, 50.0), r.between(-50.0, 50.0)];
    if r.chance(50) { s.moved(by.map(f64::round)) } else { s.moved(by) }
}

/// About the number of quadrilaterals that a size asks for, or a few.
fn steps(r: &mut Random, size: usize, few: usize) -> usize {
    if size == 0 { r.size(3, few) } else { size }
}

fn one(r: &mut Random, shape: Shape) -> Sheet {
    let rows = rows(r, &shape, 0, 0);
    let sag = sag(r);
    sheet(rows, sag)
}

pub fn boxes(r: &mut Random, size: usize) -> Sheet {
    let mut shape = cuboid_at_random(r);
    for _ in 1..size.max(1) {
        let next = cuboid_at_random(r);
        shape = shape.joined(next);
    }
    let every = *r.pick(&[1, 1, 2, 3, 6]);
    one(r, shape.merged(every))
}

pub fn prism(r: &mut Random, size: usize) -> Sheet {
    let n = steps(r, size, 8);
    let every = *r.pick(&[1, 1, 2, 4]);
    one(r, lathe(n, &[(10.0, 0.0), (10.0, 25.0)]).merged(every))
}

/// The longest side of a square torus whose indices keep within the limit.
const MOST_SIDE: usize = 362;

pub fn torus(r: &mut Random, size: usize) -> Sheet {
    let side = size.min(MOST_SIDE);
    let (m, n) = if size == 0 { (r.size(3, 4), r.size(3, 4)) } else { (side, side) };
    let every = if size == 0 { *r.pick(&[1, 2, 4]) } else { (m * n).div_ceil(r.size(2, 900)) };
    one(r, torus_shape(m, n, 30.0, 10.0).merged(every))
}

pub fn hopper(r: &mut Random, size: usize) -> Sheet {
    let n = if size == 0 { r.size(3, 4) } else { size };
    let every = *r.pick(&[1, 1, 3]);
    one(r, lathe(n, &[(0.0, -8.0), (10.0, 0.0), (10.0, 20.0), (0.0, 26.0)]).merged(every))
}

/// Closed shapes side by side, each with a shell number of its own or one that another has.
pub fn shells(r: &mut Random, size: usize) -> Sheet {
    let mut all = Vec::new();
    for k in 0..size.max(2) {
        let shape = if r.chance(50) { lathe(3, &[(5.0, 0.0), (5.0, 9.0)]) } else { lathe(4, &[(0.0, -4.0), (6.0, 0.0), (0.0, 5.0)]) };
        let by = if r.chance(30) { [0.0; 3] } else { [20.0 * k as f64, 0.0, 0.0] };
        let shell = *r.pick(&[0, k as u32, 4_294_967_295, 7]);
        let first = all.len() as u32;
        let shape = if r.chance(30) { shape.reversed() } else { shape };
        all.extend(rows(r, &shape.moved(by), shell, first));
    }
    if r.chance(40) {
        shuffle(r, &mut all);
    }
    let sag = sag(r);
    sheet(all, sag)
}

pub fn void(r: &mut Random, _: usize) -> Sheet {
    let inner = if r.chance(50) { 0 } else { 1 };
    let mut all = rows(r, &cuboid(10.0, 10.0, 10.0), 0, 0);
    let corner = if r.chance(30) { [0.0; 3] } else { [2.0, 2.0, 2.0] };
    all.extend(rows(r, &cuboid(5.0, 5.0, 5.0).moved(corner).reversed(), inner, 6));
    let sag = sag(r);
    sheet(all, sag)
}

pub fn one_row(r: &mut Random, size: usize) -> Sheet {
    let mut shape = cuboid(3.0, 4.0, 5.0);
    for k in 1..=size.max(1) {
        let next = if r.chance(50) { cuboid(1.0, 1.0, 1.0) } else { cuboid(1.0, 1.0, 1.0).reversed() };
        shape = shape.joined(next.moved([10.0 * k as f64, 0.0, 0.0]));
    }
    let every = shape.faces.len();
    one(r, shape.merged(every))
}

/// Two bins whose back walls stand a tenth of a millimetre apart.
fn twin(r: &mut Random, far: f64) -> Sheet {
    let (width, depth, height) = (3000.0, 2500.0, 6000.0);
    let at: Point = *r.pick(&[[far, 0.0, 0.0], [0.0, far, 0.0], [far, far, 0.0], [-far, 17.3, 0.0]]);
    let gap = *r.pick(&[0.1, 0.1, 0.05, 0.25]);
    let along = *r.pick(&[[width + gap, 0.0, 0.0], [0.0, depth + gap, 0.0]]);
    let first = cuboid(width, depth, height).moved(at);
    let second = first.clone().moved(along);
    let mut all = rows(r, &first, 0, 0);
    let shell = if r.chance(70) { 1 } else { 0 };
    all.extend(rows(r, &second, shell, 6));
    let sag = *r.pick(&[0.05, 0.1, 0.25, 1.0]);
    sheet(all, sag)
}

pub fn twin_four(r: &mut Random, _: usize) -> Sheet {
    twin(r, 4.0e6)
}

pub fn twin_seven(r: &mut Random, _: usize) -> Sheet {
    twin(r, 7.0e6)
}

/// Empty rows, rows without triangles and upstream failures among good ones.
pub fn failed(r: &mut Random, size: usize) -> Sheet {
    let mut body = boxes(r, size);
    for k in 0..r.size(1, 6) {
        let (shell, face) = (r.below(3) as u32, 40 + k as u32);
        let row = match r.below(3) {
            0 => Row { shell, face, ..Row::default() },
            1 => Row { shell, face, outcome: *r.pick(&[1, 2, 7, 254, 255]), ..Row::default() },
            _ => Row { shell, face, positions: vec![bits([1e9, -3.0, 0.0]); 2], normals: vec![bits([0.0, 0.0, 1.0]); 2], ..Row::default() },
        };
        let at = r.size(0, body.rows.len());
        body.rows.insert(at, row);
    }
    body
}

/// The box is smaller than the body by a factor, so that some rows reach beyond its diagonal.
pub fn escape(r: &mut Random, size: usize) -> Sheet {
    let mut body = boxes(r, size);
    if r.chance(40) {
        // 13 is exactly the diagonal beyond the centre; its next value escapes.
        let x = 0x4150_0000 + r.below(3) as u32;
        body = sheet(
            vec![Row {
                positions: vec![[x, 0x4080_0000, 0], [0, 0, 0], [0x3f80_0000, 0, 0]],
                normals: vec![[0, 0, 0]; 3],
                indices: vec![0, 1, 2],
                ..Row::default()
            }],
            0.25,
        );
        body.corners = [0.0, 0.0, 0.0, 6.0, 8.0, 0.0].map(f64::to_bits);
        return body;
    }
    let shrink = *r.pick(&[0.3, 0.5, 0.1, 0.9]);
    for k in 0..3 {
        let (low, high) = (f64::from_bits(body.corners[k]), f64::from_bits(body.corners[k + 3]));
        body.corners[k + 3] = (low + (high - low) * shrink).to_bits();
    }
    body
}

pub fn materials(r: &mut Random, size: usize) -> Sheet {
    let mut body = boxes(r, size);
    for row in &mut body.rows {
        row.face = r.below(12) as u32;
    }
    for _ in 0..r.size(0, 9) {
        let material = *r.pick(&[0, 1, 2, 3, 9, 4_294_967_295]);
        body.materials.push((r.below(16) as u32, material));
    }
    body.default = *r.pick(&[None, Some(0), Some(2), Some(4_294_967_295)]);
    body
}

/// A scale for every coordinate, with a little noise on some.
fn rescaled(r: &mut Random, scale: f64, noise: f64) -> Sheet {
    let shape = if r.chance(50) { cuboid(1.0, 1.0, 1.0) } else { lathe(4, &[(1.0, 0.0), (1.0, 2.0)]) };
    let mut all = rows(r, &shape.scaled(scale), 0, 0);
    for v in all.iter_mut().flat_map(|row| &mut row.positions).flatten() {
        if r.chance(20) {
            *v = ((f32::from_bits(*v) as f64 + r.between(-noise, noise)) as f32).to_bits();
        }
    }
    let sag = *r.pick(&[scale * 0.1, scale, 1e-7, 0.25]);
    sheet(all, sag)
}

pub fn tiny(r: &mut Random, _: usize) -> Sheet {
    let scale = *r.pick(&[1e-6, 5e-7, 3e-6, 1e-5, 1e-9, 1e-3]);
    rescaled(r, scale, scale)
}

/// Coordinates of a size at which cells clamp and beyond, so that most of these are refused.
pub fn huge(r: &mut Random, _: usize) -> Sheet {
    let scale = *r.pick(&[1e12, 9.2e12, 1e13, 8.796e12, 1e20, 1e30, 1.7e38]);
    rescaled(r, scale, scale * 0.5)
}

/// A coordinate at the last ones whose cells do not clamp, of either sign, or a small one.
fn last_or_small(r: &mut Random) -> f64 {
    let last = f64::from(f32::from_bits(LAST_UNCLAMPED - *r.pick(&[0, 0, 1, 2, 40])));
    let small = *r.pick(&[0.0, -0.0, 1.0, -17.5, 1e-6, 4e6, -1e9]);
    *r.pick(&[last, -last, last, -last, small])
}

/// A box whose corners are at the last coordinates that do not clamp, or a shape of about that size with the rest cut off; some
/// coordinates stand a step of f32 nearer the origin.
pub fn farthest(r: &mut Random, _: usize) -> Sheet {
    let last = f64::from(f32::from_bits(LAST_UNCLAMPED));
    let mut body = if r.chance(60) {
        let ends = [(); 3].map(|_| [last_or_small(r), last_or_small(r)]);
        one(r, cuboid(1.0, 1.0, 1.0).mapped(|p| [0, 1, 2].map(|k| ends[k][(p[k] != 0.0) as usize])))
    } else {
        let scale = *r.pick(&[1e12, 8.796e12, 9.2e12, last]);
        rescaled(r, scale, scale * 0.5)
    };
    let closer = *r.pick(&[0, 0, 5, 30]);
    for bits in body.rows.iter_mut().flat_map(|row| &mut row.positions).flatten() {
        let amount = (*bits & !SIGN).min(LAST_UNCLAMPED);
        *bits = (*bits & SIGN) | if r.chance(closer) { amount.saturating_sub(1) } else { amount };
    }
    let sag = *r.pick(&[0.25, 1.1e6, 1e12, last, f64::INFINITY]);
    sheet(body.rows, sag)
}

pub fn subnormal(r: &mut Random, _: usize) -> Sheet {
    let mut body = boxes(r, 0);
    for v in body.rows.iter_mut().flat_map(|row| row.positions.iter_mut().chain(&mut row.normals)).flatten() {
        if r.chance(70) {
            *v = (*v & 0x8000_0000) | *r.pick(&[1, 2, 0x0040_0000, 0x007f_ffff, 0x0080_0000, 0]);
        }
    }
    body
}

pub fn negative_zero(r: &mut Random, _: usize) -> Sheet {
    let by = [-1.0, -1.0, 0.0];
    let mut all = rows(r, &cuboid(1.0, 2.0, 1.0).moved(by), 0, 0);
    all.extend(rows(r, &cuboid(1.0, 2.0, 1.0).moved([0.0, -1.0, 0.0]), 0, 6));
    for v in all.iter_mut().flat_map(|row| row.positions.iter_mut().chain(&mut row.normals)).flatten() {
        if *v == 0 && r.chance(40) {
            *v = 0x8000_0000;
        }
    }
    sheet(all, 0.25)
}

pub fn body_box(r: &mut Random, size: usize) -> Sheet {
    let mut body = boxes(r, size);
    let special = [f64::NAN, f64::INFINITY, f64::NEG_INFINITY, 0.0, -0.0, 1.0, 1e308, -1e308, 5e-324];
    match r.below(5) {
        0 => body.corners = [1.0f64; 6].map(f64::to_bits),
        1 => body.corners.swap(0, 3),
        2 => body.corners = [0; 6],
        _ => {
            for corner in &mut body.corners {
                if r.chance(60) {
                    *corner = r.pick(&special).to_bits();
                }
            }
        }
    }
    if r.chance(30) {
        turn(&mut body.rows[0]);
    }
    body
}
