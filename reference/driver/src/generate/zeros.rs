//! Bodies with 0.0 and −0.0 on planes through the origin: seams with one of them on each side, solids that touch there, and triangles
//! with corners that differ by the sign of a zero alone.

use super::edges::row_of;
use super::shapes::{Point, Shape, band, cuboid, lathe, rows, sheet, shuffle, torus};
use crate::closed::NEGATIVE_ZERO;
use crate::random::Random;
use crate::sheet::{Row, Sheet};

/// For each axis, whether something is so there.
type Axes = [bool; 3];

const SOME_AXES: [Axes; 7] = [
    [true, false, false],
    [false, true, false],
    [false, false, true],
    [true, true, false],
    [true, false, true],
    [false, true, true],
    [true, true, true],
];

/// Numbers beside the two zeros, some of them in the cell of 0.
const BESIDE: [u32; 8] = [1, 0x8000_0001, 0x007f_ffff, 0x0080_0000, 0x8080_0000, 0x33d6_bf95, 0xb3d6_bf95, 0x3f80_0000];

fn is_zero(bits: u32) -> bool {
    bits == 0 || bits == NEGATIVE_ZERO
}

fn zero(negative: bool) -> u32 {
    if negative { NEGATIVE_ZERO } else { 0 }
}

fn any_axes(r: &mut Random) -> Axes {
    [0; 3].map(|_| r.chance(50))
}

/// A point whose zeros are −0.0 on some axes and 0.0 on the others.
fn signed(p: Point, negative: Axes) -> Point {
    [0, 1, 2].map(|k| if p[k] != 0.0 { p[k] } else { f64::from(f32::from_bits(zero(negative[k]))) })
}

/// An octahedron about the origin, one face in each octant.
fn octahedron(half: Point) -> Shape {
    let end = |k: usize, side: f64| [0, 1, 2].map(|axis| if axis == k { side * half[k] } else { 0.0 });
    let points = (0..3).flat_map(|k| [end(k, 1.0), end(k, -1.0)]).collect();
    let face = |octant: usize| {
        let [x, y, z] = [octant & 1, 2 + (octant >> 1 & 1), 4 + (octant >> 2)];
        vec![if octant.count_ones() % 2 == 0 { [x, y, z] } else { [x, z, y] }]
    };
    Shape { points, faces: (0..8).map(face).collect() }
}

/// A box about the origin of so many quadrilaterals along each axis.
fn grid_box(cells: [usize; 3], half: Point) -> Shape {
    let at = |axis: usize, k: usize| half[axis] * (2.0 * k as f64 - cells[axis] as f64) / cells[axis] as f64;
    let mut all = Shape::default();
    for (k, u, v) in [(0, 1, 2), (1, 2, 0), (2, 0, 1)] {
        let point = |side: f64, i: usize, j: usize| {
            let mut p = [0.0; 3];
            (p[k], p[u], p[v]) = (side * half[k], at(u, i), at(v, j));
            p
        };
        all = all.joined(band(cells[u], cells[v], |i, j| point(1.0, i, j)));
        all = all.joined(band(cells[v], cells[u], |j, i| point(-1.0, i, j)));
    }
    all
}

/// A bin on a cone about the third axis, of so many sides, its rim in a plane through the origin.
fn hopper(sides: usize) -> Shape {
    lathe(sides, &[(0.0, -2.0), (1.0, 0.0), (1.0, 1.5)])
}

/// What rounding left beside 0 taken to 0.
fn snapped(shape: Shape) -> Shape {
    shape.mapped(|p| p.map(|v| if v.abs() < 1e-9 { 0.0 } else { v }))
}

/// A closed shape about the origin with points on one plane through it or more; of many rows if it has a size.
fn across(r: &mut Random, size: usize) -> Shape {
    let half = [0; 3].map(|_| *r.pick(&[1.0, 0.5, 3.0, 1500.0]));
    if size == 0 {
        let cells = *r.pick(&[[2, 1, 1], [1, 2, 1], [1, 1, 2], [2, 2, 1], [2, 1, 2], [1, 2, 2]]);
        return match r.below(3) {
            0 => octahedron(half),
            1 => snapped(hopper(4)).scaled(half[0]),
            _ => grid_box(cells, half),
        };
    }
    let cells = size.div_ceil(4);
    let shape = match r.below(3) {
        0 => grid_box([2 * cells; 3], half),
        1 => snapped(hopper(4 * cells)).scaled(half[0]),
        _ => snapped(torus(4 * cells, 4, 3.0, 1.0)).scaled(half[0]),
    };
    let every = shape.faces.len().div_ceil(r.size(6, 400));
    shape.merged(every)
}

/// Whether a row lies on the negative side of an axis.
fn is_below(row: &Row, axis: usize) -> bool {
    row.positions.iter().map(|p| f64::from(f32::from_bits(p[axis]))).sum::<f64>() < 0.0
}

/// Signs for the zeros of rows, on some axes: one on each side, any for each row or any for each vertex; on the others all the same.
fn sign_zeros(r: &mut Random, rows: &mut [Row]) {
    let (axes, how, mirrored, others) = (*r.pick(&SOME_AXES), r.below(4), r.chance(50), r.chance(20));
    for row in rows {
        for axis in 0..3 {
            let of_row = if how < 2 { is_below(row, axis) != mirrored } else { r.chance(50) };
            for v in row.positions.iter_mut().map(|p| &mut p[axis]).filter(|v| is_zero(**v)) {
                let negative = if how == 3 { r.chance(50) } else { of_row };
                *v = zero(if axes[axis] { negative } else { others });
            }
        }
    }
}

/// A triangle or a row too few or too many, or a number beside 0 in the place of one; most bodies stay as they are.
fn damage(r: &mut Random, all: &mut Vec<Row>) {
    if all.is_empty() || r.chance(60) {
        return;
    }
    let k = r.size(0, all.len() - 1);
    match r.below(5) {
        0 => drop(all.remove(k)),
        1 => drop(all[k].indices.drain(..3)),
        2 => all[k].indices.extend_from_within(..3),
        3 if all.len() < 16 => all.push(all[k].clone()),
        _ => {
            if let Some(v) = all[k].positions.iter_mut().flatten().find(|v| is_zero(**v)) {
                *v = *r.pick(&BESIDE);
            }
        }
    }
}

/// One −0.0 and no other: at the first vertex of all, at the last, or anywhere, if that vertex has a zero.
fn leave_one(r: &mut Random, all: &mut [Row]) {
    let mut vertices: Vec<&mut [u32; 3]> = all.iter_mut().flat_map(|row| &mut row.positions).collect();
    vertices.iter_mut().flat_map(|p| p.iter_mut()).filter(|v| is_zero(**v)).for_each(|v| *v = 0);
    let last = vertices.len().saturating_sub(1);
    let any = r.size(0, last);
    let k = *r.pick(&[0, last, any]);
    if let Some(v) = vertices.get_mut(k).and_then(|p| p.iter_mut().find(|v| **v == 0)) {
        *v = NEGATIVE_ZERO;
    }
}

fn finished(r: &mut Random, mut all: Vec<Row>) -> Sheet {
    damage(r, &mut all);
    if r.chance(30) {
        shuffle(r, &mut all);
    }
    if r.chance(10) {
        leave_one(r, &mut all);
    }
    let sag = *r.pick(&[0.0, 0.25, 0.25]);
    sheet(all, sag)
}

/// A closed shape across its own axes.
pub fn seam(r: &mut Random, size: usize) -> Sheet {
    let shape = across(r, size);
    let mut all = rows(r, &shape, 0, 0);
    sign_zeros(r, &mut all);
    finished(r, all)
}

/// A tetrahedron in a quadrant of the first two axes, of which one edge alone stands on the third.
fn wedge(quadrant: usize, height: f64) -> Shape {
    let [x, y] = [if quadrant & 1 == 0 { 1.0 } else { -1.0 }, if quadrant & 2 == 0 { 1.0 } else { -1.0 }];
    let points = vec![[0.0; 3], [0.0, 0.0, height], [2.0 * x, y, 0.0], [x, 2.0 * y, height]];
    Shape { points, faces: vec![vec![[0, 2, 1]], vec![[0, 1, 3]], vec![[0, 3, 2]], vec![[1, 2, 3]]] }
}

/// Solids that touch along an edge, or along a face, at a corner, or along a part of an edge.
fn touching(r: &mut Random) -> Vec<Shape> {
    let [x, y, z] = [0; 3].map(|_| *r.pick(&[1.0, 2.0, 0.5]));
    let one = cuboid(x, y, z);
    match r.below(4) {
        0 => (0..4).filter(|_| r.chance(70)).map(|quadrant| wedge(quadrant, z)).collect(),
        1 => vec![wedge(0, z), wedge(3, z)],
        2 => vec![one.clone().moved([-x, -y, *r.pick(&[0.0, 0.0, 0.0, -z, z / 2.0])]), one],
        _ => vec![one.clone().moved([-x, *r.pick(&[0.0, 0.0, y / 2.0]), 0.0]), one],
    }
}

/// Solids that touch, each with its own zeros.
pub fn touch(r: &mut Random, _: usize) -> Sheet {
    let order = *r.pick(&[[0, 1, 2], [1, 2, 0], [2, 0, 1], [0, 2, 1], [1, 0, 2], [2, 1, 0]]);
    let shells = r.chance(50);
    let mut all: Vec<Row> = Vec::new();
    for (k, solid) in touching(r).into_iter().enumerate() {
        let negative = any_axes(r);
        let placed = solid.mapped(|p| signed(order.map(|axis| p[axis]), negative));
        let first = all.len() as u32;
        all.extend(rows(r, &placed, if shells { k as u32 } else { 0 }, first));
    }
    finished(r, all)
}

/// A point on a small lattice, its zeros of any sign.
fn lattice_point(r: &mut Random) -> Point {
    let p = [0; 3].map(|_| *r.pick(&[0.0, 0.0, 1.0, -1.0]));
    signed(p, any_axes(r))
}

/// A point on a small lattice with a zero.
fn with_zero(r: &mut Random) -> Point {
    let (mut p, axis) = (lattice_point(r), r.size(0, 2));
    p[axis] = 0.0;
    p
}

/// A tetrahedron of which one corner is two points, the sign of a zero apart, with two triangles between these.
fn split_corner(r: &mut Random) -> Vec<[Point; 3]> {
    let axis = r.size(0, 2);
    let corner = |k: usize, side: f64| [0, 1, 2].map(|n| if n == (axis + k) % 3 { side } else { 0.0 });
    let (a, b, c, d) = (corner(1, 2.0), corner(2, 1.0), corner(2, -1.0), corner(1, -1.0));
    let other = signed(a, [0, 1, 2].map(|n| n == axis));
    vec![[a, b, c], [other, c, d], [other, d, b], [b, d, c], [a, c, other], [other, b, a]]
}

/// Triangles of which two corners or all three differ by signs of zeros alone, by themselves or beside a closed shape.
pub fn sliver(r: &mut Random, size: usize) -> Sheet {
    let mut all = if r.chance(60) { rows(r, &octahedron([1.0; 3]), 0, 0) } else { Vec::new() };
    sign_zeros(r, &mut all);
    if r.chance(30) {
        let triangles = split_corner(r);
        all.push(row_of(&triangles, 0, all.len() as u32));
    }
    let mut base = with_zero(r);
    for _ in 0..if size == 0 { r.size(1, 4) } else { size } {
        base = if r.chance(60) { base } else { with_zero(r) };
        let far = lattice_point(r);
        let third = if r.chance(25) { base } else { [far[0] * 3.0, far[1], far[2]] };
        let corners = [base, base, third].map(|p| signed(p, any_axes(r)));
        all.push(row_of(&[corners], r.below(2) as u32, all.len() as u32));
    }
    finished(r, all)
}

/// Triangles on a small lattice, each laid twice or another number of times, with zeros of any sign.
pub fn lattice(r: &mut Random, size: usize) -> Sheet {
    let mut all: Vec<Row> = Vec::new();
    for _ in 0..if size == 0 { r.size(1, 5) } else { size } {
        let corners = [0; 3].map(|_| lattice_point(r));
        let times = *r.pick(&[1, 2, 2, 2, 2, 2, 2, 3, 4]);
        let laid: Vec<[Point; 3]> = (0..times).map(|_| corners.map(|p| signed(p, any_axes(r)))).collect();
        all.extend(laid.iter().map(|t| row_of(&[*t], 0, 0)));
    }
    for (k, row) in all.iter_mut().enumerate() {
        row.face = k as u32;
    }
    finished(r, all)
}
