//! Closed shapes as faces of triangles, wound outward, and how a shape becomes rows.

use crate::random::Random;
use crate::sheet::{Row, Sheet};

pub type Point = [f64; 3];

/// Points, and faces of triangles over them.
#[derive(Clone, Default)]
pub struct Shape {
    pub points: Vec<Point>,
    pub faces: Vec<Vec<[usize; 3]>>,
}

impl Shape {
    /// A quadrilateral face, by corners in turn.
    fn quad(&mut self, a: usize, b: usize, c: usize, d: usize) {
        self.faces.push(vec![[a, b, c], [a, c, d]]);
    }

    /// A face of several corners in turn, as a fan.
    fn polygon(&mut self, corners: &[usize]) {
        self.faces.push((1..corners.len() - 1).map(|k| [corners[0], corners[k], corners[k + 1]]).collect());
    }

    pub fn mapped(mut self, f: impl Fn(Point) -> Point) -> Shape {
        self.points.iter_mut().for_each(|p| *p = f(*p));
        self
    }

    pub fn moved(self, by: Point) -> Shape {
        self.mapped(|p| [p[0] + by[0], p[1] + by[1], p[2] + by[2]])
    }

    pub fn scaled(self, by: f64) -> Shape {
        self.mapped(|p| p.map(|v| v * by))
    }

    /// All faces of one shape behind those of another.
    pub fn joined(mut self, other: Shape) -> Shape {
        let base = self.points.len();
        self.points.extend(other.points);
        self.faces.extend(other.faces.into_iter().map(|f| f.into_iter().map(|t| t.map(|i| i + base)).collect::<Vec<_>>()));
        self
    }

    /// Every so many faces as one.
    pub fn merged(mut self, every: usize) -> Shape {
        self.faces = self.faces.chunks(every.max(1)).map(|c| c.concat()).collect();
        self
    }

    pub fn reversed(mut self) -> Shape {
        self.faces.iter_mut().flatten().for_each(|t| t.swap(1, 2));
        self
    }
}

/// A box from the origin.
pub fn cuboid(x: f64, y: f64, z: f64) -> Shape {
    let points = (0..8).map(|i| [if i & 1 == 0 { 0.0 } else { x }, if i & 2 == 0 { 0.0 } else { y }, if i & 4 == 0 { 0.0 } else { z }]);
    let mut s = Shape { points: points.collect(), faces: Vec::new() };
    s.quad(0, 2, 3, 1);
    s.quad(4, 5, 7, 6);
    s.quad(0, 1, 5, 4);
    s.quad(2, 6, 7, 3);
    s.quad(0, 4, 6, 2);
    s.quad(1, 3, 7, 5);
    s
}

/// Rings of n points at heights, with radii; a radius of 0 is one point. The ends are closed.
pub fn lathe(n: usize, rings: &[(f64, f64)]) -> Shape {
    let mut s = Shape::default();
    let mut starts = Vec::new();
    for (radius, height) in rings {
        starts.push(s.points.len());
        let count = if *radius == 0.0 { 1 } else { n };
        for k in 0..count {
            let angle = std::f64::consts::TAU * k as f64 / n as f64;
            s.points.push([radius * angle.cos(), radius * angle.sin(), *height]);
        }
    }
    let at = |ring: usize, k: usize| if rings[ring].0 == 0.0 { starts[ring] } else { starts[ring] + k % n };
    for r in 0..rings.len() - 1 {
        for k in 0..n {
            let (a, b, c, d) = (at(r, k), at(r, k + 1), at(r + 1, k + 1), at(r + 1, k));
            match (a == b, c == d) {
                (true, _) => s.faces.push(vec![[a, c, d]]),
                (_, true) => s.faces.push(vec![[a, b, c]]),
                _ => s.quad(a, b, c, d),
            }
        }
    }
    let last = rings.len() - 1;
    if rings[0].0 != 0.0 {
        s.polygon(&(0..n).rev().map(|k| at(0, k)).collect::<Vec<_>>());
    }
    if rings[last].0 != 0.0 {
        s.polygon(&(0..n).map(|k| at(last, k)).collect::<Vec<_>>());
    }
    s
}

/// A torus of m by n quadrilaterals.
pub fn torus(m: usize, n: usize, major: f64, minor: f64) -> Shape {
    let mut s = Shape::default();
    for i in 0..m {
        for j in 0..n {
            let (u, v) = (std::f64::consts::TAU * i as f64 / m as f64, std::f64::consts::TAU * j as f64 / n as f64);
            let r = major + minor * v.cos();
            s.points.push([r * u.cos(), r * u.sin(), minor * v.sin()]);
        }
    }
    let at = |i: usize, j: usize| (i % m) * n + j % n;
    for i in 0..m {
        for j in 0..n {
            s.quad(at(i, j), at(i + 1, j), at(i + 1, j + 1), at(i, j + 1));
        }
    }
    s
}

/// A band of m by n quadrilaterals, its points placed by their two numbers, which run to m and n.
pub fn band(m: usize, n: usize, at: impl Fn(usize, usize) -> Point) -> Shape {
    let mut s = Shape { points: (0..=m).flat_map(|i| (0..=n).map(move |j| (i, j))).map(|(i, j)| at(i, j)).collect(), faces: Vec::new() };
    let number = |i: usize, j: usize| i * (n + 1) + j;
    for i in 0..m {
        for j in 0..n {
            s.quad(number(i, j), number(i + 1, j), number(i + 1, j + 1), number(i, j + 1));
        }
    }
    s
}

pub fn bits(p: Point) -> [u32; 3] {
    p.map(|v| (v as f32).to_bits())
}

/// The unit normal of a triangle, or one along z where it has none.
pub fn normal(a: Point, b: Point, c: Point) -> Point {
    let (u, v) = (sub(b, a), sub(c, a));
    let n = [u[1] * v[2] - u[2] * v[1], u[2] * v[0] - u[0] * v[2], u[0] * v[1] - u[1] * v[0]];
    let length = n.iter().map(|x| x * x).sum::<f64>().sqrt();
    if length > 0.0 && length.is_finite() { n.map(|x| x / length) } else { [0.0, 0.0, 1.0] }
}

pub fn sub(a: Point, b: Point) -> Point {
    [a[0] - b[0], a[1] - b[1], a[2] - b[2]]
}

/// A row of one face: its own vertices in order of first use, with the normal of its first triangle.
pub fn row(shape: &Shape, face: &[[usize; 3]], shell: u32, number: u32) -> Row {
    let mut row = Row { shell, face: number, ..Row::default() };
    let mut own = std::collections::HashMap::new();
    let n = face.first().map_or([0.0, 0.0, 1.0], |t| normal(shape.points[t[0]], shape.points[t[1]], shape.points[t[2]]));
    for i in face.iter().flatten() {
        let local = *own.entry(*i).or_insert_with(|| {
            row.positions.push(bits(shape.points[*i]));
            row.normals.push(bits(n));
            row.positions.len() as u32 - 1
        });
        row.indices.push(local);
    }
    row
}

/// Corners 1 and 2 of each triangle swapped, normals negated.
pub fn turn(row: &mut Row) {
    row.indices.chunks_exact_mut(3).for_each(|t| t.swap(1, 2));
    row.normals.iter_mut().flatten().for_each(|v| *v ^= 0x8000_0000);
}

/// The rows of a shape, about so many of a hundred turned, faces numbered on from a first.
pub fn wound_rows(r: &mut Random, shape: &Shape, shell: u32, first: u32, percent: u64) -> Vec<Row> {
    let mut rows: Vec<Row> = shape.faces.iter().enumerate().map(|(k, f)| row(shape, f, shell, first + k as u32)).collect();
    for row in &mut rows {
        if r.chance(percent) {
            turn(row);
        }
    }
    rows
}

/// The rows of a shape, some of them turned, in order or not, faces numbered on from a first.
pub fn rows(r: &mut Random, shape: &Shape, shell: u32, first: u32) -> Vec<Row> {
    let percent = *r.pick(&[0, 20, 50, 100]);
    let mut rows = wound_rows(r, shape, shell, first, percent);
    if r.chance(30) {
        shuffle(r, &mut rows);
    }
    rows
}

pub fn shuffle<T>(r: &mut Random, things: &mut [T]) {
    for i in (1..things.len()).rev() {
        things.swap(i, r.below(i as u64 + 1) as usize);
    }
}

/// The box around the rows' vertices, as bits.
pub fn bounds(rows: &[Row]) -> [u64; 6] {
    let (mut low, mut high) = ([f64::INFINITY; 3], [f64::NEG_INFINITY; 3]);
    for p in rows.iter().flat_map(|r| &r.positions) {
        for k in 0..3 {
            let v = f32::from_bits(p[k]) as f64;
            low[k] = low[k].min(v);
            high[k] = high[k].max(v);
        }
    }
    let c = [low[0], low[1], low[2], high[0], high[1], high[2]];
    if rows.iter().all(|r| r.positions.is_empty()) { [0; 6] } else { c.map(f64::to_bits) }
}

/// A sheet of rows in their own box.
pub fn sheet(rows: Vec<Row>, sag: f64) -> Sheet {
    Sheet { corners: bounds(&rows), sag: sag.to_bits(), default: None, materials: Vec::new(), rows }
}
