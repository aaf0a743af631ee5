//! Bodies whose patches meet along seams that they cut differently, so that stitching splits their triangles.

use super::edges::row_of;
use super::shapes::{Point, bits, shuffle, sub, turn};
use crate::check::LAST_UNCLAMPED;
use crate::random::Random;
use crate::sheet::{Row, Sheet};

type Triangle = [Point; 3];

/// Two directions and a place at random, a length for a unit: what a seam is drawn in.
struct Frame {
    at: Point,
    along: Point,
    across: Point,
    unit: f64,
}

impl Frame {
    /// A frame near the origin or far away, with units from a tenth of a millimetre to ten kilometres.
    fn at_random(r: &mut Random) -> Frame {
        let unit = *r.pick(&[1.0, 10.0, 0.1, 250.0, 6000.0, 1e7]);
        let far = *r.pick(&[0.0, 0.0, 1.0, 100.0, 4e6, -7e6]);
        let at = [0; 3].map(|_| far * r.between(0.5, 1.0));
        let axes = r.chance(20);
        let along = if axes { [1.0, 0.0, 0.0] } else { direction(r) };
        let other = if axes { [0.0, 1.0, 0.0] } else { direction(r) };
        Frame { at, along, across: other, unit }
    }

    /// The point so far along and so far across, and a little off both.
    fn point(&self, x: f64, y: f64, off: Point) -> Point {
        [0, 1, 2].map(|k| self.at[k] + self.unit * (self.along[k] * x + self.across[k] * y + off[k]))
    }
}

fn direction(r: &mut Random) -> Point {
    [0; 3].map(|_| r.between(-1.0, 1.0))
}

/// A little way in any direction.
fn noise(r: &mut Random, size: f64) -> Point {
    [0; 3].map(|_| r.between(-size, size))
}

/// Rows of triangles with numbers of their own, some turned, with normals of which some are strange, in order or not.
fn body(r: &mut Random, rows: Vec<Vec<Triangle>>, sag: f64) -> Sheet {
    let mut all: Vec<Row> = rows.iter().enumerate().map(|(k, t)| row_of(t, r.below(2) as u32, k as u32)).collect();
    for row in &mut all {
        if r.chance(30) {
            turn(row);
        }
        for n in &mut row.normals {
            let strange =
                [bits([0.0; 3]), bits([0.0, 0.0, -1.0]), bits([1e-30, 1e-38, 0.0]), bits([3e38, -3e38, 1.0]), [1, 0x8000_0001, 0]];
            *n = if r.chance(10) { *r.pick(&strange) } else { *n };
            if r.chance(40) {
                *n = bits(direction(r));
            }
        }
    }
    if r.chance(40) {
        shuffle(r, &mut all);
    }
    super::shapes::sheet(all, sag)
}

/// Numbers that rise from 0 to 1, so many between them.
fn cuts(r: &mut Random, between: usize) -> Vec<f64> {
    let mut all: Vec<f64> = (0..between).map(|_| r.unit()).collect();
    all.extend([0.0, 1.0]);
    all.sort_by(f64::total_cmp);
    all
}

/// A fan over the points of a chain from one point beside it.
fn fan(chain: &[Point], beside: Point) -> Vec<Triangle> {
    chain.windows(2).map(|w| [w[0], w[1], beside]).collect()
}

/// About so many pieces, or a few.
fn pieces(r: &mut Random, size: usize, few: usize) -> usize {
    if size == 0 { r.size(1, few) } else { r.size(1, size) }
}

/// A sag around a length, now and then far from it or infinite.
fn sag_near(r: &mut Random, length: f64) -> f64 {
    let factor = r.between(0.2, 3.0);
    *r.pick(&[length * factor, length * factor, length * factor, length * 100.0, 1e-3, f64::INFINITY])
}

/// A straight edge that both sides cut, each with points of its own, at and off it.
pub fn line(r: &mut Random, size: usize) -> Sheet {
    let f = Frame::at_random(r);
    let off = *r.pick(&[0.0, 1e-6, 1e-4, 0.01]);
    let mut rows = Vec::new();
    for side in [1.0, -1.0] {
        let count = pieces(r, size, 4) - 1;
        let chain: Vec<Point> = cuts(r, count)
            .iter()
            .map(|t| {
                let off = if *t == 0.0 || *t == 1.0 { [0.0; 3] } else { noise(r, off) };
                f.point(*t, 0.0, off)
            })
            .collect();
        rows.push(fan(&chain, f.point(r.unit(), side, [0.0; 3])));
    }
    let sag = sag_near(r, off.max(1e-5) * f.unit);
    body(r, rows, sag)
}

/// A circle that one band cuts into more parts than the next, as tessellators leave it; the sag is about a chord's.
pub fn arc(r: &mut Random, size: usize) -> Sheet {
    let f = Frame::at_random(r);
    let (m, n) = (2 + pieces(r, size, 5), 2 + pieces(r, size, 7));
    let start = r.unit();
    let ring = |count: usize, height: f64, shift: f64| -> Vec<Point> {
        let turn = |k: usize| std::f64::consts::TAU * (start + (k as f64 + shift) / count as f64);
        (0..count).map(|k| f.point(turn(k).cos(), turn(k).sin(), f.across.map(|v| v * height * 0.3))).collect()
    };
    let mut rows = Vec::new();
    for (count, height) in [(m, 1.0), (n, -1.0)] {
        let (low, high) = (ring(count, 0.0, 0.0), ring(count, height, 0.5));
        let next = |k: usize| (k + 1) % count;
        let band: Vec<Triangle> =
            (0..count).flat_map(|k| [[low[k], low[next(k)], high[k]], [low[next(k)], high[next(k)], high[k]]]).collect();
        let every = r.size(1, band.len());
        rows.extend(band.chunks(every).map(<[Triangle]>::to_vec));
    }
    let chord = f.unit * (1.0 - (std::f64::consts::PI / m.min(n) as f64).cos());
    let sag = sag_near(r, chord);
    body(r, rows, sag)
}

/// A small triangle away from everything, with a corner at a point.
fn speck(r: &mut Random, at: Point, size: f64) -> Triangle {
    let (a, b) = (direction(r), direction(r));
    [at, [0, 1, 2].map(|k| at[k] + size * a[k]), [0, 1, 2].map(|k| at[k] + size * b[k])]
}

/// Points near a corner of a triangle, within the sag of two of its edges, or of all three.
pub fn corner(r: &mut Random, size: usize) -> Sheet {
    let f = Frame::at_random(r);
    let big = [f.point(0.0, 0.0, [0.0; 3]), f.point(1.0, 0.0, noise(r, 0.3)), f.point(0.0, 1.0, noise(r, 0.3))];
    let mut rows = vec![vec![big]];
    let reach = *r.pick(&[0.001, 0.05, 0.3]);
    for _ in 0..pieces(r, size, 6) {
        let k = r.size(0, 2);
        let (from, a, b) = (big[k], sub(big[(k + 1) % 3], big[k]), sub(big[(k + 2) % 3], big[k]));
        let (x, y) = (r.unit() * reach, r.between(-0.3, 1.0) * reach);
        let at = [0, 1, 2].map(|axis| from[axis] + a[axis] * x + b[axis] * y + f.unit * r.between(-0.1, 0.1) * reach);
        let size = f.unit * reach;
        rows.push(vec![speck(r, at, size)]);
    }
    let sag = sag_near(r, f.unit * reach);
    body(r, rows, sag)
}

/// Slivers: the third corner stands on the opposite edge or near it; some have all three corners on a line, some twice one corner.
pub fn sliver(r: &mut Random, size: usize) -> Sheet {
    let f = Frame::at_random(r);
    let height = *r.pick(&[0.0, 1e-5, 1e-3, 0.02]);
    let mut rows = Vec::new();
    for k in 0..pieces(r, size, 5) {
        let y = k as f64 * *r.pick(&[0.0, 0.001, 0.5]);
        let (a, b) = (f.point(r.unit(), y, [0.0; 3]), f.point(1.0 + r.unit(), y, noise(r, 0.1)));
        let t = r.unit();
        let c = [0, 1, 2].map(|axis| a[axis] + (b[axis] - a[axis]) * t + f.unit * height * r.between(-1.0, 1.0));
        let mut triangles = vec![[a, b, c]];
        if r.chance(20) {
            triangles.push([a, a, c]);
        }
        rows.push(triangles);
    }
    let sag = sag_near(r, f.unit * height.max(1e-5));
    body(r, rows, sag)
}

/// Triangles anywhere, some with a shared corner or edge.
pub fn thicket(r: &mut Random, size: usize) -> Sheet {
    let f = Frame::at_random(r);
    let count = pieces(r, size.min(30), 7);
    let points: Vec<Point> = (0..2 * count + 3).map(|_| f.point(0.0, 0.0, noise(r, 1.0))).collect();
    let mut rows = Vec::new();
    for _ in 0..count {
        rows.push((0..r.size(1, 2)).map(|_| [0; 3].map(|_| *r.pick(&points))).collect());
    }
    let sag = sag_near(r, f.unit * 0.3);
    body(r, rows, sag)
}

/// Points whose parameters on a long edge lie within about 1e-9 of each other, so that some are dropped, and around its ends at 1e-6.
pub fn close(r: &mut Random, size: usize) -> Sheet {
    let long = *r.pick(&[4096.0, 3000.0, 20_000.0]);
    let tilt = direction(r).map(|v| 0.3 * v);
    let end = [long, long * tilt[1], long * tilt[2]];
    let apex = [long * 0.4, long * 0.7, long * tilt[0]];
    let mut rows = vec![vec![[[0.0; 3], end, apex]]];
    for _ in 0..pieces(r, size, 6) {
        let x = *r.pick(&[1.5, 1.5, 3.25, 1e-6 * long, 0.5 * long, (1.0 - 1e-6) * long]) + r.between(-3e-6, 3e-6);
        let t = x / long;
        let at = [0, 1, 2].map(|k| end[k] * t + if k == 0 { 0.0 } else { *r.pick(&[0.0, 1e-6, -2e-6, 0.125]) });
        let (a, b) = ([at[0] + 1.0, at[1] - 2.0, at[2] - 50.0], [at[0] - 1.0, at[1] - 1.0, at[2] - 60.0]);
        rows.push(vec![[at, a, b]]);
    }
    let sag = *r.pick(&[0.25, 1e-6, 3e-6, 10.0, 1e9]);
    body(r, rows, sag)
}

/// All of a length, or some of it.
fn part(r: &mut Random) -> f64 {
    let some = r.between(0.5, 1.0);
    *r.pick(&[1.0, some, some])
}

/// Corners up to the last coordinates whose cells don't clamp, beside points near the origin.
pub fn ends(r: &mut Random, size: usize) -> Sheet {
    let last = f64::from(f32::from_bits(LAST_UNCLAMPED));
    let scale = *r.pick(&[last, last, 9.2e12, 8.7e12, 4e12]);
    let mut rows = Vec::new();
    for k in 0..pieces(r, size.min(12), 4) {
        let apart = k as f64;
        let (a, b) = ([-scale * part(r), apart, 0.0], [scale * part(r), apart, 1.0]);
        let c = [r.between(-1.0, 1.0) * 1e6, *r.pick(&[scale, -scale, 1e6, 17.0]), apart];
        rows.push(vec![[a, b, c]]);
        if r.chance(50) {
            let at = [r.between(-1.0, 1.0) * *r.pick(&[1.0, 1e6, 4e12]), apart + 0.25, -apart];
            rows.push(vec![speck(r, at, 100.0)]);
        }
    }
    let sag = *r.pick(&[f64::INFINITY, 1e308, scale, 1e6, 1.0]);
    body(r, rows, sag)
}

/// Coordinates around the size of a cell, a millionth, and below f32's normal numbers.
pub fn cells(r: &mut Random, size: usize) -> Sheet {
    let unit = *r.pick(&[2e-6, 1e-5, 1e-4, 1e-3]);
    let grid = |r: &mut Random, x: f64| (x / 1e-6).round() * 1e-6 + *r.pick(&[0.0, 0.0, 1e-40, 3e-8]);
    let mut rows = vec![vec![[[0.0; 3], [unit, 0.0, 0.0], [0.3 * unit, unit, 0.0]]]];
    for _ in 0..pieces(r, size.min(8), 4) {
        let x = r.unit() * unit;
        let at = [grid(r, x), *r.pick(&[0.0, 1e-45, 1e-6, -1e-6]), *r.pick(&[0.0, -0.0, 2e-6])];
        rows.push(vec![[at, [at[0], -3.0, 4.0], [at[0] + 0.5, -3.0, 4.0]]]);
    }
    let sag = *r.pick(&[1e-6, 5e-324, 1e-40, 1e-9, 1.0, f64::INFINITY]);
    body(r, rows, sag)
}
