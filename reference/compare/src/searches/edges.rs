//! An edge, and where a point projects into it: the source's formulas, step by step.

pub type Point = [f64; 3];

/// The parameters between which a point counts.
pub const NEAR_END: f64 = 1e-6;
pub const FAR_END: f64 = 1.0 - 1e-6;

/// An edge's start, the way to its end, and the square of its length.
pub struct Edge {
    pub start: Point,
    pub along: Point,
    pub squared: f64,
}

/// The first three of some coordinates.
pub fn widened(p: &[f32]) -> Point {
    [0, 1, 2].map(|k| f64::from(p[k]))
}

pub fn dot(a: Point, b: Point) -> f64 {
    a[0] * b[0] + a[1] * b[1] + a[2] * b[2]
}

impl Edge {
    pub fn of(p: Point, q: Point) -> Edge {
        let along = [0, 1, 2].map(|k| q[k] - p[k]);
        Edge { start: p, along, squared: dot(along, along) }
    }

    /// The parameter of a point that projects into the edge, and its distance from there.
    pub fn project(&self, r: Point) -> Option<(f64, f64)> {
        if self.squared <= 0.0 {
            return None;
        }
        let way = [0, 1, 2].map(|k| r[k] - self.start[k]);
        let t = dot(way, self.along) / self.squared;
        if !(t > NEAR_END && t < FAR_END) {
            return None;
        }
        let off = [0, 1, 2].map(|k| way[k] - self.along[k] * t);
        Some((t, dot(off, off).sqrt()))
    }
}
