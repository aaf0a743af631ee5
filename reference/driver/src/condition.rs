//! Document 01's condition for an exact match with the Rust: no two loose points share a key with other bits, and no two points
//! placed on an edge tie. Where it fails, the Rust's answer may hang on the order of its hash maps.

use crate::finish::faces_of;
use crate::sheet::Sheet;
use crate::source::key;
use cad_tess::face::{Patch, probe};
use std::collections::{BTreeMap, HashMap, HashSet};

#[derive(Debug, Clone, Copy, PartialEq, Eq)]
pub enum Condition {
    Exact,
    SharedKey,
    Tie,
}

impl Condition {
    pub fn name(self) -> &'static str {
        match self {
            Condition::Exact => "exact",
            Condition::SharedKey => "shared-key",
            Condition::Tie => "tie",
        }
    }
}

type Point = [f64; 3];

fn widened(p: [f32; 3]) -> Point {
    p.map(f64::from)
}

fn dot(a: Point, b: Point) -> f64 {
    a[0] * b[0] + a[1] * b[1] + a[2] * b[2]
}

/// Where a point projects into an edge under the t rule, and its distance from there.
fn project(p: Point, q: Point, r: Point) -> Option<(f64, f64)> {
    let d = [q[0] - p[0], q[1] - p[1], q[2] - p[2]];
    let squared = dot(d, d);
    if squared <= 0.0 {
        return None;
    }
    let w = [r[0] - p[0], r[1] - p[1], r[2] - p[2]];
    let t = dot(w, d) / squared;
    if !(t > 1e-6 && t < 1.0 - 1e-6) {
        return None;
    }
    let off = [w[0] - d[0] * t, w[1] - d[1] * t, w[2] - d[2] * t];
    Some((t, dot(off, off).sqrt()))
}

/// A triangle by its corners' bits, with the edges of it that are open.
struct Facet {
    corners: [[f32; 3]; 3],
    open: [bool; 3],
}

fn corners(patch: &Patch) -> impl Iterator<Item = [[f32; 3]; 3]> + '_ {
    patch.indices.chunks_exact(3).map(|t| [0, 1, 2].map(|k| patch.positions[t[k] as usize]))
}

/// The edge from corner e, as its ends' keys, the lower first; none if they are equal.
fn edge(corners: &[[f32; 3]; 3], e: usize) -> Option<(u64, u64)> {
    let (a, b) = (key(&corners[e]), key(&corners[(e + 1) % 3]));
    (a != b).then_some((a.min(b), a.max(b)))
}

/// The triangles of a body that have an open edge.
fn open_facets<'a>(patches: impl Iterator<Item = &'a Patch>) -> Vec<Facet> {
    let all: Vec<[[f32; 3]; 3]> = patches.flat_map(corners).collect();
    let mut uses: HashMap<(u64, u64), usize> = HashMap::new();
    for id in all.iter().flat_map(|c| (0..3).filter_map(|e| edge(c, e))) {
        *uses.entry(id).or_default() += 1;
    }
    let facets = all.into_iter().map(|corners| {
        let open = [0, 1, 2].map(|e| edge(&corners, e).is_some_and(|id| uses[&id] == 1));
        Facet { corners, open }
    });
    facets.filter(|f| f.open.contains(&true)).collect()
}

/// Loose points with their keys, ordered by x, so that those beside a triangle are found among the others.
struct Loose {
    points: Vec<(u64, Point)>,
    /// How far beside a triangle a point may be that splits it: the sag, and more than all rounding.
    reach: f64,
}

/// What rounding adds to a distance at most, as a part of the largest coordinate.
const ROUNDING: f64 = 1e-9;

impl Loose {
    fn of(by_key: &BTreeMap<u64, [f32; 3]>, sag: f64) -> Loose {
        let mut points: Vec<(u64, Point)> = by_key.iter().map(|(key, p)| (*key, widened(*p))).collect();
        points.sort_by(|(_, a), (_, b)| a[0].total_cmp(&b[0]));
        let largest = points.iter().flat_map(|(_, p)| p).fold(0.0, |most: f64, v| most.max(v.abs()));
        Loose { points, reach: sag + ROUNDING * largest }
    }

    /// The points that are not too far beside a triangle along x.
    fn beside(&self, corners: &[Point; 3]) -> &[(u64, Point)] {
        let xs = corners.map(|corner| corner[0]);
        let (low, high) = (xs[0].min(xs[1]).min(xs[2]) - self.reach, xs[0].max(xs[1]).max(xs[2]) + self.reach);
        let first = self.points.partition_point(|(_, p)| p[0] < low);
        let past = self.points.partition_point(|(_, p)| p[0] <= high);
        &self.points[first..past]
    }
}

/// The edge that a point is placed on, and its parameter there.
fn place(at: &[Point; 3], r: Point) -> Option<(usize, f64)> {
    let mut best: Option<(usize, f64, f64)> = None;
    for e in 0..3 {
        if let Some((t, distance)) = project(at[e], at[(e + 1) % 3], r)
            && best.is_none_or(|(_, _, b)| distance < b)
        {
            best = Some((e, t, distance));
        }
    }
    best.map(|(e, t, _)| (e, t))
}

/// Whether two points that split a triangle are placed on one edge with one parameter.
fn ties(facet: &Facet, loose: &Loose, sag: f64) -> bool {
    let at = facet.corners.map(widened);
    let ends = facet.corners.map(|c| key(&c));
    let mut placed = HashSet::new();
    loose.beside(&at).iter().any(|(k, r)| {
        let splits = (0..3).any(|e| {
            let next = (e + 1) % 3;
            facet.open[e]
                && *k != ends[e]
                && *k != ends[next]
                && project(at[e], at[next], *r).is_some_and(|(_, distance)| !(distance > sag))
        });
        splits && place(&at, *r).is_some_and(|(e, t)| !placed.insert((e, t.to_bits())))
    })
}

/// The triangles with an open edge of a body that the Rust turned.
fn turned_open_facets(sheet: &Sheet) -> Vec<Facet> {
    let mut faces = faces_of(sheet);
    probe::orient_shell(&mut faces);
    open_facets(faces.iter().filter_map(|(_, _, r)| r.as_ref().ok()))
}

/// How many triangles of a body have an open edge; stitching takes time that goes with the square of it, in the Rust too.
pub fn open_triangles(sheet: &Sheet) -> usize {
    turned_open_facets(sheet).len()
}

/// Which part of the condition a body breaks, if it breaks one.
pub fn condition(sheet: &Sheet) -> Condition {
    let sag = f64::from_bits(sheet.sag);
    if !(sag > 0.0) {
        return Condition::Exact;
    }
    let facets = turned_open_facets(sheet);
    let mut loose: BTreeMap<u64, [f32; 3]> = BTreeMap::new();
    for corner in facets.iter().flat_map(|f| &f.corners) {
        let before = loose.insert(key(corner), *corner);
        if before.is_some_and(|b| b.map(f32::to_bits) != corner.map(f32::to_bits)) {
            return Condition::SharedKey;
        }
    }
    let loose = Loose::of(&loose, sag);
    if facets.iter().any(|f| ties(f, &loose, sag)) { Condition::Tie } else { Condition::Exact }
}
