//! Stitching as document 01 has it, over flat bodies: its order of open edges, loose points and ties, which the Rust leaves to its maps.
//! Which loose points are tried on an edge is a search's matter, all of them or those that a tree of blocks leaves.

use super::edges::{Edge, Point, widened};
use super::wrong::Wrong;
use driver::flat::{Flat, ROW};
use driver::source::key;
use std::collections::{BTreeMap, HashMap};

const VERTICES: usize = 3;
const INDICES: usize = 4;

/// Points of one edge whose parameters are closer than this to the last kept are dropped.
const CLOSE: f64 = 1e-9;

/// A distance of parameters that a wrong search takes for it.
const LESS_CLOSE: f64 = 1e-10;

/// The least length that a mixed normal is divided by.
const LEAST_LENGTH: f64 = 1e-30;

/// A triangle: its corners as places in the body, and which of its edges are open.
pub struct Triangle {
    pub corners: [usize; 3],
    pub open: [bool; 3],
}

/// A body's triangles row by row, with the keys of its vertices.
pub struct Read<'a> {
    pub body: &'a Flat,
    pub keys: Vec<u64>,
    pub rows: Vec<Vec<Triangle>>,
}

/// A loose point: its key, and the vertex that stands for it.
#[derive(Clone, Copy)]
pub struct Loose {
    pub key: u64,
    pub vertex: usize,
}

/// A point placed on an edge of a triangle.
#[derive(Clone, Copy)]
struct Placed {
    edge: usize,
    t: f64,
    vertex: usize,
}

/// A stitched body and its splits.
pub struct Stitched {
    pub after: Flat,
    pub splits: usize,
}

/// The ends of an edge as keys, the lower first; none if they are equal.
fn ends(keys: &[u64], corners: [usize; 3], e: usize) -> Option<(u64, u64)> {
    let (a, b) = (keys[corners[e]], keys[corners[(e + 1) % 3]]);
    (a != b).then_some((a.min(b), a.max(b)))
}

impl Read<'_> {
    pub fn of(body: &Flat) -> Read<'_> {
        let keys: Vec<u64> = body.positions.chunks_exact(3).map(|p| key(&[p[0], p[1], p[2]])).collect();
        let (mut base, mut rest, mut rows) = (0, &body.indices[..], Vec::new());
        for row in body.rows.chunks_exact(ROW) {
            let (own, others) = rest.split_at(row[INDICES] as usize);
            rows.push(own.chunks_exact(3).map(|t| [0, 1, 2].map(|k| base + t[k] as usize)).collect::<Vec<[usize; 3]>>());
            (base, rest) = (base + row[VERTICES] as usize, others);
        }
        let mut uses: HashMap<(u64, u64), usize> = HashMap::new();
        for id in rows.iter().flatten().flat_map(|c| (0..3).filter_map(|e| ends(&keys, *c, e))) {
            *uses.entry(id).or_default() += 1;
        }
        let open = |corners: [usize; 3]| [0, 1, 2].map(|e| ends(&keys, corners, e).is_some_and(|id| uses[&id] == 1));
        let rows = rows.into_iter().map(|row| row.into_iter().map(|corners| Triangle { corners, open: open(corners) }).collect()).collect();
        Read { body, keys, rows }
    }

    pub fn point(&self, vertex: usize) -> Point {
        widened(&self.body.positions[3 * vertex..])
    }

    fn edge(&self, triangle: &Triangle, e: usize) -> Edge {
        Edge::of(self.point(triangle.corners[e]), self.point(triangle.corners[(e + 1) % 3]))
    }

    /// The corners of triangles with an open edge, by key: of several with one key the last in order stands.
    pub fn loose(&self, wrong: Wrong) -> Vec<Loose> {
        let mut all: BTreeMap<u64, usize> = BTreeMap::new();
        for vertex in self.rows.iter().flatten().filter(|t| t.open.contains(&true)).flat_map(|t| t.corners) {
            let standing = all.entry(self.keys[vertex]).or_insert(vertex);
            if wrong != Wrong::FirstOfKeyStands {
                *standing = vertex;
            }
        }
        all.into_iter().map(|(key, vertex)| Loose { key, vertex }).collect()
    }
}

/// The loose points of a body, how they are searched, and what is wrong.
pub struct Search<'a> {
    pub read: &'a Read<'a>,
    pub loose: &'a [Loose],
    pub sag: f64,
    /// The places of loose points that are tried on an edge, in any order.
    pub tried: &'a dyn Fn(&Edge) -> Vec<usize>,
    pub wrong: Wrong,
}

impl Search<'_> {
    /// The places of loose points that split a triangle, in the order found.
    fn found(&self, triangle: &Triangle) -> Vec<usize> {
        let mut found: Vec<usize> = Vec::new();
        for e in (0..3).filter(|e| triangle.open[*e]) {
            let (edge, own) = (self.read.edge(triangle, e), [e, (e + 1) % 3].map(|c| self.read.keys[triangle.corners[c]]));
            let mut tried = (self.tried)(&edge);
            if self.wrong != Wrong::TiesAsSearched {
                tried.sort_unstable();
            }
            for j in tried {
                let Loose { key, vertex } = self.loose[j];
                let near = edge.project(self.read.point(vertex)).is_some_and(|(_, distance)| !(distance > self.sag));
                let before = self.wrong != Wrong::FoundByEachEdge && found.contains(&j);
                if near && !own.contains(&key) && !before {
                    found.push(j);
                }
            }
        }
        if self.wrong == Wrong::TiesByKey {
            found.sort_unstable();
        }
        found
    }

    /// A found point on the nearest edge of the three that it projects into, the first of them where several are as near.
    fn placed(&self, triangle: &Triangle, j: usize) -> Option<Placed> {
        let vertex = self.loose[j].vertex;
        let point = self.read.point(vertex);
        let mut best: Option<(f64, Placed)> = None;
        for edge in 0..3 {
            if let Some((t, distance)) = self.read.edge(triangle, edge).project(point)
                && best.as_ref().is_none_or(|(least, _)| distance < *least)
            {
                best = Some((distance, Placed { edge, t, vertex }));
            }
        }
        best.map(|(_, placed)| placed)
    }

    /// Whether a point is dropped that comes after another.
    fn is_close(&self, last: &Placed, next: &Placed) -> bool {
        let close = if self.wrong == Wrong::CloserThanLess { LESS_CLOSE } else { CLOSE };
        let one_edge = next.edge == last.edge || self.wrong == Wrong::CloseOnAnyEdge;
        one_edge && (next.t - last.t).abs() < close && self.wrong != Wrong::CloseKept
    }

    /// The points of a triangle that are not close to the last kept, of all in order.
    fn apart(&self, all: Vec<Placed>) -> Vec<Placed> {
        let mut kept: Vec<Placed> = Vec::new();
        let mut before: Option<Placed> = None;
        for next in all {
            let last = if self.wrong == Wrong::CloseToTheOneBefore { before } else { kept.last().copied() };
            match last {
                Some(last) if self.is_close(&last, &next) => {
                    if self.wrong == Wrong::LastOfCloseStands {
                        *kept.last_mut().expect("one that is kept") = next;
                    }
                }
                _ => kept.push(next),
            }
            before = Some(next);
        }
        kept
    }

    /// The points kept of a triangle, by edge and parameter, and how many were found.
    fn kept(&self, triangle: &Triangle) -> (Vec<Placed>, usize) {
        let found = self.found(triangle);
        let mut all: Vec<Placed> = found.iter().filter_map(|j| self.placed(triangle, *j)).collect();
        if self.wrong == Wrong::FirstFoundOfCloseStands && all.iter().all(|next| self.is_close(&all[0], next)) {
            all.truncate(1);
        }
        all.sort_by(|a, b| a.edge.cmp(&b.edge).then(a.t.total_cmp(&b.t)));
        (self.apart(all), found.len())
    }

    /// The normal mixed of those at an edge's ends.
    fn normal(&self, triangle: &Triangle, placed: &Placed) -> [f32; 3] {
        let at = |c: usize| widened(&self.read.body.normals[3 * triangle.corners[c % 3]..]);
        let (a, b) = (at(placed.edge), at(placed.edge + 1));
        let mixed = [0, 1, 2].map(|k| a[k] * (1.0 - placed.t) + b[k] * placed.t);
        let length = (mixed[0] * mixed[0] + mixed[1] * mixed[1] + mixed[2] * mixed[2]).sqrt().max(LEAST_LENGTH);
        mixed.map(|v| (v / length) as f32)
    }

    /// A triangle's part of the stitched row behind what is there: its new vertices, and the fan of its ring.
    fn write(&self, triangle: &Triangle, kept: &[Placed], base: usize, row: &mut Flat) {
        let mut ring: Vec<u32> = Vec::new();
        for e in 0..3 {
            ring.push((triangle.corners[e] - base) as u32);
            for placed in kept.iter().filter(|placed| placed.edge == e) {
                ring.push((row.positions.len() / 3) as u32);
                row.positions.extend(&self.read.body.positions[3 * placed.vertex..3 * placed.vertex + 3]);
                row.normals.extend(self.normal(triangle, placed));
            }
        }
        row.indices.extend((1..ring.len() - 1).flat_map(|k| [ring[0], ring[k], ring[k + 1]]));
    }

    /// A row stitched, from a first vertex on, and its splits.
    fn row(&self, k: usize, base: usize) -> Stitched {
        let body = self.read.body;
        let own = 3 * base..3 * (base + body.rows[ROW * k + VERTICES] as usize);
        let mut after = Flat { positions: body.positions[own.clone()].to_vec(), normals: body.normals[own].to_vec(), ..Flat::default() };
        let mut splits = 0;
        for triangle in &self.read.rows[k] {
            let (kept, found) = self.kept(triangle);
            self.write(triangle, &kept, base, &mut after);
            splits += found;
        }
        after.rows = body.rows[ROW * k..ROW * (k + 1)].to_vec();
        (after.rows[VERTICES], after.rows[INDICES]) = ((after.positions.len() / 3) as u32, after.indices.len() as u32);
        Stitched { after, splits }
    }

    pub fn stitched(&self) -> Stitched {
        let (mut all, mut base) = (Stitched { after: Flat::default(), splits: 0 }, 0);
        for (k, row) in self.read.body.rows.chunks_exact(ROW).enumerate() {
            let Stitched { after, splits } = self.row(k, base);
            all.after.rows.extend(after.rows);
            all.after.positions.extend(after.positions);
            all.after.normals.extend(after.normals);
            all.after.indices.extend(after.indices);
            (all.splits, base) = (all.splits + splits, base + row[VERTICES] as usize);
        }
        all
    }
}
