//! The page over finished bodies: a plain model written from the words of document 02. Of the winding audit the Rust has its own, which
//! this one is held to; of the page it has nothing.

use crate::check::refusal;
use crate::flat::{Flat, ROW};
use crate::source::key;
use cad_ir::math::Aabb;
use cad_tess::face::{Patch, probe};
use std::cmp::Reverse;
use std::collections::HashMap;

/// "One page over up to 4,096 finished bodies."
pub const MOST_BODIES: u64 = 4_096;

/// "A count above 262,144 times its bodies."
pub const MOST_EACH: u64 = 262_144;

/// Numbers that an entry of the face list takes: the face and its count.
pub const ENTRY: usize = 2;

/// A page, but for its share, which is made of the others.
#[derive(Debug, Clone, Copy, PartialEq, Eq, Default)]
pub struct Page {
    pub bodies: u64,
    pub accepted: u64,
    pub failed: u64,
    pub triangles: u64,
    pub vertices: u64,
    pub empty: u64,
    pub upstream: u64,
    pub escaped: u64,
    pub listed: u64,
}

impl Page {
    /// All numbers but that of the bodies.
    pub fn counts(&self) -> [u64; 8] {
        let Page { accepted, failed, triangles, vertices, empty, upstream, escaped, listed, .. } = *self;
        [accepted, failed, triangles, vertices, empty, upstream, escaped, listed]
    }

    /// A page of so many bodies with these counts.
    pub fn of(bodies: u64, counts: [u64; 8]) -> Page {
        let [accepted, failed, triangles, vertices, empty, upstream, escaped, listed] = counts;
        Page { bodies, accepted, failed, triangles, vertices, empty, upstream, escaped, listed }
    }

    /// "The sums of their numbers."
    pub fn sum(&self, other: &Page) -> Page {
        let (a, b) = (self.counts(), other.counts());
        Page::of(self.bodies + other.bodies, std::array::from_fn(|k| a[k] + b[k]))
    }

    /// "The accepted share as a reduced fraction (1/1 for no faces)."
    pub fn share(&self) -> [u64; 2] {
        let (accepted, faces) = (self.accepted, self.accepted + self.failed);
        if faces == 0 {
            return [1, 1];
        }
        let common = gcd(accepted, faces);
        [accepted / common, faces / common]
    }
}

fn gcd(a: u64, b: u64) -> u64 {
    if b == 0 { a } else { gcd(b, a % b) }
}

/// The rows of an accepted body, each with its face, its outcome and its patch.
fn rows(body: &Flat) -> Vec<(u32, u32, Patch)> {
    let (mut vertices, mut indices) = (body.positions.chunks_exact(3), body.indices.iter());
    let row = |row: &[u32]| {
        let positions = vertices.by_ref().take(row[3] as usize).map(|p| [p[0], p[1], p[2]]).collect();
        let indices = indices.by_ref().take(row[4] as usize).copied().collect();
        (row[1], row[2], Patch { positions, indices, ..Patch::default() })
    };
    body.rows.chunks_exact(ROW).map(row).collect()
}

/// One body's page: each row is a face, accepted or failed in one of three ways.
fn page_of(body: &Flat, reference: &Aabb, listed: usize) -> Page {
    let mut page = Page { bodies: 1, listed: listed as u64, ..Page::default() };
    for (_, outcome, patch) in rows(body) {
        let kind = match outcome {
            0 if patch.indices.is_empty() => &mut page.empty,
            0 if probe::escapes_body(&patch, reference) => &mut page.escaped,
            0 => {
                page.accepted += 1;
                page.triangles += (patch.indices.len() / 3) as u64;
                page.vertices += patch.positions.len() as u64;
                continue;
            }
            _ => &mut page.upstream,
        };
        *kind += 1;
        page.failed += 1;
    }
    page
}

/// Every use of an edge, in the order of rows, triangles and sides: the edge, whether it runs from the lower key, and the row's face.
fn uses(body: &Flat) -> Vec<([u64; 2], bool, u32)> {
    let mut uses = Vec::new();
    for (face, _, patch) in rows(body) {
        let keys: Vec<u64> = patch.positions.iter().map(key).collect();
        for t in patch.indices.chunks_exact(3) {
            for (from, to) in [(t[0], t[1]), (t[1], t[2]), (t[2], t[0])] {
                let (a, b) = (keys[from as usize], keys[to as usize]);
                if a != b {
                    uses.push(([a.min(b), a.max(b)], a < b, face));
                }
            }
        }
    }
    uses
}

/// The winding audit: "each later use of an edge that runs as its first recorded use does adds 1 to both rows' face numbers, 2 if they
/// are one"; "highest count first, then by number".
pub fn wound(body: &Flat) -> Vec<(u32, u64)> {
    let mut by_edge: HashMap<[u64; 2], Vec<(bool, u32)>> = HashMap::new();
    for (edge, runs, face) in uses(body) {
        by_edge.entry(edge).or_default().push((runs, face));
    }
    let mut counts: HashMap<u32, u64> = HashMap::new();
    for uses in by_edge.values() {
        let (first_runs, first_face) = uses[0];
        for (_, face) in uses[1..].iter().filter(|(runs, _)| *runs == first_runs) {
            *counts.entry(*face).or_default() += 1;
            *counts.entry(first_face).or_default() += 1;
        }
    }
    let mut listed: Vec<(u32, u64)> = counts.into_iter().collect();
    listed.sort_by_key(|(face, count)| (Reverse(*count), *face));
    listed
}

/// "A page that has 4,096 bodies or more, or a count above 262,144 times its bodies."
fn is_refused(page: &Page) -> bool {
    page.bodies >= MOST_BODIES || page.counts().iter().any(|count| *count > MOST_EACH * page.bodies)
}

/// What a report of a body gives, with a face list of so many numbers and a work area of so many words: the page with that body added,
/// and the entries that follow in the list from the given page's listed faces on.
pub fn reported(body: &Flat, reference: &Aabb, page: &Page, numbers: usize, words: usize) -> Result<(Page, Vec<[u32; ENTRY]>), u32> {
    match refusal(body, words) {
        0 if is_refused(page) => return Err(67),
        0 => {}
        number => return Err(number),
    }
    let entries: Vec<[u32; ENTRY]> = wound(body).into_iter().map(|(face, count)| [face, count as u32]).collect();
    if page.listed + entries.len() as u64 > (numbers / ENTRY) as u64 {
        return Err(69);
    }
    Ok((page.sum(&page_of(body, reference, entries.len())), entries))
}
