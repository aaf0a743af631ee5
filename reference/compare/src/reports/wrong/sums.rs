//! The numbers of one body, and the share of the page with it; right but for one fault.

use super::Wrong;
use cad_ir::math::Aabb;
use cad_tess::face::{Patch, probe};
use driver::flat::{Flat, ROW};
use driver::page::Page;
use std::collections::BTreeSet;

/// A row with its patch.
pub struct Row {
    pub shell: u32,
    pub face: u32,
    pub outcome: u32,
    pub bin: u32,
    pub positions: Vec<[f32; 3]>,
    pub indices: Vec<u32>,
}

pub fn rows(body: &Flat) -> Vec<Row> {
    let (mut first, mut start, mut all) = (0, 0, Vec::new());
    for row in body.rows.chunks_exact(ROW) {
        let (vertices, indices) = (row[3] as usize, row[4] as usize);
        let positions = body.positions[3 * first..3 * (first + vertices)].chunks_exact(3).map(|p| [p[0], p[1], p[2]]).collect();
        let indices = body.indices[start..start + indices].to_vec();
        (first, start) = (first + vertices, start + indices.len());
        all.push(Row { shell: row[0], face: row[1], outcome: row[2], bin: row[5], positions, indices });
    }
    all
}

/// Whether a row's patch escapes the box.
pub fn escapes(row: &Row, reference: &Aabb, wrong: Wrong) -> bool {
    let mut patch = Patch { positions: row.positions.clone(), ..Patch::default() };
    if wrong == Wrong::EscapedOfUsedOnly {
        patch.positions = row.indices.iter().map(|k| row.positions[*k as usize]).collect();
    }
    let at_the_diagonal = || reference.diagonal() > 0.0 && probe::farthest(&patch, reference) == reference.diagonal();
    probe::escapes_body(&patch, reference) || (wrong == Wrong::EscapedAtTheDiagonal && !reference.is_empty() && at_the_diagonal())
}

/// What becomes of a row.
#[derive(Clone, Copy, PartialEq)]
enum Fate {
    Accepted,
    Empty,
    Upstream,
    Escaped,
}

fn fate(row: &Row, reference: &Aabb, wrong: Wrong) -> Fate {
    let fate = match row.outcome {
        0 if wrong == Wrong::EscapedBeforeEmpty && escapes(row, reference, wrong) => Fate::Escaped,
        0 if row.indices.is_empty() => Fate::Empty,
        0 if escapes(row, reference, wrong) => Fate::Escaped,
        0 => Fate::Accepted,
        _ => Fate::Upstream,
    };
    match (wrong, fate) {
        (Wrong::FailedAsAccepted, _) | (Wrong::EmptyAsAccepted, Fate::Empty) | (Wrong::EscapedAsAccepted, Fate::Escaped) => Fate::Accepted,
        (Wrong::UpstreamAsEmpty, Fate::Upstream) => Fate::Empty,
        (Wrong::EmptyAsUpstream, Fate::Empty) | (Wrong::EscapedAsUpstream, Fate::Escaped) => Fate::Upstream,
        _ => fate,
    }
}

/// A row's vertices as they are counted.
fn vertices(row: &Row, wrong: Wrong) -> u64 {
    match wrong {
        Wrong::UnusedVerticesLeftOut => row.indices.iter().collect::<BTreeSet<_>>().len() as u64,
        _ => row.positions.len() as u64,
    }
}

/// Whether a body is counted as one.
fn bodies(rows: usize, accepted: u64, wrong: Wrong) -> u64 {
    match wrong {
        Wrong::BodiesNotCounted => 0,
        Wrong::BodyOfNoRowsNotCounted => (rows > 0) as u64,
        Wrong::BodyOfNoAcceptedNotCounted => (accepted > 0) as u64,
        _ => 1,
    }
}

/// A body's own page, with so many entries listed.
pub fn page_of(body: &Flat, reference: &Aabb, listed: usize, wrong: Wrong) -> Page {
    let (all, mut seen) = (rows(body), BTreeSet::new());
    let mut page = Page { listed: listed as u64 * if wrong == Wrong::ListedInNumbers { 2 } else { 1 }, ..Page::default() };
    for row in &all {
        if wrong == Wrong::FacesByNumber && !seen.insert(row.face) {
            continue;
        }
        let fate = fate(row, reference, wrong);
        let accepted = fate == Fate::Accepted;
        if accepted || wrong == Wrong::TrianglesOfAllRows {
            page.triangles += row.indices.len() as u64 / if wrong == Wrong::IndicesForTriangles { 1 } else { 3 };
        }
        if accepted || wrong == Wrong::VerticesOfAllRows {
            page.vertices += vertices(row, wrong);
        }
        page.accepted += accepted as u64;
        page.failed += !accepted as u64;
        page.empty += (fate == Fate::Empty) as u64;
        page.upstream += (fate == Fate::Upstream) as u64;
        page.escaped += (fate == Fate::Escaped) as u64;
    }
    page.bodies = bodies(all.len(), page.accepted, wrong);
    page
}

/// The given page with a body's own.
pub fn summed(given: &Page, own: &Page, wrong: Wrong) -> Page {
    let (mut counts, sums) = (given.counts(), own.counts());
    for (k, count) in counts.iter_mut().enumerate() {
        *count = if wrong == Wrong::NotSummed(k) { sums[k] } else { count.wrapping_add(sums[k]) };
    }
    Page::of(given.bodies.wrapping_add(own.bodies), counts)
}

/// A fraction made smaller by common divisors, the largest first.
fn reduced(mut part: u64, mut whole: u64, twos: bool) -> [u64; 2] {
    if twos {
        while part % 2 == 0 && whole % 2 == 0 && whole > 0 && part > 0 {
            (part, whole) = (part / 2, whole / 2);
        }
        return [part, whole];
    }
    let (mut a, mut b) = (part, whole);
    while b != 0 {
        (a, b) = (b, a % b);
    }
    [part / a.max(1), whole / a.max(1)]
}

/// The share of the page made of a given one and a body's own.
pub fn share(given: &Page, own: &Page, sums: &Page, wrong: Wrong) -> [u64; 2] {
    let of = match wrong {
        Wrong::ShareOfBody => own,
        Wrong::ShareOfGivenPage => given,
        _ => sums,
    };
    let faces = of.accepted.wrapping_add(of.failed);
    match (faces, wrong) {
        (0, Wrong::ShareOfNoFacesZero) => [0, 1],
        (0, Wrong::ShareOfNoFacesNothing) => [0, 0],
        (0, _) => [1, 1],
        (_, Wrong::ShareNotReduced) => [of.accepted, faces],
        (_, Wrong::ShareOfNoneNotReduced) if of.accepted == 0 => [0, faces],
        (_, Wrong::ShareOfFailed) => reduced(of.failed, faces, false),
        (_, Wrong::ShareToFailed) => reduced(of.accepted, of.failed, false),
        _ => reduced(of.accepted, faces, wrong == Wrong::ShareReducedByTwos),
    }
}
