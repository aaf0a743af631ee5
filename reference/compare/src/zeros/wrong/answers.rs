//! Closed by sides that are listed, sorted and counted in runs; right but for one fault.

use super::Wrong;
use compare::library::Assembled;
use driver::flat::{Flat, ROW};
use driver::source::cell;

const SIGN: u32 = 0x8000_0000;

/// A point as three numbers that tell it from others.
type Name = [i64; 3];

/// Coordinates and normals, three numbers a vertex, and triangles.
pub struct Triangles<'a> {
    pub positions: &'a [f32],
    pub normals: &'a [f32],
    pub indices: Vec<u32>,
}

/// A side of a triangle: its ends in order, whether they were exchanged for that, and whether it is no edge.
struct Side {
    ends: [Name; 2],
    exchanged: bool,
    skipped: bool,
}

/// How the sides come together: edges, those with one use, with more than two, with an odd number, and those not used once each way.
#[derive(Default)]
struct Counts {
    edges: u64,
    open: u64,
    over: u64,
    odd: u64,
    one_way: u64,
}

/// Whether a −0.0 on this axis is a 0.0.
fn is_joined(axis: usize, wrong: Wrong) -> bool {
    match wrong {
        Wrong::OnlyX => axis == 0,
        Wrong::OnlyY => axis == 1,
        Wrong::OnlyZ => axis == 2,
        Wrong::XApart => axis != 0,
        Wrong::YApart => axis != 1,
        Wrong::ZApart => axis != 2,
        _ => true,
    }
}

/// What tells a point from others, as the first or the second end of a side.
fn name(p: &[f32], second: bool, wrong: Wrong) -> Name {
    let bits = [0, 1, 2].map(|k| p[k].to_bits());
    let apart = matches!((wrong, second), (Wrong::FirstEndApart, false) | (Wrong::SecondEndApart, true))
        || (wrong == Wrong::AllZeroOnly && bits.iter().any(|b| b & !SIGN != 0));
    let first = bits.iter().position(|b| *b == SIGN);
    [0, 1, 2].map(|k| match (wrong, bits[k]) {
        _ if apart => i64::from(bits[k]),
        (Wrong::SignDropped, b) => i64::from(b & !SIGN),
        (Wrong::SubnormalsToo, b) if b & !SIGN < 0x0080_0000 => 0,
        (Wrong::SmallestToo, b) if b & !SIGN < 2 => 0,
        (Wrong::ByCell, _) => cell(p[k]),
        (Wrong::FirstZeroOnly, SIGN) if first != Some(k) => i64::from(SIGN),
        (_, SIGN) if is_joined(k, wrong) => 0,
        (_, b) => i64::from(b),
    })
}

/// The sides of a triangle, of which those with equal ends are no edges.
fn sides(corners: [&[f32]; 3], wrong: Wrong) -> [Side; 3] {
    let ends = [[0, 1], [1, 2], [2, 0]].map(|[i, k]| [name(corners[i], false, wrong), name(corners[k], true, wrong)]);
    let one = ends.iter().any(|[a, b]| a == b) && wrong == Wrong::SliverSkipped;
    let same = |k: usize| corners[k].iter().map(|v| v.to_bits()).eq(corners[(k + 1) % 3].iter().map(|v| v.to_bits()));
    [0, 1, 2].map(|k| {
        let [a, b] = ends[k];
        let equal = if wrong == Wrong::EqualEndsCounted { same(k) } else { a == b };
        Side { ends: [a.min(b), a.max(b)], exchanged: a > b, skipped: equal || one }
    })
}

fn counts(t: &Triangles, wrong: Wrong) -> Counts {
    let corner = |index: u32| &t.positions[3 * index as usize..3 * index as usize + 3];
    let left = if wrong == Wrong::LastTriangleLeftOut { t.indices.len().saturating_sub(3) } else { t.indices.len() };
    let triangles = t.indices[..left].chunks_exact(3).map(|t| [corner(t[0]), corner(t[1]), corner(t[2])]);
    let mut all: Vec<Side> = triangles.flat_map(|corners| sides(corners, wrong)).filter(|side| !side.skipped).collect();
    all.sort_by_key(|side| side.ends);
    let mut counts = Counts::default();
    for run in all.chunk_by(|a, b| a.ends == b.ends) {
        let exchanged = run.iter().filter(|side| side.exchanged).count();
        counts.edges += 1;
        counts.open += u64::from(run.len() == 1);
        counts.over += u64::from(run.len() > 2);
        counts.odd += u64::from(run.len() % 2 == 1);
        counts.one_way += u64::from((run.len(), exchanged) != (2, 1));
    }
    counts
}

/// Whether a −0.0 is found, without which the counts by bits decide.
fn is_found(t: &Triangles, wrong: Wrong) -> bool {
    let vertices = t.positions.len() / 3;
    let list = if wrong == Wrong::LookedAtNormals { t.normals } else { t.positions };
    let is_looked_at = |k: usize| match wrong {
        Wrong::LookedAtX => k % 3 == 0,
        Wrong::LookedAtY => k % 3 == 1,
        Wrong::LookedAtZ => k % 3 == 2,
        Wrong::LookedAtFirst => k < 3,
        Wrong::FirstNotLookedAt => k >= 3,
        Wrong::LastNotLookedAt => k / 3 + 1 < vertices,
        _ => true,
    };
    list.iter().enumerate().any(|(k, v)| is_looked_at(k) && v.to_bits() == SIGN)
}

/// Closed by the counts by bits and by those of the joined points.
fn is_closed(by_bits: &Assembled, joined: &Counts, found: bool, wrong: Wrong) -> bool {
    let (before, now) = (by_bits.opens == 0 && by_bits.overs == 0, joined.open == 0 && joined.over == 0);
    match wrong {
        Wrong::Inverted => !now,
        Wrong::AlwaysClosed => true,
        Wrong::NeverClosed => false,
        Wrong::CountsByBits => before,
        Wrong::EitherCounts => before || now,
        Wrong::BothCounts => before && now,
        Wrong::OpenByBits => by_bits.opens == 0 && joined.over == 0,
        Wrong::OverByBits => joined.open == 0 && by_bits.overs == 0,
        Wrong::OverAllowed => joined.open == 0,
        Wrong::OpenAllowed => joined.over == 0,
        Wrong::EvenUses => joined.odd == 0,
        Wrong::OnceEachWay => joined.one_way == 0,
        Wrong::NoEdgesOpen => now && joined.edges > 0,
        _ if found => now,
        _ => before,
    }
}

/// All triangles of a body, those of rows that fail among them.
fn of_body(body: &Flat) -> Triangles<'_> {
    let (mut base, mut start, mut indices) = (0, 0, Vec::new());
    for row in body.rows.chunks_exact(ROW) {
        let past = start + row[4] as usize;
        indices.extend(body.indices[start..past].iter().map(|index| base + index));
        (base, start) = (base + row[3], past);
    }
    Triangles { positions: &body.positions, normals: &body.normals, indices }
}

/// Make the answer of a call that was done say what the fault says of a body and its mesh.
pub fn change(answer: &mut Assembled, body: &Flat, mesh: &Triangles, wrong: Wrong) {
    let joined = if wrong == Wrong::FailedRowsToo { counts(&of_body(body), wrong) } else { counts(mesh, wrong) };
    let found = wrong == Wrong::FailedRowsToo || is_found(mesh, wrong);
    let closed = is_closed(answer, &joined, found, wrong);
    if matches!(wrong, Wrong::EdgesJoined | Wrong::CountsJoined) {
        answer.edges = joined.edges;
    }
    if matches!(wrong, Wrong::OpenJoined | Wrong::CountsJoined) {
        answer.opens = joined.open;
    }
    if matches!(wrong, Wrong::OverJoined | Wrong::CountsJoined) {
        answer.overs = joined.over;
    }
    answer.closed = u32::from(closed);
}
