//! A winding audit that goes use by use and keeps the earlier ones of each edge; right but for one fault.

use super::Wrong;
use super::sums::{Row, escapes, rows};
use cad_ir::math::Aabb;
use driver::flat::Flat;
use driver::source::{cell, key};
use std::cmp::Reverse;
use std::collections::{BTreeSet, HashMap};

/// What a point is known by.
type Name = [u64; 3];

/// A use of an edge: whether it runs from the lower name, its row and its row's face.
#[derive(Clone, Copy)]
struct Use {
    runs: bool,
    row: usize,
    face: u32,
}

/// Counts in the order in which they were first met.
#[derive(Default)]
struct Counts {
    places: HashMap<u64, usize>,
    all: Vec<(u32, u64)>,
}

impl Counts {
    fn add(&mut self, of: &Use, more: u64, wrong: Wrong) {
        let id = if wrong == Wrong::ByRow { 1 << 32 | of.row as u64 } else { u64::from(of.face) };
        let place = *self.places.entry(id).or_insert_with(|| {
            self.all.push((of.face, 0));
            self.all.len() - 1
        });
        self.all[place].1 += more;
    }

    /// A later use that runs as another one does.
    fn meet(&mut self, later: &Use, first: &Use, wrong: Wrong) {
        let one_face = later.face == first.face;
        let left_out = (wrong == Wrong::OneFaceNot && one_face) || (wrong == Wrong::OneRowNot && later.row == first.row);
        let once = wrong == Wrong::OneFaceOnce && one_face;
        if !left_out && wrong != Wrong::FirstOnly {
            self.add(later, 1, wrong);
        }
        if !left_out && !once && wrong != Wrong::LaterOnly {
            self.add(first, 1, wrong);
        }
    }
}

fn name(p: &[f32; 3], wrong: Wrong) -> Name {
    match wrong {
        Wrong::ByBits => p.map(|v| u64::from(v.to_bits())),
        Wrong::ByCell => p.map(|v| cell(v) as u64),
        _ => [key(p), 0, 0],
    }
}

/// The edges of a row, each with whether it runs from the lower name.
fn edges(row: &Row, wrong: Wrong) -> Vec<([Name; 2], bool)> {
    let names: Vec<Name> = row.positions.iter().map(|p| name(p, wrong)).collect();
    let sides = if wrong == Wrong::ThirdSideLeftOut { 2 } else { 3 };
    let mut edges = Vec::new();
    for t in row.indices.chunks_exact(3) {
        let corners = [0, 1, 2].map(|k| names[t[k] as usize]);
        let sliver = (0..3).any(|k| corners[k] == corners[(k + 1) % 3]);
        for k in (0..sides).filter(|_| wrong != Wrong::SliversLeftOut || !sliver) {
            let (a, b) = (corners[k], corners[(k + 1) % 3]);
            if a != b || wrong == Wrong::EqualEndsCounted {
                edges.push(([a.min(b), a.max(b)], a < b));
            }
        }
    }
    if wrong == Wrong::LastTriangleLeftOut {
        edges.truncate(edges.len().saturating_sub(3));
    }
    edges
}

/// The earlier uses that a later one is held to.
fn held_to(earlier: &[Use], wrong: Wrong) -> &[Use] {
    match wrong {
        Wrong::PreviousUse => &earlier[earlier.len().saturating_sub(1)..],
        Wrong::EveryEarlierUse => earlier,
        Wrong::SecondUseOnly if earlier.len() > 1 => &[],
        _ => &earlier[..earlier.len().min(1)],
    }
}

/// What an edge is kept apart by, besides its ends.
fn apart(row: &Row, k: usize, wrong: Wrong) -> u64 {
    match wrong {
        Wrong::ShellsApart => u64::from(row.shell),
        Wrong::BinsApart => u64::from(row.bin),
        Wrong::RowsApart => k as u64,
        _ => 0,
    }
}

fn counted(body: &Flat, reference: &Aabb, wrong: Wrong) -> Vec<(u32, u64)> {
    let (mut earlier, mut counts): (HashMap<(u64, [Name; 2]), Vec<Use>>, Counts) = Default::default();
    for (k, row) in rows(body).iter().enumerate() {
        if (wrong == Wrong::EscapingLeftOut && escapes(row, reference, wrong)) || (wrong == Wrong::FirstRowLeftOut && k == 0) {
            continue;
        }
        let face = if wrong == Wrong::FaceOf16Bits { row.face & 0xffff } else { row.face };
        for (edge, runs) in edges(row, wrong) {
            let (own, uses) = (Use { runs, row: k, face }, earlier.entry((apart(row, k, wrong), edge)).or_default());
            for other in held_to(uses, wrong) {
                let against = match wrong {
                    Wrong::OppositeUses => other.runs != runs,
                    Wrong::AnyUse => true,
                    _ => other.runs == runs,
                };
                if against {
                    counts.meet(&own, other, wrong);
                }
            }
            uses.push(own);
        }
    }
    counts.all
}

/// The face numbers with a count, in the order in which they are listed.
pub fn listed(body: &Flat, reference: &Aabb, wrong: Wrong) -> Vec<[u32; 2]> {
    let mut all = counted(body, reference, wrong);
    if wrong == Wrong::UncountedToo {
        let seen: BTreeSet<u32> = all.iter().map(|(face, _)| *face).collect();
        let more: BTreeSet<u32> = rows(body).iter().map(|row| row.face).filter(|face| !seen.contains(face)).collect();
        all.extend(more.into_iter().map(|face| (face, 0)));
    }
    match wrong {
        Wrong::TiesDescending => all.sort_by_key(|(face, count)| (Reverse(*count), Reverse(*face))),
        Wrong::TiesAsFound => all.sort_by_key(|(_, count)| Reverse(*count)),
        Wrong::TiesSigned => all.sort_by_key(|(face, count)| (Reverse(*count), *face as i32)),
        Wrong::ByNumber => all.sort(),
        Wrong::LowestFirst => all.sort_by_key(|(face, count)| (*count, *face)),
        _ => all.sort_by_key(|(face, count)| (Reverse(*count), *face)),
    }
    if wrong == Wrong::TwelveOnly {
        all.truncate(12);
    }
    let entry = |(face, count): (u32, u64)| match wrong {
        Wrong::CountHalved => [face, count as u32 / 2],
        Wrong::CountOf16Bits => [face, count as u32 & 0xffff],
        Wrong::CountBeforeFace => [count as u32, face],
        _ => [face, count as u32],
    };
    all.into_iter().map(entry).collect()
}
