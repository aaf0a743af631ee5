//! Bodies made by hand with as many points at one parameter, or in one crowd or bundle, as the Rust's time allows, and bodies of ties whose
//! stitched size is at the limits of document 01 and past them.

use super::modelled;
use crate::stitching::{Case, case, differs};
use crate::worst::limit;
use driver::check::{MOST_INDICES, MOST_VERTICES};
use driver::condition::{Condition, condition, open_triangles};
use driver::generate::long::{BUNDLE_SAG, CROWD_SAG, crowd, thin_bundle};
use driver::generate::{Kind, body_of};
use driver::random::Random;
use driver::sheet::{Row, Sheet};

type Point = [f32; 3];

/// Pieces of the bodies that are filled up to the limits.
const SIZE: usize = 8;

/// Long edges, and points that have the parameter 1/2 on each of them.
const EDGES: usize = 24;
const POINTS: usize = 300;

fn row(face: usize, triangles: &[[Point; 3]]) -> Row {
    let positions: Vec<[u32; 3]> = triangles.iter().flatten().map(|p| p.map(f32::to_bits)).collect();
    let (normals, indices) = (vec![[0, 0, 0x3f80_0000]; positions.len()], (0..positions.len() as u32).collect());
    Row { face: face as u32, positions, normals, indices, ..Row::default() }
}

/// Long edges along x, each with points beside it of which all have the parameter 1/2: every point splits every edge, and one is kept.
fn at_one_parameter() -> Sheet {
    let part = |k: usize, of: usize| k as f32 / of as f32;
    let long: Vec<[Point; 3]> =
        (0..EDGES).map(|k| part(k, EDGES) / 64.0).map(|y| [[-100.0, y, 0.0], [100.0, y, 0.0], [3.0, y, 900.0]]).collect();
    let needle = |z: f32| [[0.0, 0.0, z], [5.0, 300.0 + z, -300.0], [-5.0, 310.0 + z, -300.0]];
    let needles: Vec<[Point; 3]> = (0..POINTS).map(|k| needle(-0.1 - part(k, POINTS) / 16.0)).collect();
    Sheet { sag: 0.25f64.to_bits(), rows: vec![row(0, &long), row(1, &needles)], ..Sheet::default() }
}

/// How far the ends of a crowd's edges are from it, and the triangles of a bundle.
const FAR: f64 = 1e7;
const BUNDLED: usize = 400;

fn of_triangles(all: &[[[f64; 3]; 3]], sag: f64) -> Sheet {
    let narrowed: Vec<[Point; 3]> = all.iter().map(|t| t.map(|p| p.map(|v| v as f32))).collect();
    Sheet { sag: sag.to_bits(), rows: vec![row(0, &narrowed)], ..Sheet::default() }
}

/// A crowd through which edges go, all of its points found on each and one kept.
fn in_a_crowd(r: &mut Random) -> Result<(), String> {
    let sheet = of_triangles(&crowd(r, POINTS, EDGES, FAR), CROWD_SAG);
    let Case { before, after, splits } = case(&sheet, CROWD_SAG);
    let new = (after.positions.len() - before.positions.len()) / 3;
    assert_eq!((splits, new), (POINTS * EDGES, EDGES), "all are found and one is kept on each edge");
    held(&sheet, open_triangles(&sheet), None, r)
}

/// A bundle, with a sag that a few of its points are within and with the one that takes longest.
fn in_a_bundle(r: &mut Random) -> Result<(), String> {
    let all = thin_bundle(r, BUNDLED);
    [1e3 * BUNDLE_SAG, BUNDLE_SAG].iter().try_for_each(|sag| {
        let sheet = of_triangles(&all, *sag);
        held(&sheet, open_triangles(&sheet), None, r)
    })
}

/// A body with more vertices that no triangle uses, and more triangles without an edge, on its first row.
fn filled(sheet: &Sheet, vertices: usize, triangles: usize) -> Sheet {
    let mut more = sheet.clone();
    let row = &mut more.rows[0];
    row.positions.resize(row.positions.len() + vertices, [0; 3]);
    row.normals.resize(row.normals.len() + vertices, [0; 3]);
    row.indices.resize(row.indices.len() + 3 * triangles, 0);
    more
}

/// A body in which points tie, so many of its triangles open, held to the model; its result at a limit or past it, if one is named.
fn held(sheet: &Sheet, open: usize, passes: Option<bool>, r: &mut Random) -> Result<(), String> {
    let sag = f64::from_bits(sheet.sag);
    let model = modelled(&case(sheet, sag), sag, open, true).expect("a body for the model")?;
    match passes {
        None => differs(&model, sag, r).map_or(Ok(()), Err),
        Some(passes) => limit(&model, sag, passes, r),
    }
}

/// Whether points tie in a body, and nothing else breaks 01's condition.
fn has_ties(sheet: &Sheet) -> bool {
    condition(sheet) == Condition::Tie
}

/// The first body of a kind with ties, as it is, and with a stitched result at each limit and past it.
fn kind_held(kind: &Kind, r: &mut Random) -> Result<u64, String> {
    let sheet = (1..).filter_map(|seed| body_of(kind, seed, SIZE)).find(has_ties).expect("a body with ties");
    let (open, after) = (open_triangles(&sheet), case(&sheet, f64::from_bits(sheet.sag)).after);
    let (vertices, triangles) = (MOST_VERTICES - after.positions.len() / 3, (MOST_INDICES - after.indices.len()) / 3);
    for more in 0..2 {
        held(&filled(&sheet, vertices + more, 0), open, Some(more > 0), r)?;
        held(&filled(&sheet, 0, triangles + more), open, Some(more > 0), r)?;
    }
    Ok(4)
}

/// How many bodies were held, with the result of some kinds' at the limits, or what is wrong with one.
pub fn at_the_limits(kinds: &[Kind]) -> Result<u64, String> {
    let (r, one) = (&mut Random::new(33), at_one_parameter());
    assert!(has_ties(&one), "points at one parameter tie");
    held(&one, open_triangles(&one), None, r).map_err(|what| format!("points at one parameter: {what}"))?;
    in_a_crowd(r).map_err(|what| format!("points in a crowd: {what}"))?;
    in_a_bundle(r).map_err(|what| format!("a bundle: {what}"))?;
    let mut count = 4;
    for kind in kinds {
        count += kind_held(kind, r).map_err(|what| format!("kind {} at the limits: {what}", kind.name))?;
    }
    Ok(count)
}
