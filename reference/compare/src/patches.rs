//! Each patch of a body alone: keys, cells and whether they clamp, volume, reach and escape, and its refusals.

use crate::faults::CLAMPED;
use crate::keys;
use crate::lent;
use cad_ir::math::Aabb;
use cad_tess::face::{Patch, patch_of, probe};
use compare::library::Lone;
use driver::check::{MOST_INDICES, MOST_VERTICES};
use driver::finish::{box_of, outcome_of};
use driver::flat::coordinates;
use driver::random::Random;
use driver::sheet::{Row, Sheet};

/// A row's patch alone.
pub fn lone(row: &Row) -> Lone {
    let (positions, normals) = (coordinates(&row.positions).collect(), coordinates(&row.normals).collect());
    Lone { positions, normals, indices: row.indices.clone() }
}

/// Equal bits, every NaN being one.
fn same(a: f64, b: f64) -> bool {
    a.to_bits() == b.to_bits() || (a.is_nan() && b.is_nan())
}

/// Where a row's answers aren't what they should be.
fn differing(row: &Row, patch: &Patch, sheet: &Sheet) -> Result<(), String> {
    let reference = box_of(sheet);
    let own = lone(row);
    patch.positions.iter().find_map(|p| keys::differing(*p)).map_or(Ok(()), Err)?;
    for flip in [false, true] {
        let (ours, theirs) = (lent::volume(&own, flip)?, probe::patch_volume(patch, flip));
        if ours.refusal != 0 || !same(ours.value, theirs) {
            return Err(format!("volume {theirs:?}, not {ours:?}"));
        }
    }
    let (ours, theirs) = (lent::farthest(&own, &reference)?, probe::farthest(patch, &reference));
    if ours.refusal != 0 || !same(ours.value, theirs) {
        return Err(format!("reach {theirs:?}, not {ours:?}"));
    }
    let (ours, theirs) = (lent::escapes(&own, &reference)?, probe::escapes_body(patch, &reference));
    let same = ours.refusal == 0 && ours.verdict == theirs as u32;
    if same { Ok(()) } else { Err(format!("escape {theirs}, not {ours:?}")) }
}

/// A coordinate whose cell clamps.
fn clamped(r: &mut Random) -> f32 {
    f32::from_bits(*r.pick(&CLAMPED))
}

/// Lengths or indices that document 01 refuses, with the number; nothing where a patch has no vertices or no triangles.
fn spoil_shape(bad: &mut Lone, r: &mut Random) -> Option<u32> {
    if bad.positions.is_empty() || bad.indices.is_empty() {
        return None;
    }
    match r.below(4) {
        0 => {
            bad.positions.pop();
            Some(14)
        }
        1 => {
            bad.normals.push(0.0);
            Some(14)
        }
        2 => {
            bad.indices.push(u32::MAX);
            Some(if bad.indices.len() > MOST_INDICES { 13 } else { 21 })
        }
        _ => {
            bad.indices[0] = (bad.positions.len() / 3) as u32;
            Some(22)
        }
    }
}

/// Floats that aren't finite or whose cells clamp, with the number; nothing where a patch has no vertices.
fn spoil_floats(bad: &mut Lone, r: &mut Random) -> Option<u32> {
    let last = bad.positions.len().checked_sub(1)?;
    let place = *r.pick(&[0, last, last / 2]);
    match r.below(6) {
        0 => bad.positions[place] = f32::INFINITY,
        1 => bad.normals[place] = f32::NAN,
        2 => (bad.positions[place], bad.normals[last]) = (clamped(r), f32::NEG_INFINITY),
        3 if bad.positions.len() < 3 * MOST_VERTICES => {
            // A vertex that no triangle uses.
            bad.positions.extend([0.0, clamped(r), 0.0]);
            bad.normals.extend([0.0; 3]);
            return Some(24);
        }
        _ => {
            bad.positions[place] = clamped(r);
            return Some(24);
        }
    }
    Some(23)
}

/// What is wrong where a patch alone isn't refused by all three calls with a number.
pub fn refused(bad: &Lone, reference: &Aabb, number: u32) -> Result<(), String> {
    let (v, f, e) = (lent::volume(bad, false)?, lent::farthest(bad, reference)?, lent::escapes(bad, reference)?);
    let whole = [v.refusal, f.refusal, e.refusal] == [number; 3] && v.value.to_bits() == 0 && f.value.to_bits() == 0 && e.verdict == 0;
    if whole { Ok(()) } else { Err(format!("refusal {number}, not {v:?} {f:?} {e:?}")) }
}

fn refusals_differ(row: &Row, sheet: &Sheet, r: &mut Random) -> Result<(), String> {
    for spoil in [spoil_shape, spoil_floats] {
        let mut bad = lone(row);
        if let Some(number) = spoil(&mut bad, r) {
            refused(&bad, &box_of(sheet), number)?;
        }
    }
    Ok(())
}

/// Where a patch of a body alone has another answer than it should, if one has.
pub fn differ(sheet: &Sheet, r: &mut Random) -> Result<(), String> {
    for (i, row) in sheet.rows.iter().enumerate() {
        if let Ok(patch) = patch_of(outcome_of(row)) {
            let differs = differing(row, &patch, sheet).and_then(|()| refusals_differ(row, sheet, r));
            differs.map_err(|what| format!("row {i}: {what}"))?;
        }
    }
    Ok(())
}
