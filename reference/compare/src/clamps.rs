//! Bodies at the last coordinates whose cells don't clamp and past them, each coordinate of a body in turn.

use crate::faults::CLAMPED;
use crate::{assembling, compared, patches, reports, stitching, turning};
use cad_ir::math::Aabb;
use driver::check::{LAST_UNCLAMPED, refusal};
use driver::flat::Flat;
use driver::random::Random;
use driver::sheet::{Row, Sheet, parse};

/// K8 with a failed row between its two, behind each patch a vertex that no triangle uses, and a row of a vertex without triangles.
fn body() -> Sheet {
    let mut sheet = parse(include_bytes!("../../cases/K8.sheet"), None).expect("a sheet");
    for row in &mut sheet.rows {
        row.positions.push([0x4000_0000, 0xc000_0000, 0]);
        row.normals.push([0; 3]);
    }
    sheet.rows.insert(1, Row { face: 9, outcome: 7, ..Row::default() });
    sheet.rows.push(Row { face: 3, positions: vec![[0x3f80_0000; 3]], normals: vec![[0; 3]], ..Row::default() });
    sheet
}

/// What is wrong where a body isn't refused by the three calls and the report with a number, in a work area of so many words.
fn refused(body: &Flat, words: usize, number: u32, r: &mut Random) -> Result<(), String> {
    assert_eq!(refusal(body, words), number, "the model's number");
    turning::refused(body, words, number, r)?;
    let others = stitching::refused(body, words, number, r).or_else(|| assembling::refused(body, words, number, r));
    others.or_else(|| reports::refused(body, words, number, r)).map_or(Ok(()), Err)
}

/// A coordinate that clamps: 24, before 31; beside a normal or a position that isn't finite 23.
fn refusals(whole: &Flat, k: usize, r: &mut Random) -> Result<u64, String> {
    for bits in CLAMPED {
        let mut bad = whole.clone();
        bad.positions[k] = f32::from_bits(bits);
        refused(&bad, whole.words(), 24, r)?;
        refused(&bad, *r.pick(&[0, whole.words() - 1]), 24, r)?;
        let other = (k + r.size(1, bad.positions.len() - 1)) % bad.positions.len();
        let list = if r.chance(50) { &mut bad.normals } else { &mut bad.positions };
        list[other] = *r.pick(&[f32::NAN, f32::INFINITY, f32::NEG_INFINITY]);
        refused(&bad, whole.words(), 23, r)?;
    }
    Ok(3 * CLAMPED.len() as u64)
}

/// Each coordinate of a row's patch alone clamps in turn; how many such patches are refused, or what is wrong with one.
fn lone_refusals(row: &Row) -> Result<u64, String> {
    let whole = patches::lone(row);
    for (k, bits) in (0..whole.positions.len()).flat_map(|k| CLAMPED.map(|bits| (k, bits))) {
        let mut bad = whole.clone();
        bad.positions[k] = f32::from_bits(bits);
        patches::refused(&bad, &Aabb::EMPTY, 24)?;
        bad.normals[k] = f32::NAN;
        patches::refused(&bad, &Aabb::EMPTY, 23)?;
    }
    Ok((2 * whole.positions.len() * CLAMPED.len()) as u64)
}

/// A body with one number changed, of a position or of a normal.
fn changed(sheet: &Sheet, k: usize, bits: u32, normal: bool) -> Sheet {
    let mut other = sheet.clone();
    let list = other.rows.iter_mut().flat_map(|row| if normal { &mut row.normals } else { &mut row.positions });
    *list.flatten().nth(k).expect("a coordinate") = bits;
    other
}

/// How many bodies were held, or what is wrong with one: those that clamp are refused, and the last that don't are finished as by the Rust,
/// as are those with normals of that size.
pub fn by_hand() -> Result<u64, String> {
    let (r, sheet) = (&mut Random::new(24), body());
    let whole = Flat::of(&sheet);
    let mut count = sheet.rows.iter().map(lone_refusals).sum::<Result<u64, String>>()?;
    for k in 0..whole.positions.len() {
        let named = |what: String| format!("coordinate {k}: {what}");
        count += refusals(&whole, k, r).map_err(named)?;
        for bits in [LAST_UNCLAMPED, LAST_UNCLAMPED | 1 << 31] {
            compared(&changed(&sheet, k, bits, false), k as u64).map_err(named)?;
        }
        compared(&changed(&sheet, k, *r.pick(&CLAMPED), true), k as u64).map_err(named)?;
        count += 3;
    }
    Ok(count)
}
