//! The checks of document 01, in table order, each over the whole body before the next: those that a sheet's body can fail, and
//! those of a call that is lent slices.

use crate::flat::{Flat, ROW};
use crate::sheet::{Refusal, Row, Sheet};

pub const MOST_ROWS: usize = 4096;
pub const MOST_VERTICES: usize = 262_144;
pub const MOST_INDICES: usize = 786_432;
pub const MOST_BIN: u32 = 65_535;

/// The bits of the last coordinate whose cell doesn't clamp, without its sign; those behind it clamp, an infinity too.
pub const LAST_UNCLAMPED: u32 = 0x5506_37bd;

fn finite(bits: u32) -> bool {
    bits & 0x7f80_0000 != 0x7f80_0000
}

/// Whether the cell of a coordinate clamps: the whole number nearest 1,000,000 × v lies outside signed 64 bits; a NaN's is 0.
pub fn clamps(v: f32) -> bool {
    let (exponent, fraction) = (v.to_bits() >> 23 & 0xff, v.to_bits() & 0x7f_ffff);
    if exponent == 0xff {
        return fraction == 0;
    }
    // A mantissa is below 2^24 and a million below 2^20, so only a multiple of 1 can be out of range: there is nothing to round.
    let millions = 1_000_000 * u128::from(fraction | 1 << 23);
    let most: u128 = if v.is_sign_negative() { 1 << 63 } else { (1 << 63) - 1 };
    exponent >= 150 && millions > most >> (exponent - 150)
}

fn all_finite(row: &Row) -> bool {
    row.positions.iter().chain(&row.normals).flatten().all(|bits| finite(*bits))
}

/// Whether the cell of a position clamps, of a vertex that no triangle uses too.
fn any_clamps(row: &Row) -> bool {
    row.positions.iter().flatten().any(|bits| clamps(f32::from_bits(*bits)))
}

/// The first check that a body fails, if it fails one.
pub fn check(sheet: &Sheet) -> Result<(), Refusal> {
    let rows = &sheet.rows;
    if rows.len() > MOST_ROWS {
        return Err(Refusal::new(11, format!("{} rows, above 4,096", rows.len())));
    }
    if let Some(i) = rows.iter().position(|r| r.outcome > 255) {
        return Err(Refusal::new(12, format!("row {i}: outcome {} is above 255", rows[i].outcome)));
    }
    if sheet.vertices() > MOST_VERTICES || sheet.indices() > MOST_INDICES {
        return Err(Refusal::new(13, "more than 262,144 vertices or 786,432 indices"));
    }
    if let Some(i) = rows.iter().position(|r| r.bin > MOST_BIN) {
        return Err(Refusal::new(15, format!("row {i}: bin {} is above 65,535", rows[i].bin)));
    }
    if let Some(i) = rows.iter().position(|r| r.indices.len() % 3 != 0) {
        return Err(Refusal::new(21, format!("row {i}: an index count is no multiple of 3")));
    }
    if let Some(i) = rows.iter().position(|r| r.indices.iter().any(|n| *n as usize >= r.positions.len())) {
        return Err(Refusal::new(22, format!("row {i}: an index isn't below its row's vertex count")));
    }
    if let Some(i) = rows.iter().position(|r| !all_finite(r)) {
        return Err(Refusal::new(23, format!("row {i}: a position or normal isn't finite")));
    }
    if let Some(i) = rows.iter().position(any_clamps) {
        return Err(Refusal::new(24, format!("row {i}: a position's cell clamps")));
    }
    Ok(())
}

/// Whether every index of a body lies below its row's vertex count.
fn indices_lie_below(table: &[&[u32]], indices: &[u32]) -> bool {
    let mut rest = indices;
    table.iter().all(|row| {
        let (own, others) = rest.split_at(row[4] as usize);
        rest = others;
        own.iter().all(|index| *index < row[3])
    })
}

/// The first of the checks 11 to 31 that a lent body and a work area of so many words fail, or 0.
pub fn refusal(body: &Flat, words: usize) -> u32 {
    let table: Vec<&[u32]> = body.rows.chunks(ROW).collect();
    if !body.rows.len().is_multiple_of(ROW) || table.len() > MOST_ROWS {
        return 11;
    }
    if table.iter().any(|row| row[2] > 255 || (row[2] != 0 && (row[3] != 0 || row[4] != 0))) {
        return 12;
    }
    let total = |column: usize| table.iter().map(|row| row[column] as usize).sum::<usize>();
    let (vertices, indices) = (total(3), total(4));
    if vertices > MOST_VERTICES || indices > MOST_INDICES {
        return 13;
    }
    if body.positions.len() != 3 * vertices || body.normals.len() != 3 * vertices || body.indices.len() != indices {
        return 14;
    }
    if table.iter().any(|row| row[5] > MOST_BIN) {
        return 15;
    }
    if table.iter().any(|row| row[4] % 3 != 0) {
        return 21;
    }
    if !indices_lie_below(&table, &body.indices) {
        return 22;
    }
    if !body.positions.iter().chain(&body.normals).all(|v| finite(v.to_bits())) {
        return 23;
    }
    if body.positions.iter().any(|v| clamps(*v)) {
        return 24;
    }
    if words < 16 * indices + 16 * table.len() + 4 * vertices { 31 } else { 0 }
}
