//! Bodies to report: generated ones as they are given and as the unchanged Rust turns and stitches them, with rows, faces, shells and boxes
//! varied. The Rust's winding audit of each is held to the model's.

use super::Tally;
use crate::assembling::{stitchable, varied};
use crate::source_bodies::{Faces, flat_of};
use cad_ir::math::Aabb;
use cad_tess::face::probe;
use driver::audit;
use driver::check::check;
use driver::finish::{box_of, faces_of, finish_and_audit};
use driver::flat::Flat;
use driver::generate::{Kind, body_of};
use driver::page;
use driver::random::Random;
use driver::sheet::{Row, Sheet};

/// A body, how it came to be, and its box.
pub struct Made {
    pub name: &'static str,
    pub body: Flat,
    pub reference: Aabb,
}

/// Indices of a body whose rows and triangles are laid twice, at most.
const MOST_LAID_TWICE: usize = 6000;

/// The Rust's rows flat. Its audit of them counts as the model's does.
fn audited(name: &'static str, faces: Faces, sheet: &Sheet, tally: &mut Tally) -> (Made, Vec<(u32, u64)>) {
    let body = flat_of(&faces, sheet);
    let counted = audit::wound(faces);
    assert_eq!(page::wound(&body), counted, "the model counts as the Rust's winding audit, {name}: {sheet:?}");
    tally.audited += 1;
    tally.wound += !counted.is_empty() as u64;
    (Made { name, body, reference: box_of(sheet) }, counted)
}

/// A body as it is given.
fn as_given(name: &'static str, sheet: &Sheet, tally: &mut Tally) -> Made {
    audited(name, faces_of(sheet), sheet, tally).0
}

/// A body turned and stitched by the Rust, whose whole prints what its audit counts; none if it passes the limits when stitched.
fn finished(name: &'static str, sheet: &Sheet, tally: &mut Tally) -> Option<Made> {
    let (_, said) = finish_and_audit(sheet).ok()?;
    let mut faces = faces_of(sheet);
    probe::orient_shell(&mut faces);
    probe::stitch_t_junctions(&mut faces, f64::from_bits(sheet.sag));
    let (made, counted) = audited(name, faces, sheet, tally);
    assert!(audit::is_printed(&counted, &said), "the Rust prints what its audit counts, {name}: {sheet:?}");
    tally.printed += 1;
    tally.printed_in_part += (counted.len() > said.printed.len()) as u64;
    Some(made)
}

/// Corners 1 and 2 of each triangle exchanged.
fn reversed(indices: &[u32]) -> Vec<u32> {
    indices.chunks_exact(3).flat_map(|t| [t[0], t[2], t[1]]).collect()
}

/// Some of a row's triangles laid again: as they are, begun at another corner, or reversed.
fn lay_triangles_again(row: &mut Row, r: &mut Random) {
    for t in 0..row.indices.len() / 3 {
        if r.chance(20) {
            let [a, b, c] = [row.indices[3 * t], row.indices[3 * t + 1], row.indices[3 * t + 2]];
            row.indices.extend(*r.pick(&[[a, b, c], [b, c, a], [c, b, a], [a, a, b], [a, b, b], [a, b, a]]));
        }
    }
}

/// Some rows laid again behind the others, of the same face or another, as they are or reversed.
fn lay_rows_again(sheet: &mut Sheet, r: &mut Random) {
    for k in 0..sheet.rows.len() {
        if r.chance(15) {
            let mut row = sheet.rows[k].clone();
            if r.chance(40) {
                row.indices = reversed(&row.indices);
            }
            if r.chance(60) {
                row.face = row.face.wrapping_add(1 << r.below(32));
            }
            sheet.rows.push(row);
        }
    }
}

/// Faces of few numbers, alike in their low bits or their high ones, and rows of any shell and winding.
fn renumber(sheet: &mut Sheet, r: &mut Random) {
    let any = r.next() as u32;
    let faces = [any, any ^ 1, any ^ 1 << 16, any ^ 1 << 31, 0, 1, u32::MAX, 1 << 31];
    let (few, shells, reverse) = (r.size(0, faces.len()), r.below(3), *r.pick(&[0, 30, 50]));
    for (k, row) in sheet.rows.iter_mut().enumerate() {
        if few > 0 {
            row.face = *r.pick(&faces[..few]);
        }
        match shells {
            0 => row.shell = k as u32,
            1 => row.shell = r.below(2) as u32,
            _ => {}
        }
        if r.chance(reverse) {
            row.indices = reversed(&row.indices);
        }
    }
}

/// A sheet with more that is wound against its neighbours.
fn rewound(sheet: &Sheet, r: &mut Random) -> Sheet {
    let mut other = varied(sheet, r);
    renumber(&mut other, r);
    if other.indices() < MOST_LAID_TWICE {
        if r.chance(50) {
            other.rows.iter_mut().for_each(|row| lay_triangles_again(row, r));
        }
        if r.chance(50) {
            lay_rows_again(&mut other, r);
        }
    }
    if check(&other).is_ok() { other } else { sheet.clone() }
}

/// The bodies of a kind and a seed: finished with its own box and rows, and with others; as given, and with more that is wound against
/// its neighbours, before and after turning.
pub fn of_kind(kind: &Kind, seed: u64, size: usize, r: &mut Random, tally: &mut Tally) -> Vec<Made> {
    let Some(sheet) = body_of(kind, seed, size).filter(|s| check(s).is_ok()) else { return Vec::new() };
    let sheet = stitchable(&sheet);
    let (one, other) = (stitchable(&varied(&sheet, r)), stitchable(&rewound(&sheet, r)));
    let made = [
        finished("finished", &sheet, tally),
        finished("finished, with rows and box varied", &one, tally),
        finished("finished, with rows laid against others", &other, tally),
        Some(as_given("as given", &sheet, tally)),
        Some(as_given("as given, with rows laid against others", &other, tally)),
    ];
    made.into_iter().flatten().collect()
}

/// A large body of a kind as it is given, of so many triangles.
pub fn large(kind: &Kind, seed: u64, triangles: usize, tally: &mut Tally) -> Option<Made> {
    let sheet = body_of(kind, seed, triangles).filter(|s| check(s).is_ok())?;
    Some(as_given("as given", &sheet, tally))
}
