//! Bodies as the Rust leaves them, flat, and where another is unlike one.

use cad_ir::brep::FaceId;
use cad_tess::face::Patch;
use driver::flat::{Flat, table_row};
use driver::sheet::Sheet;

/// The Rust's rows.
pub type Faces = Vec<(usize, FaceId, Result<Patch, String>)>;

/// A sheet's rows, with their bins, and the patches that the Rust left.
pub fn flat_of(faces: &Faces, sheet: &Sheet) -> Flat {
    let mut body = Flat::default();
    for (row, (_, _, result)) in sheet.rows.iter().zip(faces) {
        let none = Patch::default();
        let patch = result.as_ref().unwrap_or(&none);
        body.rows.extend(table_row(row, patch.positions.len(), patch.indices.len()));
        body.positions.extend(patch.positions.iter().flatten());
        body.normals.extend(patch.normals.iter().flatten());
        body.indices.extend(&patch.indices);
    }
    body
}

/// The first place where two lists of one length differ, the right one first.
pub fn unlike_at<T: std::fmt::LowerHex>(name: &str, want: impl Iterator<Item = T>, got: impl Iterator<Item = T>) -> Option<String>
where
    T: PartialEq,
{
    let (k, (a, b)) = want.zip(got).enumerate().find(|(_, (a, b))| a != b)?;
    Some(format!("{name} {k}: {a:x}, not {b:x}"))
}

/// The first place where two bodies with slices of one length differ, the right one first.
pub fn unlike(want: &Flat, got: &Flat) -> Option<String> {
    let bits = |list: &'_ [f32]| list.iter().map(|v| v.to_bits()).collect::<Vec<u32>>().into_iter();
    unlike_at("number of the table", want.rows.iter(), got.rows.iter())
        .or_else(|| unlike_at("index", want.indices.iter(), got.indices.iter()))
        .or_else(|| unlike_at("position coordinate", bits(&want.positions), bits(&got.positions)))
        .or_else(|| unlike_at("normal coordinate", bits(&want.normals), bits(&got.normals)))
}
