//! A body as the library's calls take it: the row table, and the patches one after another.

use crate::sheet::{Row, Sheet};

/// How many numbers of the table a row takes: shell, face, outcome, vertices, indices, bin.
pub const ROW: usize = 6;

/// The table, three coordinates a vertex for positions and normals, and indices that count from 0 within their patch.
#[derive(Debug, Clone, Default)]
pub struct Flat {
    pub rows: Vec<u32>,
    pub positions: Vec<f32>,
    pub normals: Vec<f32>,
    pub indices: Vec<u32>,
}

/// Points given by their bits, as one list of coordinates.
pub fn coordinates(points: &[[u32; 3]]) -> impl Iterator<Item = f32> + '_ {
    points.iter().flatten().map(|bits| f32::from_bits(*bits))
}

/// A row's numbers in the table, with the counts of a patch that it has now; its bin is the last.
pub fn table_row(row: &Row, vertices: usize, indices: usize) -> [u32; ROW] {
    [row.shell, row.face, row.outcome, vertices as u32, indices as u32, row.bin]
}

impl Flat {
    pub fn of(sheet: &Sheet) -> Flat {
        let mut body = Flat::default();
        for row in &sheet.rows {
            body.rows.extend(table_row(row, row.positions.len(), row.indices.len()));
            body.positions.extend(coordinates(&row.positions));
            body.normals.extend(coordinates(&row.normals));
            body.indices.extend(&row.indices);
        }
        body
    }

    /// The 64-bit words of work area that a body needs whose slices fit its table.
    pub fn words(&self) -> usize {
        16 * self.indices.len() + 16 * (self.rows.len() / ROW) + 4 * (self.positions.len() / 3)
    }

    /// Whether two bodies hold the same bits.
    pub fn same_bits(&self, other: &Flat) -> bool {
        self.rows == other.rows
            && same_floats(&self.positions, &other.positions)
            && same_floats(&self.normals, &other.normals)
            && self.indices == other.indices
    }
}

/// Whether two lists of floats hold the same bits.
pub fn same_floats(a: &[f32], b: &[f32]) -> bool {
    a.len() == b.len() && a.iter().zip(b).all(|(x, y)| x.to_bits() == y.to_bits())
}
