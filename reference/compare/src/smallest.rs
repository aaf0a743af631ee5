//! A body that differs made smaller while it differs, for a person to look at.

use driver::sheet::Sheet;
use std::collections::HashMap;
use std::ops::Range;
use std::time::{Duration, Instant};

/// How long a body is made smaller at most.
const PATIENCE: Duration = Duration::from_secs(20);

/// What makes a body worth keeping, and until when it is asked.
struct Search<'a> {
    differs: &'a dyn Fn(&Sheet) -> bool,
    end: Instant,
}

impl Search<'_> {
    fn goes_on(&self) -> bool {
        Instant::now() < self.end
    }

    /// A sheet without as many parts of one sort as can go while it differs: halves are tried first, in the end single parts.
    fn fewer(&self, mut sheet: Sheet, count: fn(&Sheet) -> usize, without: fn(&Sheet, Range<usize>) -> Sheet) -> Sheet {
        let mut step = count(&sheet).div_ceil(2);
        while step > 0 {
            let mut at = 0;
            while at < count(&sheet) && self.goes_on() {
                let less = without(&sheet, at..(at + step).min(count(&sheet)));
                if (self.differs)(&less) {
                    sheet = less;
                } else {
                    at += step;
                }
            }
            step /= 2;
        }
        sheet
    }
}

fn without_rows(sheet: &Sheet, range: Range<usize>) -> Sheet {
    let mut less = sheet.clone();
    less.rows.drain(range);
    less
}

fn without_triangles(sheet: &Sheet, range: Range<usize>) -> Sheet {
    let mut less = sheet.clone();
    let mut start = 0;
    for row in &mut less.rows {
        let own = start..start + row.indices.len();
        let (from, to) = ((3 * range.start).clamp(own.start, own.end), (3 * range.end).clamp(own.start, own.end));
        row.indices.drain(from - own.start..to - own.start);
        start = own.end;
    }
    less
}

/// Only the vertices that a triangle uses, faces numbered from 0, no materials.
fn bare(sheet: &Sheet) -> Sheet {
    let mut less = Sheet { materials: Vec::new(), default: None, ..sheet.clone() };
    for (k, row) in less.rows.iter_mut().enumerate() {
        let (positions, normals) = (std::mem::take(&mut row.positions), std::mem::take(&mut row.normals));
        row.face = k as u32;
        let mut own = HashMap::new();
        for index in &mut row.indices {
            *index = *own.entry(*index).or_insert_with(|| {
                row.positions.push(positions[*index as usize]);
                row.normals.push(normals[*index as usize]);
                row.positions.len() as u32 - 1
            });
        }
    }
    less
}

/// The smallest body found that differs, by leaving out rows, triangles and vertices of one that does.
pub fn smallest(sheet: &Sheet, differs: impl Fn(&Sheet) -> bool) -> Sheet {
    let search = Search { differs: &differs, end: Instant::now() + PATIENCE };
    let size = |s: &Sheet| (s.rows.len(), s.indices());
    let mut least = sheet.clone();
    loop {
        let before = size(&least);
        least = search.fewer(least, |s| s.rows.len(), without_rows);
        least = search.fewer(least, |s| s.indices() / 3, without_triangles);
        if size(&least) == before {
            break;
        }
    }
    let bare = bare(&least);
    if differs(&bare) { bare } else { least }
}
