//! The lines of a sheet and of a result, as document 01 prints them.

use crate::finish::{Failure, Finished};
use crate::sheet::{Row, Sheet};
use std::fmt::Write;

fn vertex_line(out: &mut String, p: [u32; 3], n: [u32; 3]) {
    writeln!(out, "(v (p {:08X} {:08X} {:08X}) (n {:08X} {:08X} {:08X}))", p[0], p[1], p[2], n[0], n[1], n[2]).expect("text");
}

fn triangle_lines(out: &mut String, indices: &[u32]) {
    for t in indices.chunks_exact(3) {
        writeln!(out, "(t {} {} {})", t[0], t[1], t[2]).expect("text");
    }
}

/// A row's bin as its line names it: bin 0 by no number.
fn bin_word(row: &Row) -> String {
    if row.bin == 0 { String::new() } else { format!(" {}", row.bin) }
}

fn row_lines(out: &mut String, row: &Row) {
    if row.outcome != 0 {
        writeln!(out, "(fail {} {} {}{})", row.shell, row.face, row.outcome, bin_word(row)).expect("text");
        return;
    }
    writeln!(out, "(face {} {}{})", row.shell, row.face, bin_word(row)).expect("text");
    for (p, n) in row.positions.iter().zip(&row.normals) {
        vertex_line(out, *p, *n);
    }
    triangle_lines(out, &row.indices);
}

/// The text of a sheet.
pub fn sheet(sheet: &Sheet) -> String {
    let mut out = String::from("(box");
    for corner in sheet.corners {
        write!(out, " {corner:016X}").expect("text");
    }
    writeln!(out, ")\n(sag {:016X})", sheet.sag).expect("text");
    match sheet.default {
        None => out.push_str("(default -)\n"),
        Some(material) => writeln!(out, "(default {material})").expect("text"),
    }
    for (face, material) in &sheet.materials {
        writeln!(out, "(material {face} {material})").expect("text");
    }
    for row in &sheet.rows {
        row_lines(&mut out, row);
    }
    out
}

fn failure_line(out: &mut String, face: u32, bin: u32, failure: &Failure) {
    match failure {
        Failure::Empty => writeln!(out, "(failed {face} {bin} (empty))"),
        Failure::Upstream(number) => writeln!(out, "(failed {face} {bin} (upstream {number}))"),
        Failure::Escape(reach, span) => {
            writeln!(out, "(failed {face} {bin} (escape {:016X} {:016X}))", reach.to_bits(), span.to_bits())
        }
    }
    .expect("text");
}

/// The text of a finished body.
pub fn finished(f: &Finished) -> String {
    let mut out = String::new();
    writeln!(out, "(mesh {} {})", f.positions.len(), f.indices.len()).expect("text");
    for (p, n) in f.positions.iter().zip(&f.normals) {
        vertex_line(&mut out, p.map(f32::to_bits), n.map(f32::to_bits));
    }
    for (material, start, count) in &f.parts {
        writeln!(out, "(part {material} {start} {count})").expect("text");
    }
    triangle_lines(&mut out, &f.indices);
    for (face, bin, first, past) in &f.ranges {
        writeln!(out, "(range {face} {bin} {first} {past})").expect("text");
    }
    for (face, bin, failure) in &f.failures {
        failure_line(&mut out, *face, *bin, failure);
    }
    writeln!(out, "(turned {})\n(against {})\n(split {})\n(ok {})", f.turned, f.against, f.splits, f.ok).expect("text");
    writeln!(out, "(edges {})\n(open {})\n(over {})\n(closed {})", f.edges, f.open, f.over, f.closed() as u32).expect("text");
    out
}
