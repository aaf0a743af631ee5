//! The box, materials and default that a body is assembled with, varied at random, and some of its rows.

use compare::library::Setting;
use driver::check::{LAST_UNCLAMPED, MOST_BIN, MOST_ROWS, MOST_VERTICES, clamps};
use driver::closed::NEGATIVE_ZERO;
use driver::finish::{box_of, face_materials};
use driver::random::Random;
use driver::sheet::{Row, Sheet};

type Corners = [f64; 6];

/// A way to make a box for a body; none where the body has no vertex for it.
type MakeBox = fn(&Sheet, &mut Random) -> Option<Corners>;

const INFINITE: f64 = f64::INFINITY;

/// Face numbers that a material list is made for: it is as long as the largest of them.
const MOST_LISTED: u32 = 8191;

const BOXES: &[MakeBox] = &[
    |sheet, _| Some(own(sheet)),
    |_, _| Some([INFINITE, INFINITE, INFINITE, -INFINITE, -INFINITE, -INFINITE]),
    |sheet, r| one_axis_turned_round(own(sheet), r),
    |sheet, r| vertex(sheet, r).map(|p| [p[0], p[1], p[2], p[0], p[1], p[2]]),
    |sheet, r| Some(some_corners(own(sheet), &[f64::NAN, -f64::NAN], r)),
    |sheet, r| Some(some_corners(own(sheet), &[INFINITE, -INFINITE], r)),
    |sheet, r| Some(some_corners(own(sheet), &[f64::NAN, INFINITE, -INFINITE, f64::MAX, f64::MIN], r)),
    |_, _| Some([-INFINITE, -INFINITE, -INFINITE, INFINITE, INFINITE, INFINITE]),
    |_, _| Some([f64::MIN, f64::MIN, f64::MIN, f64::MAX, f64::MAX, f64::MAX]),
    |_, r| Some(*r.pick(&[[0.0, 0.0, 0.0, -0.0, -0.0, -0.0], [-0.0, 0.0, -0.0, 0.0, 0.0, 0.0]])),
    |_, r| Some([0.0, 0.0, 0.0, *r.pick(&[5e-324, 1e-170, 1e-162, 1e-154, 1e-30]), 0.0, 0.0]),
    |_, r| Some([*r.pick(&[1e200, -1e160, 1e154, 1e100]), 0.0, 0.0, 1e200, 1.0, 0.0]),
    |sheet, r| Some(smaller(own(sheet), r)),
    |sheet, r| Some(smaller(own(sheet), r)),
    |sheet, r| Some(smaller(own(sheet), r)),
    |sheet, r| Some(moved(own(sheet), r)),
    |sheet, r| Some(moved(own(sheet), r)),
    reached_exactly,
    reached_exactly,
];

fn own(sheet: &Sheet) -> Corners {
    sheet.corners.map(f64::from_bits)
}

/// A vertex of a row at random.
fn vertex(sheet: &Sheet, r: &mut Random) -> Option<[f64; 3]> {
    let rows: Vec<&Row> = sheet.rows.iter().filter(|row| !row.positions.is_empty()).collect();
    let row = if rows.is_empty() { return None } else { *r.pick(&rows) };
    Some(r.pick(&row.positions).map(|bits| f32::from_bits(bits) as f64))
}

/// A box that is empty along one axis only, where it has an extent there.
fn one_axis_turned_round(mut c: Corners, r: &mut Random) -> Option<Corners> {
    let axis = r.size(0, 2);
    c.swap(axis, axis + 3);
    Some(c)
}

fn some_corners(mut c: Corners, values: &[f64], r: &mut Random) -> Corners {
    for _ in 0..*r.pick(&[1, 1, 2, 6]) {
        c[r.size(0, 5)] = *r.pick(values);
    }
    c
}

/// A part of a box, so that rows far from that part's middle escape.
fn smaller(mut c: Corners, r: &mut Random) -> Corners {
    let part = *r.pick(&[0.9, 0.7, 0.5, 0.3, 0.1, 0.001]);
    for axis in 0..3 {
        let extent = c[axis + 3] - c[axis];
        c[axis] += extent * (1.0 - part) * r.unit();
        c[axis + 3] = c[axis] + extent * part;
    }
    c
}

/// A box beside the body, by a part of its size or several of it.
fn moved(mut c: Corners, r: &mut Random) -> Corners {
    let (axis, times) = (r.size(0, 2), r.between(-2.0, 2.0));
    let extent = c[axis + 3] - c[axis];
    c[axis] += extent * times;
    c[axis + 3] += extent * times;
    c
}

/// A line along x as long as the way from its middle to a vertex: exactly, a step of f64 shorter or longer. The vertex is one at
/// random or the one with the largest x, and the line's length a power of two.
fn reached_exactly(sheet: &Sheet, r: &mut Random) -> Option<Corners> {
    let some = vertex(sheet, r)?;
    let points = sheet.rows.iter().flat_map(|row| &row.positions).map(|p| p.map(|bits| f32::from_bits(bits) as f64));
    let last = points.max_by(|p, q| p[0].total_cmp(&q[0]))?;
    let p = *r.pick(&[some, last, last]);
    let length = 2f64.powi(r.size(0, 14) as i32);
    let high = p[0] - 0.5 * length;
    let high = *r.pick(&[high, high, high.next_up(), high.next_down()]);
    Some([p[0] - 1.5 * length, p[1], p[2], high, p[1], p[2]])
}

/// Numbers at the ends of the range, and any.
fn material(r: &mut Random) -> u32 {
    let any = r.next() as u32;
    *r.pick(&[0, 0, 1, 1, 2, 7, 0x7fff_ffff, 0x8000_0000, u32::MAX - 1, u32::MAX, any])
}

fn default(r: &mut Random) -> Option<u32> {
    if r.chance(40) { None } else { Some(material(r)) }
}

/// Materials for some of the faces: all faces with one, each with one of a few, each with its own from the highest down, or any.
fn materials(sheet: &Sheet, r: &mut Random) -> Vec<(u32, u32)> {
    let (how, few) = (r.below(5), [material(r), material(r), material(r)]);
    let given = *r.pick(&[100, 100, 50, 10]);
    let mut out = Vec::new();
    for face in sheet.rows.iter().map(|row| row.face).filter(|face| *face <= MOST_LISTED) {
        if r.chance(given) {
            out.push(match how {
                0 => (face, few[0]),
                1 | 2 => (face, *r.pick(&few)),
                3 => (face, MOST_LISTED - face),
                _ => (face, material(r)),
            });
        }
    }
    out
}

/// Some rows get a face number that another has, one that differs from it in a high bit, that no list reaches, or a low one.
fn change_faces(sheet: &mut Sheet, r: &mut Random) {
    if sheet.rows.is_empty() {
        return;
    }
    for _ in 0..r.size(1, 3) {
        let (row, other) = (r.size(0, sheet.rows.len() - 1), r.pick(&sheet.rows).face);
        sheet.rows[row].face = *r.pick(&[other, other, other ^ 1 << 16, other ^ 1 << 31, 0, 63, u32::MAX, u32::MAX - 1]);
    }
}

/// Rows that fail, among the others.
fn add_failed_rows(sheet: &mut Sheet, r: &mut Random) {
    for _ in 0..r.size(1, 3) {
        if sheet.rows.len() == MOST_ROWS || sheet.vertices() == MOST_VERTICES {
            return;
        }
        let (shell, face) = (r.below(3) as u32, r.below(64) as u32);
        let bin = *r.pick(&[0, 1, 256, MOST_BIN]);
        let bare = Row { shell, face, bin, ..Row::default() };
        let row = match r.below(3) {
            0 => bare,
            1 => Row { outcome: *r.pick(&[1, 2, 254, 255]), ..bare },
            _ => Row { positions: vec![[0x4e6e_6b28, 0, 0]], normals: vec![[0; 3]], ..bare },
        };
        let at = r.size(0, sheet.rows.len());
        sheet.rows.insert(at, row);
    }
}

/// A vertex that no triangle uses, in the body's neighbourhood or as far away as cells go: it counts for an escape too.
fn add_unused_vertex(sheet: &mut Sheet, r: &mut Random) {
    let near = vertex(sheet, r).unwrap_or([1.0; 3]).map(|v| (v * r.between(-3.0, 3.0)) as f32);
    let at = *r.pick(&[near, near, [1e9, -3.0, 0.0], [f32::from_bits(LAST_UNCLAMPED), 0.0, -0.0]]);
    let patches: Vec<usize> = (0..sheet.rows.len()).filter(|k| sheet.rows[*k].outcome == 0).collect();
    if !patches.is_empty() && sheet.vertices() < MOST_VERTICES && !at.into_iter().any(clamps) {
        let row = &mut sheet.rows[*r.pick(&patches)];
        row.positions.push(at.map(f32::to_bits));
        row.normals.push([0x8000_0000, 1, 0x3f80_0000]);
    }
}

/// Some of the zeros get the other sign, or all.
fn change_zeros(sheet: &mut Sheet, r: &mut Random) {
    let percent = *r.pick(&[5, 50, 100]);
    for bits in sheet.rows.iter_mut().flat_map(|row| &mut row.positions).flatten() {
        if *bits | NEGATIVE_ZERO == NEGATIVE_ZERO && r.chance(percent) {
            *bits ^= NEGATIVE_ZERO;
        }
    }
}

/// A sheet with another box, other materials and another default, and some of its rows changed.
pub fn varied(sheet: &Sheet, r: &mut Random) -> Sheet {
    let mut other = sheet.clone();
    if r.chance(1) {
        other.rows.clear();
    }
    if r.chance(30) {
        change_faces(&mut other, r);
    }
    if r.chance(30) {
        add_failed_rows(&mut other, r);
    }
    if r.chance(20) {
        add_unused_vertex(&mut other, r);
    }
    if r.chance(30) {
        change_zeros(&mut other, r);
    }
    let make = *r.pick(BOXES);
    if let Some(corners) = make(&other, r) {
        other.corners = corners.map(f64::to_bits);
    }
    other.default = default(r);
    other.materials = materials(&other, r);
    other
}

/// What the library takes for a sheet's box, materials and default; an entry of 0 at the list's end says no more than none.
pub fn setting(sheet: &Sheet, r: &mut Random) -> Setting {
    let entry = |material: u32| material as u64 + 1;
    let mut materials: Vec<u64> = face_materials(sheet).iter().map(|m| m.map_or(0, |m| entry(m.0))).collect();
    materials.resize(materials.len() + r.size(0, 2), 0);
    Setting { reference: box_of(sheet), materials, default: sheet.default.map_or(0, entry) }
}
