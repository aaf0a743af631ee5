//! Stitching against the unchanged Rust's, and its refusals.

use crate::faces;
use crate::lent;
use crate::open::most_open;
use crate::searches;
use crate::source_bodies::{flat_of, unlike};
use crate::work::Work;
use cad_tess::face::probe;
use compare::library::Stitched;
use driver::check::{MOST_INDICES, MOST_VERTICES};
use driver::condition::{Condition, condition, open_triangles};
use driver::finish::faces_of;
use driver::flat::Flat;
use driver::random::Random;
use driver::sheet::Sheet;

/// Sags that split nothing, besides a sheet's own.
const NOT_ABOVE: [f64; 5] = [0.0, -0.0, -1.0, f64::NAN, f64::NEG_INFINITY];

/// A body turned by the Rust, as it is stitched by it, and the splits.
pub struct Case {
    pub before: Flat,
    pub after: Flat,
    pub splits: usize,
}

pub fn case(sheet: &Sheet, sag: f64) -> Case {
    let mut faces = faces_of(sheet);
    probe::orient_shell(&mut faces);
    let before = flat_of(&faces, sheet);
    let splits = probe::stitch_t_junctions(&mut faces, sag);
    Case { before, after: flat_of(&faces, sheet), splits }
}

/// Output slices of the lengths of a body, each some longer, with content that is a function of its place.
pub fn outputs(body: &Flat, r: &mut Random) -> Flat {
    let salt = r.next() as u32;
    let numbers = |n: usize| (0..n as u32).map(|k| k.wrapping_mul(0x9e37_79b9) ^ salt).collect::<Vec<u32>>();
    let floats = |n: usize| numbers(n).into_iter().map(f32::from_bits).collect::<Vec<f32>>();
    let more = r.size(0, 7);
    Flat {
        rows: numbers(body.rows.len() + more),
        positions: floats(body.positions.len() + more),
        normals: floats(body.normals.len() + more),
        indices: numbers(body.indices.len() + more),
    }
}

/// A body written over the front of outputs.
pub fn written(body: &Flat, outputs: &Flat) -> Flat {
    fn over<T: Copy>(front: &[T], all: &[T]) -> Vec<T> {
        [front, &all[front.len()..]].concat()
    }
    Flat {
        rows: over(&body.rows, &outputs.rows),
        positions: over(&body.positions, &outputs.positions),
        normals: over(&body.normals, &outputs.normals),
        indices: over(&body.indices, &outputs.indices),
    }
}

/// What is wrong with a call: its answer, the outputs it leaves, or the work area of which it should clear some words.
pub fn wrong(before: &Flat, sag: f64, outputs: &Flat, work: &mut Work, want: Stitched, left: &Flat, cleared: usize) -> Option<String> {
    let mut out = outputs.clone();
    let what = match lent::stitch(before, sag, &mut out, work) {
        Err(what) => Some(what),
        Ok(got) if got != want => Some(format!("{want:?}, not {got:?}")),
        Ok(_) => unlike(left, &out).or_else(|| work.wrong(cleared)),
    };
    what.map(|what| format!("stitch, sag {sag:?}: {what}"))
}

pub fn refusal(number: u32) -> Stitched {
    Stitched { refusal: number, vertices: 0, indices: 0, splits: 0 }
}

/// The outputs with slice k a number shorter than a body needs, if it needs one at all.
pub fn shortened(after: &Flat, outputs: &Flat, k: usize) -> Option<Flat> {
    let mut out = outputs.clone();
    match k {
        0 => out.rows.truncate(after.rows.len().checked_sub(1)?),
        1 => out.positions.truncate(after.positions.len().checked_sub(1)?),
        2 => out.normals.truncate(after.normals.len().checked_sub(1)?),
        _ => out.indices.truncate(after.indices.len().checked_sub(1)?),
    }
    Some(out)
}

/// One slice so, the first that can be from one at random on.
fn short(after: &Flat, outputs: &Flat, r: &mut Random) -> Option<Flat> {
    let first = r.size(0, 3);
    (first..first + 4).find_map(|k| shortened(after, outputs, k % 4))
}

/// What is wrong with a call that stitches, or with the refusals of its result.
pub fn differs(case: &Case, sag: f64, r: &mut Random) -> Option<String> {
    let Case { before, after, splits } = case;
    let needed = before.words();
    let work = || Work::new(needed + 3, 0x5a5a);
    let (vertices, indices) = (after.positions.len() / 3, after.indices.len());
    let outputs = outputs(after, r);
    if vertices > MOST_VERTICES || indices > MOST_INDICES {
        return wrong(before, sag, &outputs, &mut work(), refusal(33), &outputs, needed);
    }
    let want = Stitched { refusal: 0, vertices: vertices as u32, indices: indices as u32, splits: *splits as u64 };
    let stitched = written(after, &outputs);
    wrong(before, sag, &outputs, &mut work(), want, &stitched, needed)
        .or_else(|| {
            let short = short(after, &outputs, r)?;
            wrong(before, sag, &short, &mut work(), refusal(32), &short, needed)
        })
        .or_else(|| faces::wrong(before, &stitched, after, r))
}

/// How a body was held against the Rust beyond being copied.
#[derive(Debug)]
pub enum Held {
    /// Its sag is not above 0.
    NoSag,
    /// More triangles with an open edge than `most_open` lets it have: not stitched.
    TooOpen,
    /// It breaks document 01's condition for an exact match, and is too open for the model: not stitched.
    Outside,
    /// It breaks that condition: stitched with its own sag, with so many splits by the model of 01.
    Modelled(usize),
    /// Stitched with its own sag, with so many splits by the Rust.
    Stitched(usize),
}

/// The number of splits with one sag, or where a body is stitched in another way than by the Rust.
fn splits_with(sheet: &Sheet, sag: f64, r: &mut Random) -> Result<usize, String> {
    let case = case(sheet, sag);
    differs(&case, sag, r).map_or(Ok(case.splits), Err)
}

/// The same for a body that is split, which the model and the search in a tree are held to the Rust on; or held to the model alone where
/// the body breaks document 01's condition.
fn held(sheet: &Sheet, sag: f64, open: usize, r: &mut Random) -> Result<Held, String> {
    let (rust, found) = (case(sheet, sag), condition(sheet));
    if found == Condition::Exact {
        searches::agree(&rust, sag, open)?;
        return differs(&rust, sag, r).map_or(Ok(Held::Stitched(rust.splits)), Err);
    }
    match searches::modelled(&rust, sag, open, found == Condition::Tie) {
        None => Ok(Held::Outside),
        Some(model) => model.and_then(|model| differs(&model, sag, r).map_or(Ok(Held::Modelled(model.splits)), Err)),
    }
}

/// How a body was held against the Rust, or where it is stitched in another way. A sag that splits nothing is tried on every body.
pub fn compared(sheet: &Sheet, r: &mut Random) -> Result<Held, String> {
    let none = *r.pick(&NOT_ABOVE);
    splits_with(sheet, none, r)?;
    let sag = f64::from_bits(sheet.sag);
    if !(sag > 0.0) {
        return splits_with(sheet, sag, r).map(|_| Held::NoSag);
    }
    let open = open_triangles(sheet);
    if open > most_open() { Ok(Held::TooOpen) } else { held(sheet, sag, open, r) }
}

/// What is wrong with the refusal of a body that a check up to 31 refuses.
pub fn refused(before: &Flat, words: usize, number: u32, r: &mut Random) -> Option<String> {
    let outputs = outputs(&Flat::default(), r);
    let mut work = Work::new(words, r.next());
    let sag = *r.pick(&[1.0, 0.0, f64::NAN]);
    wrong(before, sag, &outputs, &mut work, refusal(number), &outputs, 0)
}
