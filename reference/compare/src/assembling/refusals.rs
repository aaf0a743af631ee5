//! The refusals of assembling: 42 and 41 of an accepted body, alone and together, and those of the checks before.

use super::cases::{Case, needed, outputs};
use super::slices::{cut, filled};
use super::wrong;
use crate::work::Work;
use cad_ir::math::Aabb;
use compare::library::{Assembled, Mesh, Setting};
use driver::flat::Flat;
use driver::random::Random;

/// Indices and coordinates, below which a body's refusals are all asked for.
const SMALL: usize = 2000;

/// The largest entry of a material list: material 2^32 − 1.
const MOST_ENTRY: u64 = 1 << 32;

fn refusal(number: u32) -> Assembled {
    Assembled { refusal: number, ..Assembled::default() }
}

/// A setting with an entry or the default above the largest: the first entry, the last, one between, or one that no face has.
fn above_most(setting: &Setting, way: usize, r: &mut Random) -> Setting {
    let mut bad = setting.clone();
    let value = *r.pick(&[MOST_ENTRY + 1, MOST_ENTRY + 2, 1 << 33, 1 << 63, u64::MAX]);
    let last = bad.materials.len().saturating_sub(1);
    match way {
        0 => bad.default = value,
        1 if !bad.materials.is_empty() => {
            let place = *r.pick(&[0, last, last / 2]);
            bad.materials[place] = value;
        }
        _ => bad.materials.push(value),
    }
    bad
}

/// Outputs of which one is a number short, or empty, if it must have any.
fn short(case: &Case, outputs: &Mesh, k: usize, r: &mut Random) -> Option<Mesh> {
    let least = needed(case)[k].checked_sub(1)?;
    let mut out = outputs.clone();
    cut(&mut out, k, *r.pick(&[least, least, 0]));
    Some(out)
}

pub fn is_small(body: &Flat) -> bool {
    body.indices.len() + body.positions.len() < SMALL
}

/// The calls that give 42 and 41: each way alone, and both at once; for a large body one of each.
fn refused_calls(case: &Case, outputs: &Mesh, r: &mut Random) -> Vec<(u32, Setting, Mesh)> {
    let small = is_small(&case.body);
    let ways = if small { (0..3).collect() } else { vec![r.size(0, 2)] };
    let slices = if small { (0..6).collect() } else { vec![r.size(0, 5)] };
    let mut calls = Vec::new();
    for way in ways {
        calls.push((42, above_most(&case.setting, way, r), outputs.clone()));
    }
    for k in slices {
        if let Some(out) = short(case, outputs, k, r) {
            calls.push((41, case.setting.clone(), out));
        }
    }
    let (way, k) = (r.size(0, 2), r.size(0, 5));
    if let Some(out) = short(case, outputs, k, r) {
        calls.push((42, above_most(&case.setting, way, r), out));
    }
    calls
}

/// How many calls with an accepted body were refused with 42 and 41 as they should be, or what is wrong with one.
pub fn refusals(case: &Case, r: &mut Random) -> Result<u64, String> {
    let (outputs, cleared) = (outputs(case, r), case.body.words());
    let calls = refused_calls(case, &outputs, r);
    for (number, setting, out) in &calls {
        let work = Work::new(cleared + r.size(0, 5), r.next());
        wrong(&case.body, setting, out, work, refusal(*number), out, cleared).map_or(Ok(()), Err)?;
    }
    Ok(calls.len() as u64)
}

/// What is wrong with the refusal of a body that a check up to 31 refuses, whatever the materials and the outputs are.
pub fn refused(before: &Flat, words: usize, number: u32, r: &mut Random) -> Option<String> {
    let plain = Setting { reference: Aabb::EMPTY, materials: vec![1, 0, MOST_ENTRY], default: 0 };
    let setting = if r.chance(50) { above_most(&plain, r.size(0, 2), r) } else { plain };
    let long = if r.chance(50) { 0 } else { 40 };
    let outputs = filled([(); 6].map(|_| r.size(0, long)), r);
    wrong(before, &setting, &outputs, Work::new(words, r.next()), refusal(number), &outputs, 0)
}
