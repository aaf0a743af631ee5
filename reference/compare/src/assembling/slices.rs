//! The slices that a mesh is written to: full of something else before, and what a call should leave of them.

use crate::source_bodies::unlike_at;
use compare::library::Mesh;
use driver::random::Random;

/// The lengths of the six slices: positions, normals, indices, parts, ranges, failures.
pub type Lengths = [usize; 6];

pub fn lengths(mesh: &Mesh) -> Lengths {
    [mesh.positions.len(), mesh.normals.len(), mesh.indices.len(), mesh.parts.len(), mesh.ranges.len(), mesh.failures.len()]
}

/// Slices of these lengths whose content is a function of the place, floats of any bits among it.
pub fn filled(lengths: Lengths, r: &mut Random) -> Mesh {
    let salt = r.next();
    let words = |n: usize| (0..n as u64).map(move |k| k.wrapping_mul(0x9e37_79b9_7f4a_7c15) ^ salt);
    let numbers = |n: usize| words(n).map(|w| (w >> 32) as u32).collect::<Vec<u32>>();
    let floats = |n: usize| numbers(n).into_iter().map(f32::from_bits).collect::<Vec<f32>>();
    Mesh {
        positions: floats(lengths[0]),
        normals: floats(lengths[1]),
        indices: numbers(lengths[2]),
        parts: numbers(lengths[3]),
        ranges: numbers(lengths[4]),
        failures: words(lengths[5]).collect(),
    }
}

/// Slice k cut to a length.
pub fn cut(mesh: &mut Mesh, k: usize, length: usize) {
    match k {
        0 => mesh.positions.truncate(length),
        1 => mesh.normals.truncate(length),
        2 => mesh.indices.truncate(length),
        3 => mesh.parts.truncate(length),
        4 => mesh.ranges.truncate(length),
        _ => mesh.failures.truncate(length),
    }
}

/// A mesh written over the front of slices.
pub fn written(mesh: &Mesh, slices: &Mesh) -> Mesh {
    fn over<T: Copy>(front: &[T], all: &[T]) -> Vec<T> {
        [front, &all[front.len()..]].concat()
    }
    Mesh {
        positions: over(&mesh.positions, &slices.positions),
        normals: over(&mesh.normals, &slices.normals),
        indices: over(&mesh.indices, &slices.indices),
        parts: over(&mesh.parts, &slices.parts),
        ranges: over(&mesh.ranges, &slices.ranges),
        failures: over(&mesh.failures, &slices.failures),
    }
}

/// The first place where slices of one length differ, the right ones first.
pub fn unlike(want: &Mesh, got: &Mesh) -> Option<String> {
    let bits = |list: &'_ [f32]| list.iter().map(|v| v.to_bits()).collect::<Vec<u32>>().into_iter();
    unlike_at("number of the parts", want.parts.iter(), got.parts.iter())
        .or_else(|| unlike_at("number of the ranges", want.ranges.iter(), got.ranges.iter()))
        .or_else(|| unlike_at("number of the failures", want.failures.iter(), got.failures.iter()))
        .or_else(|| unlike_at("mesh index", want.indices.iter(), got.indices.iter()))
        .or_else(|| unlike_at("mesh position coordinate", bits(&want.positions), bits(&got.positions)))
        .or_else(|| unlike_at("mesh normal coordinate", bits(&want.normals), bits(&got.normals)))
}
