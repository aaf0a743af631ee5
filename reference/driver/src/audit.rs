//! The unchanged Rust's winding audit, of all faces. It prints twelve of them at most, so the lines that count are cut out of it at build
//! time; what it does print must be what they count.

use crate::finish::Wound;
use crate::tail::Faces;
use std::cmp::Reverse;

include!(concat!(env!("OUT_DIR"), "/audit.rs"));

/// Face numbers wound against a neighbour with their counts, by the source, in document 02's order.
pub fn wound(faces: Faces) -> Vec<(u32, u64)> {
    let mut all: Vec<(u32, u64)> = against(faces).into_iter().map(|(face, count)| (face, count as u64)).collect();
    all.sort_by_key(|(face, count)| (Reverse(*count), *face));
    all
}

/// Whether the source prints what it counted: how many faces there are, and the twelve highest counts or all, among equal ones any.
pub fn is_printed(wound: &[(u32, u64)], said: &Wound) -> bool {
    let counts = |faces: &[(u32, u64)]| faces.iter().map(|(_, count)| *count).collect::<Vec<u64>>();
    let shown = &wound[..wound.len().min(12)];
    said.faces == wound.len() && counts(&said.printed) == counts(shown) && said.printed.iter().all(|face| wound.contains(face))
}
