//! Whether a mesh is closed: a plain model written from the words of document 02, since the Rust has no such answer.

use std::collections::BTreeMap;

/// The pattern of −0.0.
pub const NEGATIVE_ZERO: u32 = 0x8000_0000;

/// A point as three patterns.
pub type Point = [u32; 3];

/// A point's patterns: "for closed, the two zeros are one point", so −0.0's is taken for 0.0's, which is 0.
fn point(position: &[f32; 3]) -> Point {
    position.map(|v| if v.to_bits() == NEGATIVE_ZERO { 0 } else { v.to_bits() })
}

/// How often each edge of the triangles is used: a pair of points in no order, the ends of which are not equal.
pub fn uses(positions: &[[f32; 3]], indices: &[u32], point: fn(&[f32; 3]) -> Point) -> BTreeMap<[Point; 2], usize> {
    let points: Vec<Point> = positions.iter().map(point).collect();
    let mut uses = BTreeMap::new();
    for t in indices.chunks_exact(3) {
        for (from, to) in [(t[0], t[1]), (t[1], t[2]), (t[2], t[0])] {
            let (a, b) = (points[from as usize], points[to as usize]);
            if a != b {
                *uses.entry([a.min(b), a.max(b)]).or_insert(0) += 1;
            }
        }
    }
    uses
}

/// Closed, if no edge has one use and none more than two.
pub fn is_closed(positions: &[[f32; 3]], indices: &[u32]) -> bool {
    uses(positions, indices, point).values().all(|uses| *uses == 2)
}

/// Whether a −0.0 is among the coordinates.
pub fn has_negative_zero(positions: &[[f32; 3]]) -> bool {
    positions.iter().flatten().any(|v| v.to_bits() == NEGATIVE_ZERO)
}
