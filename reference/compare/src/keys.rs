//! Keys and cells of points against the source's, and whether they clamp against the model's, where no body is needed.

use compare::library::{self, Cell, Key};
use driver::check::{LAST_UNCLAMPED, clamps};
use driver::random::Random;
use driver::source;

/// How many bytes a cell has.
const CELL_BYTES: usize = 8;

/// A coordinate whose cell is about to take one byte more, or has just done so.
fn at_a_byte(r: &mut Random) -> f32 {
    let cell = 256f64.powi(r.size(0, CELL_BYTES) as i32);
    let bits = ((cell / 1e6) as f32).to_bits() + r.below(7) as u32 - 3;
    let sign = (r.below(2) as u32) << 31;
    f32::from_bits(bits | sign)
}

/// A coordinate whose cell is about to clamp, or has just done so.
fn at_the_clamp(r: &mut Random) -> f32 {
    let sign = (r.below(2) as u32) << 31;
    f32::from_bits((LAST_UNCLAMPED - 2 + r.below(6) as u32) | sign)
}

/// A coordinate: of any bits, of a cell at the edge of a byte or of 64 bits, of a body, or 0.
fn coordinate(r: &mut Random) -> f32 {
    match r.below(5) {
        0 => f32::from_bits(r.next() as u32),
        1 => at_a_byte(r),
        2 => r.between(-8000.0, 8000.0) as f32,
        3 => at_the_clamp(r),
        _ => *r.pick(&[0.0, -0.0]),
    }
}

/// The source's cell of a coordinate, and whether it clamps.
fn cell(v: f32) -> Cell {
    Cell { value: source::cell(v), clamped: clamps(v) as u32 }
}

/// The source's key of a point, and whether a cell of it clamps.
fn key(p: [f32; 3]) -> Key {
    Key { value: source::key(&p), clamped: p.into_iter().any(clamps) as u32 }
}

/// What differs where the key of a point, or a cell of it, isn't the source's, or says otherwise whether it clamps.
pub fn differing(p: [f32; 3]) -> Option<String> {
    let same = library::key(p) == key(p) && p.iter().all(|v| library::cell(*v) == cell(*v));
    (!same).then(|| format!("key or cell of {p:?}: {:?}, not {:?}; {:?}", key(p), library::key(p), p.map(library::cell)))
}

/// What differs of one point, if anything does.
pub fn differ(r: &mut Random) -> Option<String> {
    differing([coordinate(r), coordinate(r), coordinate(r)])
}

/// What differs of 2^32 points, in which each coordinate is every f32 once, each in an order of its own.
pub fn differ_anywhere() -> Option<String> {
    let point = |n: u32| [n, n.wrapping_mul(0x9E37_79B1), !n.wrapping_mul(0x85EB_CA77)].map(f32::from_bits);
    (0..=u32::MAX).find_map(|n| differing(point(n)))
}
