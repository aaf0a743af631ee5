//! The float steps, on bit patterns of IEEE 754 binary32 and binary64, and the cell and key of a point. A result that is a NaN is
//! 7FF8000000000000, narrowed 7FC00000.
//!
//! ```
//! use body_finisher::steps;
//!
//! assert_eq!(steps::sqrt(2f64.to_bits()), 0x3FF6A09E667F3BCD);
//! assert_eq!(steps::narrow((1.0 + 3.0 * f64::powi(2.0, -24)).to_bits()), 0x3F800002);
//! assert_eq!(steps::widen(1f32.to_bits()), 1f64.to_bits());
//! assert_eq!(steps::round((-2.5f64).to_bits()), (-3f64).to_bits());
//! assert_eq!(steps::larger(0f64.to_bits(), (-0f64).to_bits()), 0);
//! assert_eq!(steps::cell(0.0078125).value, 7_813);
//! assert_ne!(steps::key([0.0, 0.0, 0.0]), steps::key([0.0, 0.0, 0.000001]));
//! ```

use crate::body::Point;
use crate::ffi;

/// A coordinate's cell.
#[derive(Debug, Clone, Copy, PartialEq, Eq, Hash, Default)]
pub struct Cell {
    pub value: i64,
    /// Whether it is cut off at the end of 64 bits, so that other coordinates share it.
    pub clamped: bool,
}

/// A point's key.
#[derive(Debug, Clone, Copy, PartialEq, Eq, Hash, Default)]
pub struct Key {
    pub value: u64,
    /// Whether one of the point's three cells is cut off.
    pub clamped: bool,
}

/// The binary64 of the same value.
pub fn widen(bits: u32) -> u64 {
    ffi::widen(bits)
}

/// The nearest binary32, ties to even.
pub fn narrow(bits: u64) -> u32 {
    ffi::narrow(bits)
}

/// The binary64 nearest to the square root, ties to even.
pub fn sqrt(bits: u64) -> u64 {
    ffi::sqrt(bits)
}

/// The nearest whole number, halves away from zero.
pub fn round(bits: u64) -> u64 {
    ffi::round(bits)
}

/// The larger of two: a NaN is ignored, and +0 is above −0.
pub fn larger(a: u64, b: u64) -> u64 {
    ffi::larger(a, b)
}

/// The whole number nearest to 1,000,000 × v, halves away from zero, clamped to 64 bits, and whether it was; 0 for a NaN, which isn't.
/// The calls refuse a body with a position whose cell clamps with [`Clamped`](crate::Refusal::Clamped).
///
/// ```
/// use body_finisher::steps::{cell, Cell};
///
/// assert_eq!(cell(f32::powi(2.0, 43)), Cell { value: 8_796_093_022_208_000_000, clamped: false });
/// assert_eq!(cell(f32::powi(2.0, 44)), Cell { value: i64::MAX, clamped: true });
/// assert!(!cell(f32::from_bits(0xD50637BD)).clamped && cell(f32::from_bits(0xD50637BE)).clamped);
/// assert!(cell(f32::NEG_INFINITY).clamped);
/// assert_eq!(cell(f32::NAN), Cell::default());
/// ```
pub fn cell(v: f32) -> Cell {
    ffi::cell(v)
}

/// The digest of a point's three cells, and whether one of them clamps: points with one key are one point to turning and stitching.
///
/// ```
/// use body_finisher::steps::key;
///
/// let (first, second) = ([f32::powi(2.0, 44), 0.0, 0.0], [f32::MAX, 0.0, 0.0]);
/// assert_eq!(key(first).value, key(second).value, "strangers in one clamped cell");
/// assert!(key(first).clamped && !key([1.0, 2.0, 3.0]).clamped);
/// ```
pub fn key([x, y, z]: Point) -> Key {
    ffi::key(x, y, z)
}
