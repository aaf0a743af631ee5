//! The float steps against the processor's own.

use compare::library;
use driver::random::Random;

const NAN64: u64 = 0x7FF8_0000_0000_0000;

fn one_nan(x: f64) -> u64 {
    if x.is_nan() { NAN64 } else { x.to_bits() }
}

fn larger(x: f64, y: f64) -> u64 {
    match (x.is_nan(), y.is_nan()) {
        (true, _) => one_nan(y),
        (_, true) => x.to_bits(),
        _ if x == 0.0 && y == 0.0 => x.to_bits() & y.to_bits(),
        _ => x.max(y).to_bits(),
    }
}

/// A bit pattern: any, or one near a whole number, a tie, a power of two or an end of a format.
fn pattern(r: &mut Random) -> u64 {
    let special =
        [0.0, 1.0, 0.5, 1.5, 2.5, 4503599627370497.5, f64::INFINITY, f64::MIN_POSITIVE, 1.401298464324817e-45, 3.4028235677973366e38];
    match r.below(4) {
        0 => r.next(),
        1 => (r.pick(&special).to_bits() ^ (r.next() & 0x8000_0000_0000_0000)).wrapping_add(r.below(5)).wrapping_sub(2),
        2 => ((r.unit() - 0.5) * 1e6).to_bits(),
        _ => ((r.next() as f32).to_bits() as u64) << r.below(33),
    }
}

/// A step of two patterns that has another answer than the processor's, if one has.
pub fn differ(r: &mut Random) -> Option<String> {
    let (a, b) = (pattern(r), pattern(r));
    let (x, y, n) = (f64::from_bits(a), f64::from_bits(b), a as u32);
    let narrowed = if x.is_nan() { 0x7FC0_0000 } else { (x as f32).to_bits() };
    let checks = [
        ("widen", library::widen(n), one_nan(f32::from_bits(n) as f64)),
        ("narrow", library::narrow(a) as u64, narrowed as u64),
        ("sqrt", library::sqrt(a), one_nan(x.sqrt())),
        ("round", library::round(a), one_nan(x.round())),
        ("larger", library::larger(a, b), larger(x, y)),
    ];
    checks
        .iter()
        .find(|(_, ours, theirs)| ours != theirs)
        .map(|(name, ours, theirs)| format!("{name} of {a:016X} {b:016X}: {theirs:016X}, not {ours:016X}"))
}
