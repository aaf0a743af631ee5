//! Coordinates of every size that is accepted: at and beside the halves of micrometres, tiny, of a yard, beyond 32 bits of micrometres,
//! and up to the last whose cell doesn't clamp.

use driver::check::LAST_UNCLAMPED;
use driver::random::Random;

/// A number with a sign at random.
fn signed(v: f32, r: &mut Random) -> f32 {
    if r.chance(50) { -v } else { v }
}

/// Where 1000 times a coordinate is half an odd number exactly: an odd number of sixteenths.
fn half(r: &mut Random) -> f32 {
    let most = *r.pick(&[4, 100, 1 << 10, 1 << 16]);
    (2 * r.below(most) + 1) as f32 / 16.0
}

/// A coordinate's neighbour among the floats, or itself.
fn beside(v: f32, r: &mut Random) -> f32 {
    *r.pick(&[v.next_down(), v, v.next_up()])
}

/// Coordinates that are 0 or next to nothing, and those about half a micrometre.
fn tiny(r: &mut Random) -> f32 {
    let bits = r.below(0x80_0000) as u32;
    *r.pick(&[
        0.0,
        f32::from_bits(1),
        f32::from_bits(bits),
        f32::MIN_POSITIVE,
        1e-30,
        1e-7,
        0.000_499_999_96,
        0.000_5,
        0.000_500_000_1,
        0.001,
    ])
}

/// A coordinate that a place within the range can bring to any peg near the origin.
pub fn near(r: &mut Random) -> f32 {
    let v = match r.below(8) {
        0 | 1 => half(r),
        2 => {
            let v = half(r);
            beside(v, r)
        }
        3 => tiny(r),
        4 => r.below(10_000) as f32 / 1000.0,
        5 => r.between(0.0, 10.0) as f32,
        6 => r.between(0.0, 8000.0) as f32,
        _ => r.between(0.0, 8.0e6) as f32,
    };
    signed(v, r)
}

/// A coordinate beyond 2^32 micrometres, most of which are 0 at their lowest 32 bits.
pub fn far(r: &mut Random) -> f32 {
    let power = f32::from_bits((r.size(127 + 29, 127 + 43) as u32) << 23);
    let any = f32::from_bits(r.size(0x4e00_0000, LAST_UNCLAMPED as usize) as u32);
    let v = *r.pick(&[power, power, power, f32::from_bits(LAST_UNCLAMPED), 9e12, any]);
    signed(v, r)
}

/// A coordinate of any size whose cell doesn't clamp.
pub fn any(r: &mut Random) -> f32 {
    let bits = r.below(u64::from(LAST_UNCLAMPED) + 1) as u32;
    match r.below(3) {
        0 => near(r),
        1 => far(r),
        _ => signed(f32::from_bits(bits), r),
    }
}
