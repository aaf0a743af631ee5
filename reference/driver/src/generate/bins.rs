//! The bins of a body's rows. They have random numbers of their own, so that a body is the same with them and without.

use super::random_of;
use crate::check::MOST_BIN;
use crate::random::Random;
use crate::sheet::Sheet;

/// The random numbers of the bins of a kind's sheets.
pub fn random(kind: &str, seed: u64) -> Random {
    random_of(kind, !seed)
}

/// A body with bins: none named, one for all, one for each shell, one for each row, few or any.
pub fn given(mut body: Sheet, r: &mut Random) -> Sheet {
    let (how, one) = (r.below(6), any(r));
    for (k, row) in body.rows.iter_mut().enumerate() {
        row.bin = match how {
            0 => 0,
            1 => one,
            2 => (row.shell % MOST_BIN) + 1,
            3 => MOST_BIN - k as u32,
            4 => *r.pick(&[0, 1, MOST_BIN]),
            _ => any(r),
        };
    }
    body
}

/// A bin at random, those at the ends and around a byte more often.
fn any(r: &mut Random) -> u32 {
    let bin = r.below(MOST_BIN as u64 + 1) as u32;
    *r.pick(&[0, 1, 7, 255, 256, 9999, 10_000, MOST_BIN - 1, MOST_BIN, bin, bin])
}
