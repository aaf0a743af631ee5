//! Pages that a report is given, and the former content of face lists.

use driver::page::{MOST_BODIES, MOST_EACH, Page};
use driver::random::Random;

/// Listed faces of a page at random, at most, so that lists stay short.
const MOST_LISTED: u64 = 40;

/// A page of which every count is within its limit: none, at it, one below, or between. Such a page need not be one that reports give.
pub fn within(r: &mut Random) -> Page {
    let some = 1 + r.below(MOST_BODIES - 1);
    let bodies = *r.pick(&[0, 0, 1, 2, 2048, MOST_BODIES - 2, MOST_BODIES - 1, some]);
    let most = MOST_EACH * bodies;
    let few = r.chance(50);
    let mut counts = [0; 8].map(|_: i32| {
        let between = r.below(most + 1);
        if few { between.min(r.below(9)) } else { *r.pick(&[0, most, most.saturating_sub(1), between]) }
    });
    counts[7] = r.below(MOST_LISTED + 1).min(most);
    Page::of(bodies, counts)
}

/// A page that 67 is for: too many bodies, or one count too large, with the others within their limits.
pub fn beyond(r: &mut Random) -> Page {
    let page = within(r);
    if r.chance(30) {
        let more = r.next().max(MOST_BODIES);
        return Page { bodies: *r.pick(&[MOST_BODIES, MOST_BODIES, MOST_BODIES + 1, 1 << 32, 1 << 46, u64::MAX, more]), ..page };
    }
    let (mut counts, most) = (page.counts(), MOST_EACH * page.bodies);
    let more = r.next() >> r.below(64);
    let beyond = *r.pick(&[1, 1, 1, MOST_EACH, 1 << 32, 1 << 63, more.max(1)]);
    counts[r.size(0, 7)] = *r.pick(&[most.saturating_add(beyond), u64::MAX]);
    Page::of(page.bodies, counts)
}

/// Numbers that a face list holds before a call.
pub fn former(numbers: usize, r: &mut Random) -> Vec<u32> {
    let salt = r.next() as u32;
    (0..numbers as u32).map(|k| k.wrapping_mul(0x9e37_79b9) ^ salt).collect()
}
