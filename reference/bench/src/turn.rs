//! Turning: the unchanged Rust's `orient_shell` on its patches, and the library's turn on its slices.

use bench::race::{Times, race, timed};
use cad_tess::face::probe;
use compare::library::{self, Turned};
use driver::finish::faces_of;
use driver::flat::Flat;
use driver::sheet::Sheet;
use std::time::Duration;

/// Both sides turn copies of one body, made before the clock starts, and must agree on the counts.
fn both(sheet: &Sheet, body: &Flat, rounds: usize, turn: &mut dyn FnMut(&mut Flat) -> (Duration, Turned)) -> Times {
    let faces = faces_of(sheet);
    let (mut counts, mut answer) = ((0, 0), None);
    let rust = || {
        let mut copy = faces.clone();
        let (time, result) = timed(|| probe::orient_shell(&mut copy));
        counts = result;
        time
    };
    let ours = || {
        let (time, result) = turn(&mut body.clone());
        answer = Some(result);
        time
    };
    let times = race(rounds, rust, ours);
    let wanted = Turned { refusal: 0, turned: counts.0 as u32, against: counts.1 as u64 };
    assert_eq!(answer, Some(wanted), "both sides agree");
    times
}

/// The library's work area is the same each time, as a caller keeps it.
pub fn times(sheet: &Sheet, rounds: usize) -> Times {
    let body = Flat::of(sheet);
    let mut work = vec![0; body.words()];
    both(sheet, &body, rounds, &mut |copy| timed(|| library::turn(copy, &mut work)))
}

/// The library's work area is made and given back within the time, as the Rust does with its maps.
pub fn times_with_new_work(sheet: &Sheet, rounds: usize) -> Times {
    let body = Flat::of(sheet);
    both(sheet, &body, rounds, &mut |copy| timed(|| library::turn(copy, &mut vec![0; body.words()])))
}
