//! Plans: read and written by the library alone, since the Rust has none.

use bench::race::{alone, timed};
use bench::shown::grouped;
use compare::library::{ENTRY, MOST_ENTRIES, read_plan, write_plan};
use driver::random::Random;

const ROUNDS: usize = 501;

/// Bins in a row, and rows in a block: each row is a group in its block's group.
const ROW: usize = 16;
const BLOCK: usize = 8;

/// A whole number of micrometres up to so far from the origin.
fn number(r: &mut Random, far: u64) -> i64 {
    r.below(2 * far + 1) as i64 - far as i64
}

/// A line's three offsets.
fn offset(r: &mut Random, far: u64) -> String {
    format!("{} {} {}", number(r, far), number(r, far), number(r, far))
}

/// A plan of so many bins in nested groups, with offsets of up to hundreds of kilometres, so that its numbers are long.
fn plan(bins: usize) -> String {
    let r = &mut Random::new(1);
    let mut text = String::new();
    for bin in 0..bins {
        if bin % (ROW * BLOCK) == 0 {
            text += &format!("(group {}\n", offset(r, 400_000_000_000));
        }
        if bin % ROW == 0 {
            text += &format!("(group {}\n", offset(r, 100_000_000_000));
        }
        text += &format!("(bin {bin} {})\n", offset(r, 400_000_000_000));
        let ends = |every: usize| (bin + 1) % every == 0 || bin + 1 == bins;
        text += if ends(ROW) { ")\n" } else { "" };
        text += if ends(ROW * BLOCK) { ")\n" } else { "" };
    }
    text
}

/// The median times of reading a plan and of writing its list, in microseconds, and how long the listing is.
fn times(text: &str, bins: usize) -> (f64, f64, usize) {
    let mut list = vec![0; ENTRY * bins];
    let mut out = vec![0; text.len()];
    assert_eq!(read_plan(text.as_bytes(), &mut list).entries, bins as u64, "the plan is accepted");
    let length = write_plan(&list, &mut out).length as usize;
    let read = alone(ROUNDS, || timed(|| read_plan(text.as_bytes(), &mut list)).0);
    let written = alone(ROUNDS, || timed(|| write_plan(&list, &mut out)).0);
    (read, written, length)
}

/// Plans of rising size up to the most bins there are, in milliseconds, and the nanoseconds for each byte read.
pub fn table() {
    println!(
        "\nplan:\n\n| bins | bytes of the plan | read, ms | ns a byte | bytes of the listing | written, ms |\n|---|---|---|---|---|---|"
    );
    for bins in [256, 1_024, MOST_ENTRIES] {
        let text = plan(bins);
        let (read, written, length) = times(&text, bins);
        let (bytes, listing, each) = (grouped(text.len()), grouped(length), 1000.0 * read / text.len() as f64);
        println!("| {} | {bytes} | {:.2} | {each:.1} | {listing} | {:.2} |", grouped(bins), read / 1000.0, written / 1000.0);
    }
}
