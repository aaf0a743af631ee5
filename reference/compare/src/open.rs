//! How open a body may be that is stitched with its own sag: the Rust's time goes with the square of the triangles that have an open edge.

use std::cell::Cell;

/// Such triangles at most, if nothing else is asked for.
const MOST_OPEN: usize = 5000;

thread_local! {
    static MOST: Cell<usize> = const { Cell::new(MOST_OPEN) };
}

/// From now on bodies with up to so many are stitched.
pub fn let_open(triangles: usize) {
    MOST.set(triangles);
}

pub fn most_open() -> usize {
    MOST.get()
}
