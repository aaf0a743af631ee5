//! Stitching held to a plain model of document 01, which has an order where the Rust has that of its maps; and a search in a tree of
//! blocks, a port of the library's design, which has to agree with the Rust and the model.

mod edges;
mod limits;
mod model;
mod spans;
mod tree;
pub mod wrong;

use crate::source_bodies::unlike;
use crate::stitching::{self, Case};
use driver::check::check;
use driver::flat::Flat;
use driver::generate::{KINDS, SEAMS, TIES, body_of};
use driver::random::Random;
use edges::{Edge, Point};
use model::{Read, Search, Stitched};
use tree::Tree;
use wrong::Wrong;

pub use limits::at_the_limits;

/// Pieces on each shape of the bodies that planted faults are looked for on; 0 is a small body.
const SIZES_OF_FAULTS: [usize; 2] = [0, 21];

/// Triangles with an open edge, at most, of a body that the model stitches: it tries every loose point on every open edge.
const MOST_MODELLED: usize = 5000;

/// The places of the loose points that are tried on an edge.
type Tried = Box<dyn Fn(&Edge) -> Vec<usize>>;

/// A body stitched, with some of its loose points tried on each edge; a sag that isn't above 0 splits nothing.
fn stitched(before: &Flat, sag: f64, tried: impl Fn(&[Point]) -> Tried, wrong: Wrong) -> Case {
    if !(sag > 0.0) {
        return Case { before: before.clone(), after: before.clone(), splits: 0 };
    }
    let read = Read::of(before);
    let loose = read.loose(wrong);
    let points: Vec<Point> = loose.iter().map(|loose| read.point(loose.vertex)).collect();
    let Stitched { after, splits } = Search { read: &read, loose: &loose, sag, tried: &tried(&points), wrong }.stitched();
    Case { before: before.clone(), after, splits }
}

/// A body as document 01 has it stitched: every loose point is tried on every open edge.
pub fn by_all(before: &Flat, sag: f64) -> Case {
    let every = |points: &[Point]| -> Tried {
        let count = points.len();
        Box::new(move |_| (0..count).collect())
    };
    stitched(before, sag, every, Wrong::Nothing)
}

/// A body stitched with a search in a tree, right but for one fault.
pub fn by_tree(before: &Flat, sag: f64, wrong: Wrong) -> Case {
    let in_tree = |points: &[Point]| -> Tried {
        let tree = Tree::of(points, sag, wrong);
        Box::new(move |edge| tree.tried(edge))
    };
    stitched(before, sag, in_tree, wrong)
}

/// Where the counts of a result are others than the right ones, which come first.
fn same_counts(name: &str, want: &Case, got: &Case) -> Result<(), String> {
    let counts = |case: &Case| (case.splits, case.after.positions.len() / 3, case.after.indices.len());
    let (want, got) = (counts(want), counts(got));
    if want == got { Ok(()) } else { Err(format!("{name}: splits, vertices and indices {want:?}, not {got:?}")) }
}

/// Where a result is another than the right one, which comes first.
fn same(name: &str, want: &Case, got: &Case) -> Result<(), String> {
    same_counts(name, want, got)?;
    unlike(&want.after, &got.after).map_or(Ok(()), |what| Err(format!("{name}: {what}")))
}

/// Where the search in a tree, or the model if the body isn't too open for it, differs from the Rust.
pub fn agree(rust: &Case, sag: f64, open: usize) -> Result<(), String> {
    if open <= MOST_MODELLED {
        same("the model of stitching beside the Rust", rust, &by_all(&rust.before, sag))?;
    }
    same("the search in a tree beside the Rust", rust, &by_tree(&rust.before, sag, Wrong::Nothing))
}

/// What document 01 makes of a body outside its condition, for which the Rust's result hangs on map order; none if it is too open for the
/// model. The search in a tree agrees with it, and so do the Rust's counts where only ties decide, since it drops equal parameters alike.
pub fn modelled(rust: &Case, sag: f64, open: usize, ties_only: bool) -> Option<Result<Case, String>> {
    (open <= MOST_MODELLED).then(|| {
        let model = by_all(&rust.before, sag);
        if ties_only {
            same_counts("the model of stitching beside the Rust", rust, &model)?;
        }
        same("the search in a tree beside the model", &model, &by_tree(&rust.before, sag, Wrong::Nothing))?;
        Ok(model)
    })
}

/// Whether the bodies of some seeds, or those at the limits, show a search that is planted.
pub fn shows(first: u64, last: u64) -> bool {
    let kinds = || TIES.iter().chain(SEAMS).chain(KINDS);
    let bodies = (first..=last).flat_map(|seed| {
        SIZES_OF_FAULTS.into_iter().flat_map(move |size| kinds().filter_map(move |kind| Some((body_of(kind, seed, size)?, seed))))
    });
    let mut accepted = bodies.filter(|(sheet, _)| check(sheet).is_ok());
    accepted.any(|(sheet, seed)| stitching::compared(&sheet, &mut Random::new(seed)).is_err()) || at_the_limits(&TIES[..1]).is_err()
}
