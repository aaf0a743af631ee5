//! The end of the source that is cut out of it at build time does what the whole source does behind turning and stitching.

use cad_tess::face::probe;
use driver::check::check;
use driver::finish::{Finished, faces_of, finish};
use driver::generate::{KINDS, body_of};
use driver::print;
use driver::sheet::Sheet;
use driver::tail::assemble;

/// A body turned and stitched step by step, then assembled by the cut piece.
fn by_steps(sheet: &Sheet) -> Finished {
    let mut faces = faces_of(sheet);
    let (turned, against) = probe::orient_shell(&mut faces);
    let splits = probe::stitch_t_junctions(&mut faces, f64::from_bits(sheet.sag));
    Finished { turned, against, splits, ..assemble(faces, sheet) }
}

#[test]
fn the_cut_piece_and_the_whole_agree() {
    for kind in KINDS {
        for seed in 0..40 {
            for size in [0, 5] {
                let Some(sheet) = body_of(kind, seed, size).filter(|s| check(s).is_ok()) else { continue };
                let whole = finish(&sheet).expect("a body within the limits");
                assert_eq!(print::finished(&by_steps(&sheet)), print::finished(&whole), "{} {seed} {size}", kind.name);
            }
        }
    }
}
