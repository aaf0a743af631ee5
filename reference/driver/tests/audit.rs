//! The winding audit: the piece that is cut out of the source counts what the whole source prints, and the model what the piece does.

use cad_tess::face::probe;
use driver::audit::{is_printed, wound};
use driver::check::check;
use driver::finish::{faces_of, finish_and_audit};
use driver::flat::Flat;
use driver::generate::{KINDS, Kind, SEAMS, ZEROS, body_of};
use driver::page;
use driver::sheet::Sheet;

/// A body as it is given, its rows' counts by the piece and by the model.
fn as_given(sheet: &Sheet) -> usize {
    let counted = wound(faces_of(sheet));
    assert_eq!(page::wound(&Flat::of(sheet)), counted);
    counted.len()
}

/// The piece's counts of a body turned and stitched, held to what the whole source prints of it.
fn finished(sheet: &Sheet) -> usize {
    let mut faces = faces_of(sheet);
    probe::orient_shell(&mut faces);
    probe::stitch_t_junctions(&mut faces, f64::from_bits(sheet.sag));
    let (counted, (_, said)) = (wound(faces), finish_and_audit(sheet).expect("a body within the limits"));
    assert!(is_printed(&counted, &said), "{counted:?}, but it prints {said:?}");
    counted.len()
}

fn bodies(kind: &'static Kind) -> impl Iterator<Item = Sheet> {
    (0..40)
        .flat_map(|seed| [0, 5].map(|size| (seed, size)))
        .filter_map(|(seed, size)| body_of(kind, seed, size).filter(|s| check(s).is_ok()))
}

#[test]
fn the_piece_the_print_and_the_model_agree() {
    let (mut given, mut after, mut more_than_printed) = (0, 0, 0);
    for sheet in KINDS.iter().chain(SEAMS).chain(ZEROS).flat_map(bodies) {
        let (before, behind) = (as_given(&sheet), finished(&sheet));
        given += (before > 0) as usize;
        after += (behind > 0) as usize;
        more_than_printed += (behind > 12) as usize;
    }
    assert!(given > 100 && after > 100, "bodies with faces wound against a neighbour: {given} given, {after} finished");
    assert!(more_than_printed > 0, "a body with more such faces than the source prints");
}
