//! The boundary cases that document 01 names beside K1 to K10 ("Others"), through the library.

use body_finisher::{lent, BinId, Body, FaceId, Finisher, Refusal, Setting};

const UP: [[f32; 3]; 6] = [[0.0, 0.0, 1.0]; 6];

/// A body of one triangle a row.
fn triangles(rows: u32) -> Body {
    let mut body = Body::default();
    for face in 0..rows {
        let x = 20.0 * face as f32;
        body.push_patch(0, FaceId(face), BinId(0), &[[x, 0.0, 0.0], [x + 10.0, 0.0, 0.0], [x, 10.0, 0.0]], &UP[..3], &[0, 1, 2])
            .expect("one normal a vertex");
    }
    body
}

#[test]
fn rows_4096_are_worked_and_4097_refused() {
    let finisher = &mut Finisher::new();
    let most = finisher.finish(triangles(4096).view(), 0.05, &Setting::default()).expect("4,096 rows are within the limit");
    assert_eq!((most.mesh.ranges.len(), most.counts.assembled.edges), (4096, 3 * 4096));
    let refused = finisher.finish(triangles(4097).view(), 0.05, &Setting::default());
    assert_eq!(refused.err(), Some(Refusal::Table));
}

#[test]
fn a_work_area_of_exactly_the_words_is_enough_and_one_word_less_is_not() {
    let mut body = triangles(7);
    let words = 16 * 21 + 16 * 7 + 4 * 21;
    assert_eq!(body.view().work_words(), words);
    let mut work = vec![u64::MAX; words];
    assert_eq!(lent::turn(body.view_mut(), &mut work[1..]), Err(Refusal::WorkArea));
    assert_eq!(work, vec![u64::MAX; words], "a refusal leaves the work area as it was");
    assert!(lent::turn(body.view_mut(), &mut work).is_ok());
    assert_eq!(work, vec![0; words], "it comes back zero");
}

#[test]
fn a_point_as_far_from_an_edge_as_the_sag_splits_it() {
    let (o, x, y, d) = ([0.0; 3], [10.0, 0.0, 0.0], [0.0, 10.0, 0.0], [0.0, -10.0, 0.0]);
    let m = [5.0, -0.25, 0.0];
    let mut body = Body::default();
    body.push_patch(0, FaceId(0), BinId(0), &[o, x, y], &UP[..3], &[0, 1, 2]).expect("one normal a vertex");
    body.push_patch(0, FaceId(1), BinId(0), &[o, d, m, m, d, x], &UP, &[0, 1, 2, 3, 4, 5]).expect("one normal a vertex");
    let finisher = &mut Finisher::new();
    let mut out = Body::default();
    let mut splits = |sag: f64| finisher.stitch(body.view(), sag, &mut out).expect("a small body").splits;
    assert_eq!(splits(0.25), 1);
    assert_eq!(splits(f64::from_bits(0.25f64.to_bits() - 1)), 0);
}
