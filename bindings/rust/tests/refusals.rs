//! Every refusal, reached through the calls, and what it leaves unchanged.

use body_finisher::{
    lent, work_words, Aabb, BinId, Body, BodyOut, Entry, FaceId, FaceRange, Finisher, Mesh, MeshOut, Page, Part, RawFailure, Refusal, Row,
    RowError, Setting, WoundFace, MOST_BIN, MOST_INDICES, MOST_ROWS, MOST_VERTICES,
};

const UP: [[f32; 3]; 6] = [[0.0, 0.0, 1.0]; 6];
/// The last coordinate whose cell doesn't clamp, of bits 550637BD, and the next one.
const LAST_UNCLAMPED: f32 = 9_223_372_013_568.0;
const FIRST_CLAMPED: f32 = 9_223_373_062_144.0;
const NOTHING: Setting<'static> = Setting { bounds: Aabb::EMPTY, materials: &[], default: Entry::NONE };

/// K8 of document 01: a triangle, and two that meet in the middle of its first edge.
fn split_body() -> Body {
    let (o, x, y, m, d) = ([0.0; 3], [10.0, 0.0, 0.0], [0.0, 10.0, 0.0], [5.0, 0.0, 0.0], [0.0, -10.0, 0.0]);
    let mut body = Body::default();
    body.push_patch(0, FaceId(0), BinId(0), &[o, x, y], &UP[..3], &[0, 1, 2]).expect("one normal a vertex");
    body.push_patch(0, FaceId(1), BinId(0), &[o, d, m, m, d, x], &UP, &[0, 1, 2, 3, 4, 5]).expect("one normal a vertex");
    body
}

/// The same body with a change.
fn spoiled(spoil: impl FnOnce(&mut Body)) -> Body {
    let mut body = split_body();
    spoil(&mut body);
    body
}

/// Bodies that every call refuses, one for each check up to 24.
fn refused_bodies() -> Vec<(Refusal, Body)> {
    vec![
        (Refusal::Table, spoiled(|b| b.rows.resize(MOST_ROWS + 1, Row::default()))),
        (Refusal::Outcome, spoiled(|b| b.rows[0].outcome = 256)),
        (Refusal::Outcome, spoiled(|b| b.rows[0].outcome = 1)),
        (Refusal::Limit, spoiled(|b| b.rows[0].vertices = MOST_VERTICES as u32)),
        (Refusal::Limit, spoiled(|b| b.rows[1].indices = MOST_INDICES as u32)),
        (Refusal::Lengths, spoiled(|b| b.positions.truncate(8))),
        (Refusal::Lengths, spoiled(|b| b.normals.push([0.0; 3]))),
        (Refusal::Lengths, spoiled(|b| b.indices.push(0))),
        (Refusal::Bin, spoiled(|b| b.rows[1].bin = BinId(MOST_BIN + 1))),
        (
            Refusal::Triangles,
            spoiled(|b| {
                b.rows[1].indices = 7;
                b.indices.push(0);
            }),
        ),
        (Refusal::Index, spoiled(|b| b.indices[8] = 6)),
        (Refusal::NotFinite, spoiled(|b| b.positions[0][0] = f32::NAN)),
        (Refusal::NotFinite, spoiled(|b| b.normals[8][2] = f32::NEG_INFINITY)),
        (Refusal::NotFinite, spoiled(|b| (b.positions[0][0], b.normals[8][2]) = (FIRST_CLAMPED, f32::NAN))),
        (Refusal::Clamped, spoiled(|b| b.positions[0][0] = FIRST_CLAMPED)),
        (Refusal::Clamped, spoiled(|b| b.positions[8][2] = -FIRST_CLAMPED)),
        (Refusal::Clamped, spoiled(|b| b.positions[4] = [f32::MAX; 3])),
        (
            Refusal::Clamped,
            spoiled(|b| {
                // A vertex that no triangle uses.
                b.rows[1].vertices += 1;
                b.positions.push([0.0, FIRST_CLAMPED, 0.0]);
                b.normals.push([0.0; 3]);
            }),
        ),
    ]
}

/// The same numbers, bit for bit.
fn same(a: &Body, b: &Body) -> bool {
    let bits = |list: &[[f32; 3]]| list.iter().map(|p| p.map(f32::to_bits)).collect::<Vec<_>>();
    a.rows == b.rows && a.indices == b.indices && bits(&a.positions) == bits(&b.positions) && bits(&a.normals) == bits(&b.normals)
}

fn former_mesh() -> Mesh {
    Mesh { positions: vec![[4.0; 3]; 50], indices: vec![9; 2], parts: vec![Part { start: 3, ..Part::default() }], ..Mesh::default() }
}

#[test]
fn broken_bodies_are_refused_by_every_call_and_nothing_changes() {
    let finisher = &mut Finisher::new();
    for (refusal, body) in refused_bodies() {
        let mut turned = body.clone();
        assert_eq!(finisher.turn(turned.view_mut()), Err(refusal));
        assert!(same(&turned, &body), "{refusal:?}: the body is as it was");
        let (mut out, former) = (split_body(), split_body());
        assert_eq!(finisher.stitch(body.view(), 1.0, &mut out), Err(refusal));
        assert!(same(&out, &former), "{refusal:?}: the output is as it was");
        let mut mesh = former_mesh();
        assert_eq!(finisher.assemble(body.view(), &NOTHING, &mut mesh), Err(refusal));
        assert_eq!(finisher.finish_into(body.view(), 1.0, &NOTHING, &mut mesh), Err(refusal));
        assert_eq!(mesh, former_mesh(), "{refusal:?}: the mesh is as it was");
        let mut bins = [BinId(9); 2];
        assert_eq!(lent::nearest_bins(body.view(), &[], [0; 3], &mut bins), Err(refusal));
        assert_eq!(bins, [BinId(9); 2], "{refusal:?}: the bin list is as it was");
        let (mut faces, former) = (vec![WoundFace { face: FaceId(9), count: 9 }; 2], vec![WoundFace { face: FaceId(9), count: 9 }; 2]);
        let page = Page { bodies: 4_096, ..Page::default() };
        assert_eq!(finisher.report(body.view(), Aabb::EMPTY, page, &mut faces), Err(refusal));
        assert_eq!(faces, former, "{refusal:?}: the face list is as it was");
    }
}

#[test]
fn a_work_area_one_word_short_is_refused_and_unchanged() {
    let mut body = split_body();
    let words = body.view().work_words();
    let mut work = vec![7; words - 1];
    assert_eq!(lent::turn(body.view_mut(), &mut work), Err(Refusal::WorkArea));
    assert!(work.iter().all(|word| *word == 7), "up to 31 the work area is unchanged");
    work.resize(words + 1, 7);
    assert!(lent::turn(body.view_mut(), &mut work).is_ok());
    assert!(work[..words].iter().all(|word| *word == 0) && work[words] == 7, "its words come back zero, the next is unchanged");
}

#[test]
fn assembling_needs_a_work_area_for_the_stitched_body() {
    let mut body = split_body();
    let (mut rows, mut indices) = (vec![Row::default(); 2], vec![0; 12]);
    let (mut positions, mut normals) = (vec![[0.0; 3]; 10], vec![[0.0; 3]; 10]);
    // Sized for the slices that stitching writes to, it is enough for all three calls.
    let mut work = vec![0; work_words(10, 12, 2)];
    let before = body.view().work_words();
    lent::turn(body.view_mut(), &mut work[..before]).expect("enough for the body as it is");
    let out = BodyOut { rows: &mut rows, positions: &mut positions, normals: &mut normals, indices: &mut indices };
    let done = lent::stitch(body.view(), 0.25, out, &mut work[..before]).expect("enough for the body as it is");
    assert_eq!((done.splits, done.vertices, done.indices), (1, 10, 12));
    let stitched = Body { rows, positions, normals, indices };
    let mut mesh = (vec![[0.0; 3]; 10], vec![[0.0; 3]; 10], vec![0; 12]);
    let (mut parts, mut ranges, mut failures) = ([Part::default(); 2], [FaceRange::default(); 2], [RawFailure::default(); 2]);
    let mut assemble = |work: &mut [u64]| {
        let out = MeshOut {
            positions: &mut mesh.0,
            normals: &mut mesh.1,
            indices: &mut mesh.2,
            parts: &mut parts,
            ranges: &mut ranges,
            failures: &mut failures,
        };
        lent::assemble(stitched.view(), &NOTHING, out, work).map(|done| done.vertices)
    };
    assert_eq!(assemble(&mut work[..before]), Err(Refusal::WorkArea));
    assert_eq!(assemble(&mut work[1..]), Err(Refusal::WorkArea));
    assert_eq!(assemble(&mut work), Ok(10));
}

#[test]
fn rows_that_do_not_fit_are_errors_and_leave_the_body_as_it_was() {
    let mut body = split_body();
    let positions = [[0.0; 3]; 3];
    for normals in [2, 4] {
        let misfit = body.push_patch(0, FaceId(5), BinId(0), &positions, &UP[..normals], &[0, 1, 2]);
        assert_eq!(misfit, Err(RowError::Normals { face: FaceId(5), vertices: 3, normals }));
    }
    let zero = body.push_failure(0, FaceId(6), BinId(0), 0);
    assert_eq!(zero, Err(RowError::NoFailure { face: FaceId(6) }));
    assert_eq!(zero.unwrap_err().to_string(), "face 6: a failure's number is 1 to 255, not 0");
    assert!(same(&body, &split_body()), "the body is as it was");
    assert_eq!((body.push_failure(0, FaceId(6), BinId(0), 1), body.push_failure(0, FaceId(6), BinId(0), 255)), (Ok(()), Ok(())));
}

#[test]
fn an_output_that_is_too_short_is_refused() {
    let (body, mut work) = (split_body(), vec![0; 4096]);
    let mut stitch = |rows: usize, positions: usize, normals: usize, indices: usize| {
        let (mut r, mut p) = (vec![Row::default(); rows], vec![[7.0; 3]; positions]);
        let (mut n, mut i) = (vec![[7.0; 3]; normals], vec![7; indices]);
        let out = BodyOut { rows: &mut r, positions: &mut p, normals: &mut n, indices: &mut i };
        let answer = lent::stitch(body.view(), 0.25, out, &mut work);
        assert!(answer.is_ok() || (p.iter().chain(&n).all(|v| *v == [7.0; 3]) && i.iter().all(|k| *k == 7)), "outputs are as they were");
        answer.map(|done| (done.vertices, done.indices))
    };
    assert_eq!(stitch(2, 10, 10, 12), Ok((10, 12)));
    assert_eq!(stitch(1, 10, 10, 12), Err(Refusal::Output));
    assert_eq!(stitch(2, 9, 10, 12), Err(Refusal::Output));
    assert_eq!(stitch(2, 10, 9, 12), Err(Refusal::Output));
    assert_eq!(stitch(2, 10, 10, 11), Err(Refusal::Output));
}

#[test]
fn a_stitched_body_past_the_limits_is_refused() {
    let at_the_limit = spoiled(|b| {
        let more = MOST_VERTICES - 9;
        b.rows[1].vertices += more as u32;
        b.positions.resize(MOST_VERTICES, [0.0; 3]);
        b.normals.resize(MOST_VERTICES, [0.0; 3]);
    });
    let (mut out, mut finisher) = (split_body(), Finisher::new());
    assert_eq!(finisher.stitch(at_the_limit.view(), 0.25, &mut out), Err(Refusal::StitchedLimit));
    assert!(same(&out, &split_body()), "the output is as it was");
    let mut mesh = former_mesh();
    assert_eq!(finisher.finish_into(at_the_limit.view(), 0.25, &NOTHING, &mut mesh), Err(Refusal::StitchedLimit));
    assert_eq!(mesh, former_mesh());
    assert_eq!(finisher.stitch(at_the_limit.view(), 0.0, &mut out).map(|done| done.splits), Ok(0));
}

#[test]
fn an_entry_or_a_default_above_the_last_material_is_refused() {
    let (body, mut mesh) = (split_body(), former_mesh());
    let finisher = &mut Finisher::new();
    let (last, above) = (Entry(1 << 32), Entry((1 << 32) + 1));
    let unused = Setting { materials: &[Entry::NONE, last, above], ..NOTHING };
    assert_eq!(finisher.assemble(body.view(), &unused, &mut mesh), Err(Refusal::Material));
    assert_eq!(finisher.finish(body.view(), 1.0, &Setting { default: above, ..NOTHING }), Err(Refusal::Material));
    assert_eq!(mesh, former_mesh());
    assert!(finisher.assemble(body.view(), &Setting { materials: &[last], default: last, ..NOTHING }, &mut mesh).is_ok());
    assert_eq!(mesh.parts[0].material.0, u32::MAX);
}

#[test]
fn a_mesh_slice_or_a_table_that_is_too_short_is_refused() {
    let (body, mut work) = (split_body(), vec![0; 4096]);
    let mut assemble = |lengths: [usize; 6]| {
        let (mut p, mut n, mut i) = (vec![[7.0; 3]; lengths[0]], vec![[7.0; 3]; lengths[1]], vec![7; lengths[2]]);
        let (mut parts, mut ranges) = (vec![Part::default(); lengths[3]], vec![FaceRange::default(); lengths[4]]);
        let mut failures = vec![RawFailure::default(); lengths[5]];
        let out = MeshOut {
            positions: &mut p,
            normals: &mut n,
            indices: &mut i,
            parts: &mut parts,
            ranges: &mut ranges,
            failures: &mut failures,
        };
        lent::assemble(body.view(), &NOTHING, out, &mut work).map(|done| done.vertices)
    };
    let exact = [9, 9, 9, 2, 2, 2];
    assert_eq!(assemble(exact), Ok(9));
    for k in 0..exact.len() {
        let mut short = exact;
        short[k] -= 1;
        assert_eq!(assemble(short), Err(Refusal::Mesh), "slice {k}");
    }
}

#[test]
fn a_patch_alone_is_refused_by_the_checks_of_a_body() {
    let (p, n) = ([[0.0; 3], [1.0, 0.0, 0.0], [0.0, 1.0, 0.0]], &UP[..3]);
    let volume = |p: &[[f32; 3]], n: &[[f32; 3]], i: &[u32]| body_finisher::patch_volume(p, n, i, false);
    assert_eq!(volume(&p, n, &[0, 1, 2]), Ok(0.0));
    assert_eq!(volume(&vec![[0.0; 3]; MOST_VERTICES + 1], n, &[0]), Err(Refusal::Limit));
    assert_eq!(volume(&p, &n[..2], &[0]), Err(Refusal::Lengths));
    assert_eq!(volume(&p, n, &[0, 1]), Err(Refusal::Triangles));
    assert_eq!(body_finisher::farthest(&p, n, &[0, 1, 3], Aabb::EMPTY), Err(Refusal::Index));
    assert_eq!(body_finisher::escapes_body(&[[f32::INFINITY; 3]], &n[..1], &[], Aabb::EMPTY), Err(Refusal::NotFinite));
    assert_eq!(body_finisher::farthest(&[[0.0, -FIRST_CLAMPED, 0.0]], &n[..1], &[], Aabb::EMPTY), Err(Refusal::Clamped));
    assert_eq!(body_finisher::escapes_body(&[[f32::MAX; 3]], &[[f32::NAN; 3]], &[], Aabb::EMPTY), Err(Refusal::NotFinite));
    assert_eq!(volume(&[[0.0; 3], [f32::MAX; 3], [0.0, 1.0, 0.0]], n, &[0, 1, 2]), Err(Refusal::Clamped));
}

#[test]
fn the_last_coordinates_whose_cells_do_not_clamp_are_accepted_and_normals_have_no_such_limit() {
    let body = spoiled(|b| {
        (b.positions[0][0], b.positions[8][2]) = (LAST_UNCLAMPED, -LAST_UNCLAMPED);
        b.normals[4] = [f32::MAX, -FIRST_CLAMPED, 0.0];
    });
    assert!(Finisher::new().finish(body.view(), 1.0, &NOTHING).is_ok());
    assert_eq!(body_finisher::farthest(&[[LAST_UNCLAMPED; 3]], &[[f32::MIN; 3]], &[], Aabb::EMPTY), Ok(0.0));
}

#[test]
fn numbers_and_refusals_are_one_to_one() {
    for refusal in Refusal::ALL {
        assert_eq!(Refusal::from_number(refusal.number()), Some(refusal));
        assert!(refusal.to_string().contains(&refusal.number().to_string()));
    }
    assert_eq!(Refusal::from_number(0), None);
    assert_eq!(Refusal::from_number(51), None);
}
