//! Bodies finished through the wrapper: owned, lent, one after another, and from several threads.

use body_finisher::{
    face_at, face_indices, Aabb, BinId, Body, BodyRef, Entry, FaceFailure, FaceId, FaceRange, Failure, Finisher, MaterialId, Mesh, Part,
    Setting,
};

const WALLS: [[usize; 4]; 6] = [[0, 2, 3, 1], [4, 5, 7, 6], [0, 1, 5, 4], [2, 6, 7, 3], [0, 4, 6, 2], [1, 3, 7, 5]];

/// A bin of six walls from a corner on, of a size; those of which the bit is set in `inward` are wound inward.
fn add_bin(body: &mut Body, shell: u32, at: [f32; 3], size: [f32; 3], inward: u32) {
    for (face, corners) in WALLS.iter().enumerate() {
        let corner = |k: usize| std::array::from_fn(|axis| at[axis] + if k >> axis & 1 == 1 { size[axis] } else { 0.0 });
        let indices = if inward >> face & 1 == 1 { [0, 2, 1, 0, 3, 2] } else { [0, 1, 2, 0, 2, 3] };
        body.push_patch(shell, FaceId(face as u32), BinId(0), &corners.map(corner), &[[0.0, 0.0, 1.0]; 4], &indices)
            .expect("one normal a vertex");
    }
}

fn bin(inward: u32) -> Body {
    let mut body = Body::default();
    add_bin(&mut body, 0, [0.0; 3], [3000.0, 2500.0, 6000.0], inward);
    body
}

#[test]
fn every_choice_of_inward_walls_ends_as_one_bin() {
    let mut finisher = Finisher::new();
    let outside = finisher.finish(bin(0).view(), 0.05, &Setting::default()).expect("a bin");
    assert_eq!(outside.counts.turned.turned, 0);
    assert_eq!((outside.counts.assembled.edges, outside.counts.assembled.opens), (18, 0));
    for inward in 0..64 {
        let body = bin(inward);
        let done = finisher.finish(body.view(), 0.05, &Setting::default()).expect("a bin");
        assert_eq!(done.counts.turned.turned, inward.count_ones());
        assert_eq!((done.counts.turned.against, done.counts.stitched.splits), (0, 0));
        assert!(done.counts.assembled.closed);
        assert_eq!(done.mesh.positions, outside.mesh.positions);
        assert_eq!(body, bin(inward), "the body stays as it is");
    }
}

#[test]
fn materials_make_parts_and_rows_ranges() {
    let steel = Entry::from(MaterialId(2));
    let setting =
        Setting { materials: &[Entry::NONE, steel, Entry::NONE, steel], default: Entry::from(MaterialId(9)), ..Setting::default() };
    let mesh = Finisher::new().finish(bin(0).view(), 0.05, &setting).expect("a bin").mesh;
    let part = |material, start, count| Part { material: MaterialId(material), start, count };
    assert_eq!(mesh.parts, [part(2, 0, 12), part(9, 12, 24)]);
    assert_eq!(mesh.ranges[0], FaceRange { face: FaceId(0), bin: BinId(0), first: 12, past: 18 });
    assert_eq!(mesh.ranges[1], FaceRange { face: FaceId(1), bin: BinId(0), first: 0, past: 6 });
}

#[test]
fn failures_say_why() {
    let mut body = bin(0);
    body.push_failure(0, FaceId(70), BinId(65_535), 255).expect("a failure");
    body.push_patch(0, FaceId(71), BinId(5), &[], &[], &[]).expect("one normal a vertex");
    let far = [[1e6, 0.0, 0.0], [1e6, 1.0, 0.0], [1e6, 0.0, 1.0]];
    body.push_patch(0, FaceId(72), BinId(6), &far, &[[1.0, 0.0, 0.0]; 3], &[0, 1, 2]).expect("one normal a vertex");
    let bounds = Aabb { min: [0.0; 3], max: [3000.0, 2500.0, 6000.0] };
    let mesh = Finisher::new().finish(body.view(), 0.05, &Setting { bounds, ..Setting::default() }).expect("a bin").mesh;
    let failed = |face, bin, failure| FaceFailure { face: FaceId(face), bin: BinId(bin), failure };
    assert_eq!(mesh.failures[..2], [failed(70, 65_535, Failure::Upstream(255)), failed(71, 5, Failure::Empty)]);
    let FaceFailure { face, bin, failure: Failure::Escape { reach, span } } = mesh.failures[2] else { panic!("the third escapes") };
    assert_eq!((face, bin, span), (FaceId(72), BinId(6), (3000f64 * 3000.0 + 2500.0 * 2500.0 + 6000.0 * 6000.0).sqrt()));
    assert!(reach > 998_000.0 && reach < 1e6);
    assert_eq!(mesh.ranges.len(), 6);
}

/// A triangle whose first edge so many points split, each a corner of a triangle of its own.
fn split_by(points: usize) -> Body {
    let long = (points + 1) as f32;
    let mut body = Body::default();
    body.push_patch(0, FaceId(0), BinId(0), &[[0.0; 3], [long, 0.0, 0.0], [0.0, long, 0.0]], &[[0.0, 0.0, 1.0]; 3], &[0, 1, 2])
        .expect("one normal a vertex");
    for k in 0..points {
        let x = k as f32 + 0.5;
        body.push_patch(0, FaceId(1), BinId(0), &[[x, 0.0, 0.0], [x, -5.0, 1.0], [x, -5.0, -1.0]], &[[0.0, 0.0, 1.0]; 3], &[0, 1, 2])
            .expect("one normal a vertex");
    }
    body
}

#[test]
fn the_stitched_body_gets_as_much_room_as_it_needs() {
    let (mut finisher, mut out) = (Finisher::new(), Body::default());
    for points in [1, 400, 60, 0] {
        let body = split_by(points);
        let done = finisher.stitch(body.view(), 0.25, &mut out).expect("a body");
        assert_eq!(done.splits, points as u64);
        assert_eq!(out.positions.len(), body.positions.len() + points);
        assert_eq!(out.indices.len(), body.indices.len() + 3 * points);
        assert_eq!((out.rows.len(), out.normals.len()), (body.rows.len(), out.positions.len()));
    }
}

#[test]
fn a_face_has_the_indices_of_its_row_of_the_stitched_body() {
    let (body, mut stitched) = (split_by(20), Body::default());
    assert!(Finisher::new().stitch(body.view(), 0.05, &mut stitched).expect("a small body").splits > 0);
    let (before, after) = (body.view(), stitched.view());
    let copied = |k, out: &mut [u32]| face_indices(before.rows, before.indices, after.rows, after.indices, k, out);
    let mut rest = after.indices;
    for (k, row) in after.rows.iter().enumerate() {
        let (own, behind) = rest.split_at(row.indices as usize);
        let mut out = vec![u32::MAX; own.len() + 1];
        assert_eq!(copied(k, &mut out), own.len() as u64);
        assert_eq!(out.split_last(), Some((&u32::MAX, own)), "row {k}");
        assert_eq!(face_at(after.rows, k), row.face);
        rest = behind;
    }
    assert_eq!(copied(after.rows.len(), &mut []), 0);
}

#[test]
fn bodies_of_every_order_and_a_kept_mesh_give_the_same() {
    let setting = Setting::default();
    let fresh = |body: &Body| Finisher::new().finish(body.view(), 0.25, &setting).expect("a body");
    let (mut kept, mut mesh) = (Finisher::with_room(100, 100, 10), Mesh::default());
    for body in [bin(5), split_by(30), Body::default(), bin(63), split_by(3), Body::default(), bin(1)] {
        let counts = kept.finish_into(body.view(), 0.25, &setting, &mut mesh).expect("a body");
        let wanted = fresh(&body);
        assert_eq!(counts, wanted.counts);
        assert_eq!(mesh, wanted.mesh);
    }
    assert!(kept.work_words() >= split_by(30).view().work_words());
}

#[test]
fn slices_that_are_only_read_may_overlap() {
    let (body, mut finisher) = (split_by(20), Finisher::new());
    let copied = Body { normals: body.positions.clone(), ..body.clone() };
    let shared = BodyRef { normals: &body.positions, ..body.view() };
    let (mut one, mut other) = (Body::default(), Body::default());
    assert_eq!(finisher.stitch(shared, 0.25, &mut one), finisher.stitch(copied.view(), 0.25, &mut other));
    assert_eq!(one, other);
    let setting = Setting::default();
    let (mut one, mut other) = (Mesh::default(), Mesh::default());
    assert_eq!(finisher.assemble(shared, &setting, &mut one), finisher.assemble(copied.view(), &setting, &mut other));
    assert_eq!(one, other);
}

#[test]
fn bins_go_through_all_calls_and_change_nothing_else() {
    let (mut finisher, mut body, mut out) = (Finisher::new(), split_by(20), Body::default());
    body.push_failure(0, FaceId(70), BinId(0), 3).expect("a failure");
    let plain = finisher.finish(body.view(), 0.25, &Setting::default()).expect("a body");
    for (k, row) in body.rows.iter_mut().enumerate() {
        row.bin = BinId(65_535 - 7 * k as u32);
    }
    assert!(finisher.stitch(body.view(), 0.25, &mut out).expect("a body").splits > 0);
    assert!(out.rows.iter().zip(&body.rows).all(|(after, before)| after.bin == before.bin), "the stitched rows have the bins");
    let done = finisher.finish(body.view(), 0.25, &Setting::default()).expect("a body");
    assert_eq!(done.counts, plain.counts);
    let (failed, accepted) = body.rows.split_last().expect("rows");
    assert!(done.mesh.ranges.iter().zip(accepted).all(|(range, row)| range.bin == row.bin));
    assert_eq!(done.mesh.failures[0].bin, failed.bin);
    let mut mesh = done.mesh;
    mesh.ranges.iter_mut().for_each(|range| range.bin = BinId(0));
    mesh.failures.iter_mut().for_each(|failure| failure.bin = BinId(0));
    assert_eq!(mesh, plain.mesh);
}

#[test]
fn no_rows_are_a_closed_body() {
    let done = Finisher::new().finish(Body::default().view(), 1.0, &Setting::default()).expect("no rows");
    assert!(done.counts.assembled.closed);
    assert_eq!(done.mesh, Mesh::default());
}

#[test]
fn rows_that_all_failed_are_a_closed_body_without_triangles() {
    let mut body = Body::default();
    body.push_failure(0, FaceId(3), BinId(0), 9).expect("a failure");
    let done = Finisher::new().finish(body.view(), 1.0, &Setting::default()).expect("a failed row");
    assert!(done.counts.assembled.closed);
    assert_eq!((done.counts.assembled.indices, done.counts.assembled.failures), (0, 1));
}

#[test]
fn threads_finish_bodies_at_once_on_small_stacks() {
    let wanted = Finisher::new().finish(split_by(40).view(), 0.25, &Setting::default()).expect("a body");
    std::thread::scope(|scope| {
        for _ in 0..4 {
            let small = std::thread::Builder::new().stack_size(64 << 10);
            let work = || {
                let mut finisher = Finisher::new();
                for _ in 0..20 {
                    let done = finisher.finish(split_by(40).view(), 0.25, &Setting::default()).expect("a body");
                    assert_eq!(done, wanted);
                }
            };
            small.spawn_scoped(scope, work).expect("a thread");
        }
    });
}
