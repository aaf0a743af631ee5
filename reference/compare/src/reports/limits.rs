//! Reports with their answers by hand, which the model is held to as well: the audit's counts, their order, pages at their limits.

use super::nothing;
use cad_ir::math::{Aabb, Vec3};
use compare::library::Report;
use driver::check::MOST_ROWS;
use driver::flat::{Flat, ROW};
use driver::page::{ENTRY, MOST_BODIES, MOST_EACH, Page, reported};

type Point = [f32; 3];

const O: Point = [0.0; 3];
const X: Point = [1.0, 0.0, 0.0];
const Y: Point = [0.0, 1.0, 0.0];
const Z: Point = [0.0, 0.0, 1.0];
const D: Point = [0.0, -1.0, 0.0];
const FAR: Point = [100.0, 0.0, 0.0];

/// Two points of other cells with one key.
const STRANGERS: [Point; 2] = [[0.832915, 3.494968, 6.30579], [13.019394, 15.950348, 1.669506]];

/// A report, the numbers of its face list, and the page, share and entries that it must give, or the number that refuses it.
pub struct Case {
    pub name: &'static str,
    pub asked: Report,
    pub numbers: usize,
    wanted: Result<(Page, [u64; 2], Vec<[u32; ENTRY]>), u32>,
}

/// A row of triangles, each with three vertices of its own, as a body.
fn row(shell: u32, face: u32, triangles: &[[Point; 3]]) -> Flat {
    let count = 3 * triangles.len() as u32;
    let positions = triangles.as_flattened().as_flattened().to_vec();
    Flat { rows: vec![shell, face, 0, count, count, 0], normals: vec![0.0; positions.len()], positions, indices: (0..count).collect() }
}

/// A row without triangles: failed upstream, or a patch of one vertex.
fn bare(face: u32, outcome: u32, vertex: &[Point]) -> Flat {
    let positions = vertex.as_flattened().to_vec();
    let rows = vec![0, face, outcome, vertex.len() as u32, 0, 0];
    Flat { rows, normals: vec![0.0; positions.len()], positions, indices: Vec::new() }
}

/// Rows one after another.
fn laid(rows: &[Flat]) -> Flat {
    let mut all = Flat::default();
    for row in rows {
        all.rows.extend(&row.rows);
        all.positions.extend(&row.positions);
        all.normals.extend(&row.normals);
        all.indices.extend(&row.indices);
    }
    all
}

/// Patches, none of which escapes, added to the empty page with exactly enough room.
fn audit(name: &'static str, rows: &[Flat], entries: &[[u32; ENTRY]]) -> Case {
    let body = laid(rows);
    let (faces, vertices) = (rows.len() as u64, body.positions.len() as u64 / 3);
    let counts = [faces, 0, body.indices.len() as u64 / 3, vertices, 0, 0, 0, entries.len() as u64];
    let wanted = Ok((Page::of(1, counts), [1, 1], entries.to_vec()));
    let asked = Report { body, reference: Aabb::EMPTY, page: Page::default() };
    Case { name, asked, numbers: ENTRY * entries.len(), wanted }
}

/// What the audit counts, and by which points, rows and faces.
fn audits() -> Vec<Case> {
    let (t, back) = ([O, X, Y], [O, Y, X]);
    let negative = [O, X, [-0.0, 1.0, -0.0]];
    let one = |face| row(0, face, &[t]);
    vec![
        audit("no rows", &[], &[]),
        audit("one triangle", &[one(7)], &[]),
        audit("a triangle laid twice on one row", &[row(0, 7, &[t, t])], &[[7, 6]]),
        audit("begun at another corner", &[row(0, 7, &[t, [X, Y, O]])], &[[7, 6]]),
        audit("laid twice on rows of one face number", &[one(7), one(7)], &[[7, 6]]),
        audit("laid twice on rows of two", &[one(7), one(6)], &[[6, 3], [7, 3]]),
        audit("of two shells", &[one(7), row(1, 6, &[t])], &[[6, 3], [7, 3]]),
        audit("laid back to back", &[one(7), row(0, 6, &[back])], &[]),
        audit("laid three times", &[one(7), one(6), one(5)], &[[7, 6], [5, 3], [6, 3]]),
        audit("there, back and back", &[one(7), row(0, 6, &[back]), row(0, 5, &[back])], &[]),
        audit("there, back and there", &[one(7), row(0, 6, &[back]), one(5)], &[[5, 3], [7, 3]]),
        audit("one edge the same way", &[one(7), row(0, 6, &[[O, X, Z]])], &[[6, 1], [7, 1]]),
        audit("one edge the other way", &[one(7), row(0, 6, &[[X, O, D]])], &[]),
        audit("two corners in one cell", &[row(0, 7, &[[O, O, X], [O, O, X]])], &[[7, 2]]),
        audit("all corners in one cell", &[row(0, 7, &[[O, O, O], [O, O, O]])], &[]),
        audit("both zeros", &[one(7), row(0, 6, &[negative])], &[[6, 3], [7, 3]]),
        audit("points of one key and two cells", &[row(0, 7, &[[O, X, STRANGERS[0]], [O, D, STRANGERS[1]]])], &[[7, 2]]),
    ]
}

/// The order of the list, counts past 16 bits, and as many entries as a body can have.
fn orders() -> Vec<Case> {
    let t = [O, X, Y];
    let pair = |k: u32, face: u32| row(0, face, &[[[0.0, 0.0, k as f32], [1.0, 0.0, k as f32], [0.0, 1.0, k as f32]]]);
    let faces = [1 << 31, 9, u32::MAX, 0, 1 << 16, 10];
    let ties: Vec<Flat> = faces.iter().enumerate().flat_map(|(k, face)| [pair(k as u32, *face), pair(k as u32, *face)]).collect();
    let all: Vec<Flat> = (0..MOST_ROWS as u32).map(|k| pair(k / 2, (k * 2_731) % MOST_ROWS as u32)).collect();
    let listed: Vec<[u32; ENTRY]> = (0..MOST_ROWS as u32).map(|face| [face, 3]).collect();
    let many = 11_000;
    let uneven = [row(0, 1, &[t]), row(0, 2, &[t, t]), row(0, 3, &[t])];
    vec![
        audit("ties by face number", &ties, &[[0, 6], [9, 6], [10, 6], [1 << 16, 6], [1 << 31, 6], [u32::MAX, 6]]),
        audit("the first user counts most", &uneven, &[[1, 9], [2, 6], [3, 3]]),
        audit("a count past 16 bits", &[row(0, 1, &vec![t; many + 1])], &[[1, 6 * many as u32]]),
        audit("every row is listed", &all, &listed),
    ]
}

/// A box as long as 4 along x about the origin, which a vertex 100 away escapes.
fn short_box() -> Aabb {
    Aabb { min: Vec3::new(-2.0, 0.0, 0.0), max: Vec3::new(2.0, 0.0, 0.0) }
}

/// A page, a body that has each kind of failure, and what they come to; the rows that escape take part in the audit.
fn kinds() -> Vec<Case> {
    let escaping = row(0, 8, &[[O, X, FAR]]);
    let unused = Flat { rows: vec![0, 7, 0, 4, 3, 0], positions: [O, X, Y, Z].concat(), normals: vec![0.0; 12], indices: vec![0, 1, 2] };
    let rows = [unused, escaping.clone(), bare(5, 255, &[]), bare(5, 0, &[FAR]), bare(4, 0, &[]), bare(3, 1, &[])];
    let (body, page) = (laid(&rows), Page::of(2, [3, 1, 10, 20, 0, 1, 0, 1]));
    let sums = Page::of(3, [4, 6, 11, 24, 2, 3, 1, 3]);
    let given = |name, body: Flat, page, numbers, wanted| {
        let asked = Report { body, reference: short_box(), page };
        Case { name, asked, numbers, wanted }
    };
    vec![
        given("each kind of failure", body.clone(), page, 6, Ok((sums, [2, 5], vec![[7, 1], [8, 1]]))),
        given("an odd list", body.clone(), page, 7, Ok((sums, [2, 5], vec![[7, 1], [8, 1]]))),
        given("a list an entry short", body.clone(), page, 4, Err(69)),
        given("a list a number short", body, page, 5, Err(69)),
        given("nothing accepted", escaping, Page::default(), 0, Ok((Page::of(1, [0, 1, 0, 0, 0, 0, 1, 0]), [0, 1], vec![]))),
    ]
}

/// A body without rows and a page at its limits or past them.
fn pages() -> Vec<Case> {
    let empty = |name, page: Page, numbers, wanted: Result<[u64; 2], u32>| {
        let sums = Page { bodies: page.bodies.wrapping_add(1), ..page };
        Case { name, asked: nothing(page), numbers, wanted: wanted.map(|share| (sums, share, Vec::new())) }
    };
    let full = Page::of(1, [MOST_EACH; 8]);
    let last = MOST_BODIES - 1;
    let most = Page::of(last, [MOST_EACH * last; 8]);
    let mut cases = vec![
        empty("the empty page and no list", Page::default(), 0, Ok([1, 1])),
        empty("every count at its limit", full, 2 * MOST_EACH as usize, Ok([1, 2])),
        empty("its list a number short", full, 2 * MOST_EACH as usize - 1, Err(69)),
        empty("its list half as long", full, MOST_EACH as usize, Err(69)),
        empty("no new face and no room for the old", Page::of(1, [0, 0, 0, 0, 0, 0, 0, 1]), 1, Err(69)),
        empty("the last body", Page::of(last, [1; 8]), 2, Ok([1, 2])),
        empty("one body too many", Page::of(MOST_BODIES, [0; 8]), 0, Err(67)),
        empty("2^32 bodies", Page::of(1 << 32, [0; 8]), 0, Err(67)),
        empty("2^46 bodies, of which the limit is 0 in 64 bits", Page::of(1 << 46, [0; 8]), 0, Err(67)),
        empty("2^64 - 1 bodies", Page::of(u64::MAX, [0; 8]), 0, Err(67)),
        empty("the last body, every count at its limit and no room", most, 0, Err(69)),
        empty("none of 12", Page::of(1, [0, 12, 0, 0, 0, 0, 0, 0]), 0, Ok([0, 1])),
        empty("3 of 12", Page::of(1, [3, 9, 0, 0, 0, 0, 0, 0]), 0, Ok([1, 4])),
        empty("15 of 35", Page::of(1, [15, 20, 0, 0, 0, 0, 0, 0]), 0, Ok([3, 7])),
    ];
    for k in 0..8 {
        for (bodies, count) in [(0, 1), (1, MOST_EACH + 1), (last, MOST_EACH * last + 1), (2, u64::MAX), (1, 1 << 32)] {
            let mut counts = [0; 8];
            counts[k] = count;
            cases.push(empty("a count past its limit", Page::of(bodies, counts), 0, Err(67)));
        }
    }
    cases
}

/// Every report by hand. The model gives the same.
pub fn cases() -> Vec<Case> {
    let all: Vec<Case> = [audits(), orders(), kinds(), pages()].into_iter().flatten().collect();
    for case in &all {
        let Report { body, reference, page } = &case.asked;
        assert!(body.rows.len().is_multiple_of(ROW), "whole rows");
        let given = reported(body, reference, page, case.numbers, body.words()).map(|(page, entries)| (page, page.share(), entries));
        assert_eq!(given, case.wanted, "the model of {}", case.name);
    }
    all
}
