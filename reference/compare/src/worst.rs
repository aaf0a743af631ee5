//! Bodies made by hand that ask the most of stitching: each with the Rust's result, or document 01's where the Rust's hangs on map order.

use crate::stitching::{Case, case, differs, refusal, shortened, written, wrong};
use crate::work::Work;
use compare::library::{self, Stitched};
use driver::check::{LAST_UNCLAMPED, MOST_BIN, MOST_INDICES, MOST_VERTICES};
use driver::condition::{Condition, condition};
use driver::flat::Flat;
use driver::random::Random;
use driver::sheet::{Row, Sheet, parse};
use driver::source::key;
use std::time::Instant;

type Point = [f32; 3];

/// A row of triangles, each with three vertices of its own, and normals along z; its bin is unlike its face.
fn row(face: u32, triangles: &[[Point; 3]]) -> Row {
    let positions: Vec<[u32; 3]> = triangles.iter().flatten().map(|p| p.map(f32::to_bits)).collect();
    let normals = vec![[0.0f32, 0.0, 1.0].map(f32::to_bits); positions.len()];
    Row { face, bin: MOST_BIN - face, indices: (0..positions.len() as u32).collect(), positions, normals, ..Row::default() }
}

fn sheet(rows: Vec<Row>, sag: f64) -> Sheet {
    Sheet { corners: [0; 6], sag: sag.to_bits(), default: None, materials: Vec::new(), rows }
}

/// A triangle with an edge along x, and small triangles along it of which every corner splits it: so many points, all loose.
fn on_one_edge(points: usize) -> Sheet {
    let count = points / 3;
    let long = (count + 1) as f32;
    let small = |k: usize| [[k as f32 + 0.25, 0.0, 0.0], [k as f32 + 0.5, -0.125, 0.0], [k as f32 + 0.75, 0.0, 0.0]];
    let all: Vec<[Point; 3]> = (0..count).map(small).collect();
    sheet(vec![row(0, &[[[0.0; 3], [long, 0.0, 0.0], [0.0, long, 0.0]]]), row(1, &all)], 0.25)
}

/// Triangles anywhere in a cube, with a sag that no distance is above.
fn infinite_sag(r: &mut Random) -> Sheet {
    let mut point = || [0; 3].map(|_| r.between(-100.0, 100.0) as f32);
    let all: Vec<[Point; 3]> = (0..100).map(|_| [point(), point(), point()]).collect();
    sheet(all.chunks(7).enumerate().map(|(k, t)| row(k as u32, t)).collect(), f64::INFINITY)
}

/// Points as near one edge of a triangle as another, bit for bit: the first has them.
fn equally_near() -> Sheet {
    let corner = row(0, &[[[0.0; 3], [8.0, 0.0, 0.0], [0.0, 8.0, 0.0]]]);
    let points = row(1, &[[[1.0, 1.0, 0.0], [1.0, 2.0, 50.0], [2.0, 1.0, 60.0]], [[2.0, 2.0, 0.5], [3.0, 2.0, -50.0], [2.0, 3.0, -60.0]]]);
    sheet(vec![corner, points], 2.25)
}

/// Corners at both ends of what cells reach, and points at f32's smallest values.
fn ends_of_the_range() -> Sheet {
    let (last, least) = (f32::from_bits(LAST_UNCLAMPED), f32::from_bits(1));
    let wide = row(0, &[[[-last, 0.0, 0.0], [last, 0.0, 0.0], [0.5 * last, last, last]]]);
    let near = row(1, &[[[least, -least, least], [last, -last, 5.0], [-last, -last, 6.0]]]);
    sheet(vec![wide, near], f64::INFINITY)
}

/// The body of K8 with more vertices that no triangle uses, and more triangles without an edge.
fn padded(vertices: usize, triangles: usize) -> Sheet {
    let (a, b, c) = ([0.0; 3], [10.0, 0.0, 0.0], [0.0, -10.0, 0.0]);
    let mut first = row(0, &[[a, b, [0.0, 10.0, 0.0]]]);
    let second = row(1, &[[a, c, [5.0, 0.0, 0.0]], [[5.0, 0.0, 0.0], c, b]]);
    first.positions.resize(first.positions.len() + vertices, [0; 3]);
    first.normals.resize(first.normals.len() + vertices, [0; 3]);
    first.indices.resize(first.indices.len() + 3 * triangles, 0);
    sheet(vec![first, second], 0.25)
}

/// Points across an edge, all with the parameter 1/2: one split each, and 01 keeps the one with the lowest key.
fn equal_parameters(points: usize) -> Case {
    let z = |k: usize| k as f32 * 0.000_244_140_63 - 0.1;
    let needle = |k: usize| [[5.0, 0.0, z(k)], [6.0, -3.0, z(k)], [4.0, -3.0, z(k)]];
    let all: Vec<[Point; 3]> = (0..points).map(needle).collect();
    let before = Flat::of(&sheet(vec![row(0, &[[[0.0; 3], [10.0, 0.0, 0.0], [0.0, 10.0, 0.0]]]), row(1, &all)], 0.25));
    let lowest = all.iter().map(|t| t[0]).min_by_key(|p| key(p)).expect("some points");
    split_once(before, lowest, points)
}

/// A body whose first row is one triangle with normals along z, and of which one point is kept on the triangle's first edge.
fn split_once(before: Flat, new: Point, splits: usize) -> Case {
    let mut after = before.clone();
    (after.rows[3], after.rows[4]) = (4, 6);
    after.positions.splice(9..9, new);
    after.normals.splice(9..9, [0.0, 0.0, 1.0]);
    after.indices.splice(0..3, [0, 3, 1, 0, 1, 2]);
    Case { before, after, splits }
}

/// The smallest bodies outside 01's condition for an exact match, with the vertex that 01 keeps and the splits.
fn smallest() -> [Case; 2] {
    let body = |text: &[u8]| Flat::of(&parse(text, None).expect("a sheet"));
    let tie = body(include_bytes!("../../smallest/tie.sheet"));
    let shared = body(include_bytes!("../../smallest/shared-key.sheet"));
    let (lower_key, last) = ([5.0, 0.0, 0.2], [5.0, f32::from_bits(0x3DCC_CCCE), 0.0]);
    [split_once(tie, lower_key, 2), split_once(shared, last, 1)]
}

/// A call in slices of exactly the lengths that it needs, each of them one short, and the work area one word short.
fn exact(case: &Case, sag: f64) -> Option<String> {
    let Case { before, after, splits } = case;
    let needed = before.words();
    let work = |words: usize| Work::new(words, 0x5a5a);
    let want =
        Stitched { refusal: 0, vertices: (after.positions.len() / 3) as u32, indices: after.indices.len() as u32, splits: *splits as u64 };
    let room = Flat {
        rows: vec![7; after.rows.len()],
        positions: vec![7.0; after.positions.len()],
        normals: vec![7.0; after.normals.len()],
        indices: vec![7; after.indices.len()],
    };
    let short = (0..4).map(|k| shortened(after, &room, k)).find_map(|short| {
        let short = short?;
        wrong(before, sag, &short, &mut work(needed), refusal(32), &short, needed)
    });
    wrong(before, sag, &room, &mut work(needed), want, &written(after, &room), needed)
        .or(short)
        .or_else(|| wrong(before, sag, &room, &mut work(needed - 1), refusal(31), &room, 0))
}

/// A body for which the Rust's result stands: in exact slices.
fn held(sheet: &Sheet) -> Result<(), String> {
    assert_eq!(condition(sheet), Condition::Exact, "01 says that the Rust is matched exactly");
    let sag = f64::from_bits(sheet.sag);
    let case = case(sheet, sag);
    assert!(case.splits > 0, "the body is split");
    exact(&case, sag).map_or(Ok(()), Err)
}

/// A body whose result has the most vertices or indices that there may be, or passes the limit: then 33 comes before 32.
pub fn limit(case: &Case, sag: f64, passes: bool, r: &mut Random) -> Result<(), String> {
    let (vertices, indices) = (case.after.positions.len() / 3, case.after.indices.len());
    assert_eq!(vertices > MOST_VERTICES || indices > MOST_INDICES, passes, "the limit is passed or not");
    assert!(passes || vertices == MOST_VERTICES || indices == MOST_INDICES, "the limit is reached");
    let (none, needed) = (Flat::default(), case.before.words());
    let number = if passes { 33 } else { 32 };
    let short = || wrong(&case.before, sag, &none, &mut Work::new(needed, 1), refusal(number), &none, needed);
    differs(case, sag, r).or_else(short).map_or(Ok(()), Err)
}

/// How many bodies were held, or what is wrong with one.
pub fn compared(points: usize) -> Result<u64, String> {
    let r = &mut Random::new(1);
    let named = |name: &str, result: Result<(), String>| result.map_err(|what| format!("{name}: {what}"));
    let new = case(&padded(0, 0), 0.25).after;
    let (vertices, triangles) = (MOST_VERTICES - new.positions.len() / 3, (MOST_INDICES - new.indices.len()) / 3);
    named("every loose point on one edge", held(&on_one_edge(points)))?;
    named("points equally near two edges", held(&equally_near()))?;
    named("an infinite sag", held(&infinite_sag(r)))?;
    named("the ends of the range", held(&ends_of_the_range()))?;
    named("equal parameters", exact(&equal_parameters(500), 0.25).map_or(Ok(()), Err))?;
    for case in smallest() {
        named("a smallest body", exact(&case, 0.25).map_or(Ok(()), Err))?;
    }
    for (more, name) in [(0, "the most vertices"), (1, "one vertex too many")] {
        named(name, limit(&case(&padded(vertices + more, 0), 0.25), 0.25, more > 0, r))?;
    }
    for (more, name) in [(0, "the most indices"), (1, "one triangle too many")] {
        named(name, limit(&case(&padded(0, triangles + more), 0.25), 0.25, more > 0, r))?;
    }
    Ok(11)
}

/// The time that the library takes for so many loose points on one edge, in seconds.
pub fn seconds(points: usize) -> f64 {
    let body = Flat::of(&on_one_edge(points));
    let (mut out, mut work) = (body.clone(), vec![0; body.words()]);
    out.positions.resize(body.positions.len() + 9 * points, 0.0);
    out.normals.resize(body.normals.len() + 9 * points, 0.0);
    out.indices.resize(body.indices.len() + 9 * points, 0);
    let start = Instant::now();
    let answer = library::stitch(&body, 0.25, &mut out, &mut work);
    assert_eq!(answer.refusal, 0, "the body is stitched");
    start.elapsed().as_secs_f64()
}
