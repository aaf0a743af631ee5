//! Bodies that ask much of stitching: every row open along its seams, all loose points in one plane or on one line, long edges through
//! many points, through one crowd and along one bundle, and as many loose points as document 01's limits allow.

use crate::bodies::Body;
use driver::generate::long;
use driver::generate::patches::{CUTS, halves, plane, torus};
use driver::random::Random;
use driver::sheet::{Row, Sheet};
use std::f64::consts::TAU;

type Point = [f64; 3];
type Triangle = [Point; 3];

const SAG: f64 = 0.25;

/// A sag for bodies at the limits, at which few of their points split anything, so that their results stay within the limits.
const FINE_SAG: f64 = 0.01;

/// Half the size of a small triangle, and of one with long edges.
const SMALL: f64 = 2.0;
const LONG: f64 = 1000.0;

const NORMAL: Point = [0.0, 0.6, 0.8];

/// Triangles on a row where each has vertices of its own.
const EVERY: usize = 40;

/// How far the ends of a crowd's edges are from it, in millimetres.
const KILOMETRE: f64 = 1e6;
const TEN_KILOMETRES: f64 = 1e7;

/// Half the side of the plane and of the cube that points lie in, and the plane's height.
const REACH: f64 = 2000.0;
const HEIGHT: f64 = 17.0;

fn bits(p: Point) -> [u32; 3] {
    p.map(|v| (v as f32).to_bits())
}

fn sheet(rows: Vec<Row>, sag: f64) -> Sheet {
    Sheet { sag: sag.to_bits(), rows, ..Sheet::default() }
}

/// The point so far along each of two directions.
fn along(x: f64, a: Point, y: f64, b: Point) -> Point {
    [0, 1, 2].map(|k| x * a[k] + y * b[k])
}

/// A row of triangles, each with vertices of its own.
fn row(face: usize, triangles: &[Triangle]) -> Row {
    let positions: Vec<[u32; 3]> = triangles.iter().flatten().map(|p| bits(*p)).collect();
    let (normals, indices) = (vec![bits(NORMAL); positions.len()], (0..positions.len() as u32).collect());
    Row { face: face as u32, positions, normals, indices, ..Row::default() }
}

fn rows(triangles: &[Triangle]) -> Vec<Row> {
    triangles.chunks(EVERY).enumerate().map(|(face, own)| row(face, own)).collect()
}

/// A triangle with a long edge one way, and small ones along it of which all corners split it: so many points, all loose.
fn on_one_edge(points: usize, way: Point, beside: Point) -> Sheet {
    let count = points / 3;
    let at = |x: f64, y: f64| along(x, way, y, beside);
    let small = |x: f64| [at(x + 0.25, 0.0), at(x + 0.5, 0.125), at(x + 0.75, 0.0)];
    let long = (count + 1) as f64;
    let all: Vec<Triangle> = (0..count).map(|k| small(k as f64)).collect();
    sheet(vec![row(0, &[[at(0.0, 0.0), at(long, 0.0), at(0.0, -long)]]), row(1, &all)], SAG)
}

fn on_one_edge_along_x(points: usize) -> Sheet {
    on_one_edge(points, [1.0, 0.0, 0.0], [0.0, -1.0, 0.0])
}

/// The same with an edge that no axis has a part in alone.
fn on_one_tilted_edge(points: usize) -> Sheet {
    on_one_edge(points, [0.6, 0.64, 0.48], [0.8, -0.48, -0.36])
}

/// A triangle around a point, as large as this.
fn speck(r: &mut Random, at: Point, size: f64) -> Triangle {
    [0; 3].map(|_| at.map(|v| v + size * r.between(-1.0, 1.0)))
}

/// Triangles of a size anywhere in a cube.
fn soup(triangles: usize, size: f64) -> Sheet {
    let r = &mut Random::new(1);
    let mut one = || {
        let at = [0; 3].map(|_| r.between(-REACH, REACH));
        speck(r, at, size)
    };
    let all: Vec<Triangle> = (0..triangles).map(|_| one()).collect();
    sheet(rows(&all), FINE_SAG)
}

/// Triangles close together, and two a thousand kilometres away from them and from each other.
fn cluster(triangles: usize) -> Sheet {
    let r = &mut Random::new(2);
    let mut one = || {
        let at = [0; 3].map(|_| r.between(1000.0, 2000.0));
        speck(r, at, SMALL)
    };
    let mut all: Vec<Triangle> = (0..triangles).map(|_| one()).collect();
    all.push([[1e9, 1e9, -1e9], [1.0001e9, 1e9, -1e9], [1e9, 1.0001e9, -1e9]]);
    all.push([[-1e9, 3.0, 2.0], [-1.0001e9, 1.0, 5.0], [-1e9, 1.0, 7e9]]);
    sheet(rows(&all), FINE_SAG)
}

/// Needles across a plane of small triangles, so many each way: every needle passes thousands of points at some steps' distance.
fn needles(each_way: usize, count: usize) -> Sheet {
    let r = &mut Random::new(3);
    let step = 2.0 * REACH / each_way as f64;
    let corner = |k: usize| [step * (k / each_way) as f64 - REACH, step * (k % each_way) as f64 - REACH, 0.0];
    let small = |[x, y, z]: Point| [[x, y, z], [x + 0.3 * step, y, z], [x, y + 0.3 * step, z]];
    let rim = |angle: f64| [1.5 * REACH * angle.cos(), 1.5 * REACH * angle.sin(), 0.0];
    let mut all: Vec<Triangle> = (0..each_way * each_way).map(|k| small(corner(k))).collect();
    all.extend((0..count).map(|k| [rim(r.between(0.0, TAU)), rim(r.between(0.0, TAU)), [0.0, 0.0, 3.0 * REACH + k as f64]]));
    sheet(rows(&all), FINE_SAG)
}

/// Squares of a plane, each with vertices of its own and drawn in by so much on every side, some on a row.
fn squares(m: usize, n: usize, gap: f64) -> Sheet {
    const SIDE: f64 = 10.0;
    let corners = |k: usize| {
        let (x, y) = (SIDE * (k / n) as f64, SIDE * (k % n) as f64);
        [[gap, gap], [SIDE - gap, gap], [SIDE - gap, SIDE - gap], [gap, SIDE - gap]].map(|[a, b]| bits([x + a, y + b, HEIGHT]))
    };
    let all: Vec<usize> = (0..m * n).collect();
    let row = |(face, own): (usize, &[usize])| {
        let positions: Vec<[u32; 3]> = own.iter().flat_map(|k| corners(*k)).collect();
        let indices = (0..positions.len() as u32).step_by(4).flat_map(|k| halves([k, k + 1, k + 2, k + 3])).collect();
        Row { face: face as u32, normals: vec![bits(NORMAL); positions.len()], positions, indices, ..Row::default() }
    };
    sheet(all.chunks(EVERY).enumerate().map(row).collect(), SAG)
}

/// So many points in one crowd and so many edges through it, from one side to the other as far.
fn crowd(points: usize, edges: usize, far: f64) -> Sheet {
    sheet(rows(&long::crowd(&mut Random::new(4), points, edges, far)), long::CROWD_SAG)
}

/// Long edges along one bundle that slants through space.
fn bundle(triangles: usize) -> Sheet {
    sheet(rows(&long::thin_bundle(&mut Random::new(5), triangles)), long::BUNDLE_SAG)
}

fn body(name: &'static str, rounds: usize, make: impl Fn() -> Sheet + 'static) -> Body {
    Body { name, make: Box::new(make), rounds }
}

const TORUS: &str = "junction: all rows open, torus";
const PLANE: &str = "coplanar: all rows open, plane";

/// Bodies with many loose points that the Rust stitches in up to some seconds: 328, 984 and 11,808 triangles in patches, and a soup.
pub fn open_throughout() -> Vec<Body> {
    let mut all = Vec::new();
    for ((m, n), rounds) in [((2, 4), 501), ((4, 6), 101), ((16, 18), 7)] {
        all.push(body(TORUS, rounds, move || torus(m, n, CUTS)));
        all.push(body(PLANE, rounds, move || plane(m, n, CUTS)));
    }
    all.push(body("soup: long edges through 12,000 points", 3, || soup(4_000, LONG)));
    all
}

/// Rounds of a side that takes below some seconds; one that takes more is timed once.
const ROUNDS: usize = 5;

/// Bodies with many loose points that the Rust takes many seconds for: 98,400 triangles in patches, all points on one line, a crowd and a
/// bundle.
pub fn large() -> Vec<Body> {
    vec![
        body(TORUS, ROUNDS, || torus(48, 50, CUTS)),
        body(PLANE, ROUNDS, || plane(48, 50, CUTS)),
        body("line: 20,000 points on one edge along x", ROUNDS, || on_one_edge_along_x(20_000)),
        body("line: 20,000 points on one edge, tilted", ROUNDS, || on_one_tilted_edge(20_000)),
        body("crowd: 200 edges of 20 km through 4,000 points", ROUNDS, || crowd(4_000, 200, TEN_KILOMETRES)),
        body("bundle: 30,000 points", ROUNDS, || bundle(10_000)),
    ]
}

/// Bodies that take the library itself up to minutes, though they are inside the limits.
pub fn longest() -> Vec<Body> {
    vec![
        body("crowd: 1,600 edges of 20 km through 32,000 points", ROUNDS, || crowd(32_000, 1_600, TEN_KILOMETRES)),
        body("crowd: 8,000 edges of 2 km through 8,000 points", ROUNDS, || crowd(8_000, 8_000, KILOMETRE)),
        body("crowd: 16,000 edges of 2 km through 16,000 points", ROUNDS, || crowd(16_000, 16_000, KILOMETRE)),
        body("bundle: 120,000 points", ROUNDS, || bundle(40_000)),
        body("bundle: 261,000 points", ROUNDS, || bundle(87_000)),
    ]
}

/// Bodies at document 01's limits, that the Rust takes minutes to hours for.
pub fn at_the_limits() -> Vec<Body> {
    vec![
        body("soup: long edges through 240,000 points", ROUNDS, || soup(80_000, LONG)),
        body("limit: 261,000 loose points, small soup", ROUNDS, || soup(87_000, SMALL)),
        body("limit: 261,000 loose points, cluster and two triangles far away", ROUNDS, || cluster(87_000)),
        body("limit: 2,000 needles over 252,300 points of a plane", ROUNDS, || needles(290, 2_000)),
        body("limit: 120,000 points on one edge", ROUNDS, || on_one_edge_along_x(120_000)),
        body("limit: plane of 65,024 squares, nothing to split", ROUNDS, || squares(254, 256, 0.0)),
        body("limit: the same with the squares apart, 260,096 loose points", ROUNDS, || squares(254, 256, 2.0)),
    ]
}
