//! Bodies with both zeros whose counts and closed are written by hand from documents 01 and 02.

use driver::sheet::{Row, Sheet};

type Point = [f32; 3];
type Triangle = [Point; 3];

/// A body by hand: its edges, open and over by the Rust's rule, and closed by 02's.
pub struct Hand {
    pub name: &'static str,
    pub sheet: Sheet,
    pub counts: [u64; 3],
    pub closed: bool,
}

/// The smallest number above 0 and the largest below.
const LEAST: f32 = f32::from_bits(1);
const MINUS_LEAST: f32 = f32::from_bits(0x8000_0001);

/// Some triangles as a row, each with vertices of its own.
fn row(face: usize, triangles: &[Triangle]) -> Row {
    let positions: Vec<[u32; 3]> = triangles.iter().flatten().map(|p| p.map(f32::to_bits)).collect();
    let (normals, indices) = (vec![[0, 0, 0x3f80_0000]; positions.len()], (0..positions.len() as u32).collect());
    Row { face: face as u32, positions, normals, indices, ..Row::default() }
}

fn hand(name: &'static str, rows: &[Vec<Triangle>], counts: [u64; 3], closed: bool) -> Hand {
    let corners = [-10.0f64, -10.0, -10.0, 10.0, 10.0, 10.0].map(f64::to_bits);
    let rows = rows.iter().enumerate().map(|(face, triangles)| row(face, triangles)).collect();
    Hand { name, sheet: Sheet { corners, rows, ..Sheet::default() }, counts, closed }
}

/// Triangles with their axes moved on by so many.
fn turned(triangles: &[Triangle], by: usize) -> Vec<Triangle> {
    triangles.iter().map(|t| t.map(|p| [0, 1, 2].map(|axis| p[(axis + by) % 3]))).collect()
}

/// The three triangles from an apex to a triangle in the plane x = 0, which is drawn with a zero of this side's own.
fn half(apex: f32, zero: f32) -> Vec<Triangle> {
    let [a, b, c] = [[zero, 1.0, 1.0], [zero, 2.0, -1.0], [zero, -1.0, -2.0]];
    [[a, b], [b, c], [c, a]].map(|[p, q]| [p, q, [apex, 1.0, -1.0]]).to_vec()
}

/// A tetrahedron on one side of the third axis, with one edge on it, drawn with zeros of its own.
fn wedge(side: f32, x: f32, y: f32) -> Vec<Triangle> {
    let [a, b, c, d] = [[x, y, 1.0], [x, y, 3.0], [2.0 * side, side, 1.0], [side, 2.0 * side, 3.0]];
    vec![[a, c, b], [a, b, d], [a, d, c], [b, c, d]]
}

/// A solid across x = 0, y = 0 or z = 0.
fn seams() -> Vec<Hand> {
    let mut all = Vec::new();
    for axis in 0..3 {
        let of = |left: &[Triangle], right: &[Triangle]| [turned(left, axis), turned(right, axis)];
        let (left, right) = (half(-4.0, -0.0), half(4.0, 0.0));
        all.push(hand("a solid across a plane, −0.0 on one side and 0.0 on the other", &of(&left, &right), [12, 6, 0], true));
        all.push(hand("the same with 0.0 on both sides", &of(&half(-4.0, 0.0), &right), [9, 0, 0], true));
        all.push(hand("the same with −0.0 on both sides", &of(&left, &half(4.0, -0.0)), [9, 0, 0], true));
        all.push(hand("a solid across a plane without one triangle", &of(&left[1..], &right), [11, 7, 0], false));
        all.push(hand("a triangle of it laid twice", &of(&[&left[..], &left[..1]].concat(), &right), [12, 5, 2], false));
        all.push(hand("half of it", &of(&left, &[]), [6, 3, 0], false));
        for zero in [LEAST, MINUS_LEAST] {
            all.push(hand("the smallest number beside 0 on one side", &of(&half(-4.0, zero), &right), [12, 6, 0], false));
            all.push(hand("the smallest number beside −0.0 on one side", &of(&left, &half(4.0, zero)), [12, 6, 0], false));
        }
    }
    all
}

/// Two solids that touch along an edge, and two that do not.
fn touching() -> Vec<Hand> {
    let mut all = Vec::new();
    for axis in 0..3 {
        let of = |x: f32, y: f32| [turned(&wedge(-1.0, x, y), axis), turned(&wedge(1.0, 0.0, 0.0), axis)];
        all.push(hand("two solids that touch along an edge", &of(0.0, 0.0), [11, 0, 1], false));
        for (x, y) in [(-0.0, 0.0), (0.0, -0.0), (-0.0, -0.0)] {
            all.push(hand("two solids that touch along an edge under opposite zeros", &of(x, y), [12, 0, 0], false));
        }
        all.push(hand("two solids apart by the smallest number", &of(LEAST, -0.0), [12, 0, 0], true));
        let mirrored = [turned(&wedge(-1.0, -2.0, -3.0), axis), turned(&wedge(1.0, 2.0, 3.0), axis)];
        all.push(hand("two solids that are each other's mirror images", &mirrored, [12, 0, 0], true));
    }
    all
}

/// The eight faces of an octahedron, each drawn with the zeros of its octant.
fn octants() -> Vec<Triangle> {
    let signs = |octant: u32| [0, 1, 2].map(|axis| if octant >> axis & 1 == 0 { 1.0f32 } else { -1.0 });
    let corner = |s: [f32; 3], axis: usize| [0, 1, 2].map(|k| if k == axis { s[k] } else { 0.0 * s[k] });
    (0..8).map(|octant| [0, 1, 2].map(|axis| corner(signs(octant), axis))).collect()
}

/// Several axes at once.
fn several_axes() -> Vec<Hand> {
    let corners: Triangle = [[0.0, 1.0, 2.0], [3.0, 0.0, 1.0], [1.0, 2.0, 0.0]];
    let minus: Triangle = [[-0.0, 1.0, 2.0], [3.0, -0.0, 1.0], [1.0, 2.0, -0.0]];
    let ray: fn(f32, f32) -> Triangle = |x, y| [[x, y, 1.0], [x, y, 2.0], [5.0, 6.0, 7.0]];
    let four = [ray(0.0, 0.0), ray(-0.0, 0.0), ray(0.0, -0.0), ray(-0.0, -0.0)];
    vec![
        hand("an octahedron, each face with the zeros of its octant", &[octants()], [24, 24, 0], true),
        hand("a triangle laid twice, a zero on each axis", &[vec![corners], vec![minus]], [6, 6, 0], true),
        hand("a triangle laid twice with two zeros of other signs", &[vec![four[0], four[3]]], [6, 6, 0], true),
        hand("a triangle laid twice with a zero of either sign each", &[vec![four[1], four[2]]], [6, 6, 0], true),
        hand("a triangle laid four times", &[four.to_vec()], [12, 12, 0], false),
        hand("no triangle", &[], [0, 0, 0], true),
    ]
}

/// A triangle laid twice with one −0.0, at the first vertex of all, at the last, or between.
fn one_zero() -> Vec<Hand> {
    let (b, c): (Point, Point) = ([1.0, 2.0, 3.0], [3.0, 1.0, 2.0]);
    let at = |zero: f32| -> Point { [zero, 5.0, 6.0] };
    let of = |one: Triangle, other: Triangle, axis: usize| [turned(&[one], axis), turned(&[other], axis)];
    let mut all = Vec::new();
    for axis in 0..3 {
        let (minus, plus) = (at(-0.0), at(0.0));
        all.push(hand("one −0.0, at the first vertex", &of([minus, b, c], [plus, c, b], axis), [5, 4, 0], true));
        all.push(hand("one −0.0, at the last vertex", &of([plus, b, c], [c, b, minus], axis), [5, 4, 0], true));
        all.push(hand("one −0.0, between", &of([b, minus, c], [plus, c, b], axis), [5, 4, 0], true));
    }
    all
}

/// Triangles with corners that differ by the sign of a zero alone.
fn slivers() -> Vec<Hand> {
    let (p, q): (Point, Point) = ([0.0, 1.0, 0.0], [-0.0, 1.0, 0.0]);
    let to = |x: f32| -> Triangle { [p, q, [x, 2.0, 3.0]] };
    let (b, c, d) = ([1.0, 5.0, 1.0], [-1.0, 5.0, 1.0], [1.0, 5.0, -3.0]);
    let split = vec![[p, b, c], [q, c, d], [q, d, b], [b, d, c], [p, c, q], [q, b, p]];
    let solid = [half(-4.0, -0.0), half(4.0, 0.0)];
    let beside = |triangles: Vec<Triangle>| [&solid[..], &[triangles]].concat();
    vec![
        hand("a triangle with two corners that become one", &[vec![to(1.0)]], [3, 3, 0], true),
        hand("two of them on one edge", &[vec![to(1.0), to(2.0)]], [5, 4, 0], true),
        hand("three of them on one edge", &[vec![to(1.0), to(2.0), to(3.0)]], [7, 6, 1], true),
        hand("one of them laid twice", &[vec![to(1.0), to(1.0)]], [3, 0, 0], false),
        hand("a triangle whose corners all become one", &[vec![[p, q, [0.0, 1.0, -0.0]]]], [3, 3, 0], true),
        hand("a triangle of two points that become one", &[vec![[p, q, p]]], [1, 0, 0], true),
        hand("a solid with a corner of two points and two triangles between them", &[split], [9, 0, 0], false),
        hand("a solid and a triangle with two corners that become one", &beside(vec![to(1.0)]), [15, 9, 0], true),
        hand(
            "a solid with such a triangle on an edge of it",
            &beside(vec![[[0.0, 1.0, 1.0], [-0.0, 1.0, 1.0], [4.0, 1.0, -1.0]]]),
            [14, 8, 1],
            false,
        ),
    ]
}

pub fn cases() -> Vec<Hand> {
    [seams(), touching(), several_axes(), one_zero(), slivers()].into_iter().flatten().collect()
}
