//! Placed bodies with a peg, made so that many have vertices near it, and many of those several bins at one distance.

use super::coordinates::{any, far, near};
use super::model::{MOST_PLACE, REACH, micrometres};
use crate::faults::CLAMPED;
use compare::library::Lookup;
use driver::check::{MOST_BIN, check};
use driver::flat::{Flat, ROW};
use driver::generate::{Kind, body_of};
use driver::random::Random;

/// Four kilometres in micrometres, and a tenth of a millimetre.
const FOUR_KILOMETRES: i64 = 4_000_000_000;
const TENTH: i64 = 100;

/// Vectors of one length: those of 3, 5, 9 and 15.
const OF_ONE_LENGTH: [[[i64; 3]; 3]; 4] = [
    [[3, 0, 0], [1, 2, 2], [2, 1, 2]],
    [[5, 0, 0], [3, 4, 0], [0, 3, 4]],
    [[9, 0, 0], [1, 4, 8], [4, 4, 7]],
    [[15, 0, 0], [2, 10, 11], [2, 5, 14]],
];

/// A row while a body is made.
#[derive(Debug, Clone, Default)]
pub struct Row {
    pub outcome: u32,
    pub bin: u32,
    pub place: [i64; 3],
    pub vertices: Vec<[f32; 3]>,
    pub indices: Vec<u32>,
}

/// Rows as a call takes them; no bin is a row's face or shell but by chance, and normals are the positions, their axes turned.
pub fn lookup(rows: &[Row], peg: [i64; 3]) -> Lookup {
    let mut lookup = Lookup { peg, ..Lookup::default() };
    for (k, row) in rows.iter().enumerate() {
        let (vertices, indices) = (row.vertices.len() as u32, row.indices.len() as u32);
        lookup.body.rows.extend([k as u32 % 3, 70_000 + k as u32, row.outcome, vertices, indices, row.bin]);
        lookup.body.positions.extend(row.vertices.iter().flatten());
        lookup.body.normals.extend(row.vertices.iter().flat_map(|[x, y, z]| [y, z, x]));
        lookup.body.indices.extend(&row.indices);
        lookup.places.extend(row.place);
    }
    lookup
}

fn within(place: [i64; 3]) -> bool {
    place.iter().all(|n| n.abs() <= MOST_PLACE)
}

fn clamped(place: [i64; 3]) -> [i64; 3] {
    place.map(|n| n.clamp(-MOST_PLACE, MOST_PLACE))
}

fn sum(a: [i64; 3], b: [i64; 3]) -> [i64; 3] {
    [a[0] + b[0], a[1] + b[1], a[2] + b[2]]
}

/// A whole number of up to so much, of either sign.
fn up_to(most: i64, r: &mut Random) -> i64 {
    r.below(2 * most as u64 + 1) as i64 - most
}

fn sign(r: &mut Random) -> i64 {
    *r.pick(&[-1, 1])
}

/// One axis of a peg: near the origin, four kilometres out, anywhere, and at the ends of the range.
fn peg_axis(r: &mut Random) -> i64 {
    match r.below(6) {
        0 => 0,
        1 => up_to(10_000, r),
        2 => sign(r) * FOUR_KILOMETRES + up_to(10_000, r),
        3 => sign(r) * (MOST_PLACE - r.below(10_000) as i64),
        4 => sign(r) * MOST_PLACE,
        _ => up_to(MOST_PLACE, r),
    }
}

pub fn peg(r: &mut Random) -> [i64; 3] {
    [peg_axis(r), peg_axis(r), peg_axis(r)]
}

/// A vector with its axes exchanged and its signs changed at random.
fn turned(v: [i64; 3], r: &mut Random) -> [i64; 3] {
    let mut v = v.map(|n| n * sign(r));
    v.swap(0, r.size(0, 2));
    v.swap(1, r.size(1, 2));
    v
}

/// What vertices of a body aim at, as seen from the peg: vectors of one length, at most at the edge of what is near.
fn aims(r: &mut Random) -> Vec<[i64; 3]> {
    let family = *r.pick(&OF_ONE_LENGTH);
    let most = REACH / family[0][0];
    let any = r.below(most as u64) as i64;
    let scale = *r.pick(&[0, 1, any, most]);
    let alone = [up_to(REACH, r), up_to(REACH, r), up_to(REACH, r)];
    if r.chance(70) { family.map(|v| v.map(|n| n * scale)).to_vec() } else { vec![alone] }
}

/// Where a vertex stands, as seen from the peg: at the body's distance, a little farther, at the edge of what is near, or anywhere about.
fn aimed(aims: &[[i64; 3]], r: &mut Random) -> [i64; 3] {
    let exact = turned(*r.pick(aims), r);
    let edges = [0, 1, REACH - 1, REACH, REACH + 1];
    match r.below(10) {
        0 => sum(exact, turned([1, 0, 0], r)),
        1 => turned([*r.pick(&edges[2..]), *r.pick(&edges), *r.pick(&edges[..2])], r),
        2 => [up_to(REACH + 1, r), up_to(REACH + 1, r), up_to(REACH + 1, r)],
        3 => [up_to(40, r), up_to(40, r), up_to(40, r)],
        _ => exact,
    }
}

/// A vertex of a row at a place that stands so from the peg, or as near to that as floats are.
fn vertex_at(offset: [i64; 3], place: [i64; 3], peg: [i64; 3]) -> [f32; 3] {
    std::array::from_fn(|axis| ((peg[axis] + offset[axis] - place[axis]) as f64 / 1000.0) as f32)
}

/// A place and a vertex at it that stands so from the peg, its coordinates being of any near kind.
fn fitted(offset: [i64; 3], peg: [i64; 3], r: &mut Random) -> ([i64; 3], [f32; 3]) {
    for _ in 0..8 {
        let vertex = [near(r), near(r), near(r)];
        let own = vertex.map(|v| micrometres(v).expect("near the origin") as i64);
        let place = std::array::from_fn(|axis| peg[axis] + offset[axis] - own[axis]);
        if within(place) {
            return (place, vertex);
        }
    }
    let place = clamped(sum(peg, offset));
    (place, vertex_at(offset, place, peg))
}

/// One more vertex of a row.
fn another(row: &Row, peg: [i64; 3], aims: &[[i64; 3]], r: &mut Random) -> [f32; 3] {
    let mut vertex = vertex_at(aimed(aims, r), row.place, peg);
    match r.below(10) {
        0 => vertex = [any(r), any(r), any(r)],
        1 => vertex[r.size(0, 2)] = far(r),
        2 => vertex = *r.pick(&row.vertices),
        _ => {}
    }
    vertex
}

/// Up to three triangles on some of a row's vertices, the others being left unused.
fn indices(vertices: usize, r: &mut Random) -> Vec<u32> {
    let used = r.size(1, vertices);
    (0..3 * r.size(0, 3)).map(|_| r.below(used as u64) as u32).collect()
}

/// A row with a vertex that its place is fitted to and up to four more.
fn patch(peg: [i64; 3], aims: &[[i64; 3]], r: &mut Random) -> Row {
    let (place, vertex) = fitted(aimed(aims, r), peg, r);
    let mut row = Row { place, vertices: vec![vertex], ..Row::default() };
    for _ in 0..r.size(0, 4) {
        let more = another(&row, peg, aims, r);
        row.vertices.push(more);
    }
    let last = row.vertices.len() - 1;
    row.vertices.swap(0, r.size(0, last));
    row.indices = indices(last + 1, r);
    row
}

/// A row that would be near the peg if its far coordinate ended at plus or minus 2^40.
fn as_if_clamped(peg: [i64; 3], r: &mut Random) -> Row {
    let (axis, sign) = (r.size(0, 2), sign(r));
    let (mut place, mut vertex) = (peg, [0.0; 3]);
    place[axis] -= sign * MOST_PLACE;
    vertex[axis] = far(r).abs() * sign as f32;
    Row { place: clamped(place), vertices: vec![vertex], ..Row::default() }
}

/// One row: a patch, one that is failed or empty, a twin of the one before, and others.
fn row(before: Option<&Row>, peg: [i64; 3], aims: &[[i64; 3]], r: &mut Random) -> Row {
    let place = self::peg(r);
    match (r.below(20), before) {
        (0 | 1, _) => Row { outcome: r.size(1, 255) as u32, place, ..Row::default() },
        (2, _) => Row { place, ..Row::default() },
        (3, _) => as_if_clamped(peg, r),
        (4, _) => Row { place, vertices: vec![[any(r), any(r), any(r)]], ..Row::default() },
        (5 | 6, Some(twin)) => {
            let apart = turned([*r.pick(&[0, 0, TENTH]), 0, 0], r);
            Row { place: clamped(sum(twin.place, apart)), ..twin.clone() }
        }
        _ => patch(peg, aims, r),
    }
}

/// The bins that a body's rows are given, few enough that some repeat.
fn bins(r: &mut Random) -> Vec<u32> {
    let bin = |r: &mut Random| {
        let any = r.below(u64::from(MOST_BIN) + 1) as u32;
        *r.pick(&[0, 0, 1, 255, 256, 0x7fff, 0x8000, MOST_BIN - 1, MOST_BIN, any, any])
    };
    (0..r.size(1, 6)).map(|_| bin(r)).collect()
}

/// Up to seven rows and a peg, often with numbers of any value behind the places.
pub fn small(r: &mut Random) -> Lookup {
    let (peg, aims, bins) = (peg(r), aims(r), bins(r));
    let mut rows: Vec<Row> = Vec::new();
    for _ in 0..r.size(0, 7) {
        let next = row(rows.last(), peg, &aims, r);
        rows.push(Row { bin: *r.pick(&bins), ..next });
    }
    with_rubbish(with_large_normal(lookup(&rows, peg), r), r)
}

/// A body with a normal of which a position's cell would clamp, or as it is.
fn with_large_normal(mut lookup: Lookup, r: &mut Random) -> Lookup {
    if r.chance(10) && !lookup.body.normals.is_empty() {
        let place = r.below(lookup.body.normals.len() as u64) as usize;
        lookup.body.normals[place] = f32::from_bits(*r.pick(&CLAMPED));
    }
    lookup
}

/// A body with numbers of any value behind its places, or as it is.
fn with_rubbish(mut lookup: Lookup, r: &mut Random) -> Lookup {
    if r.chance(50) {
        lookup.places.extend((0..r.size(1, 7)).map(|_| r.next() as i64));
    }
    lookup
}

/// Some hundred rows of which most are at one distance, with bins of their own in some order, or of few.
pub fn large(r: &mut Random) -> Lookup {
    let (peg, aims, few) = (peg(r), aims(r), bins(r));
    let (count, order) = (r.size(200, 600) as u32, r.below(3));
    let bin = |k: u32, r: &mut Random| match order {
        0 => 3 * k,
        1 => MOST_BIN - 3 * k,
        _ => *r.pick(&few),
    };
    let mut rows = Vec::new();
    for k in 0..count {
        let (place, vertex) = fitted(turned(*r.pick(&aims), r), peg, r);
        rows.push(Row { bin: bin(k, r), place, vertices: vec![vertex], ..Row::default() });
    }
    with_rubbish(lookup(&rows, peg), r)
}

/// Two walls a tenth of a millimetre apart, four kilometres out, drawn alike near their own origin, with the peg about midway.
pub fn twin_walls(r: &mut Random) -> Lookup {
    let place = [FOUR_KILOMETRES + up_to(999, r), -FOUR_KILOMETRES + up_to(999, r), up_to(999, r)];
    let vertices: Vec<[f32; 3]> = (0..9).map(|k| [0.0, (k % 3) as f32 * 1.5, (k / 3) as f32 * 1.5]).collect();
    let wall = Row { place, vertices, indices: vec![0, 1, 3], ..Row::default() };
    let twin = Row { place: sum(place, [TENTH, 0, 0]), ..wall.clone() };
    let bins = bins(r);
    let rows = [wall, twin].map(|row| Row { bin: *r.pick(&bins), ..row });
    let peg = sum(place, [TENTH / 2 + up_to(1, r), 1500 * r.below(3) as i64, up_to(1, r)]);
    lookup(&rows, peg)
}

/// A body of the generator, all its rows at one place or each at its own, with the peg about one of its vertices.
pub fn of_kind(kind: &Kind, seed: u64, r: &mut Random) -> Option<Lookup> {
    let body = Flat::of(&body_of(kind, seed, 0).filter(|sheet| check(sheet).is_ok())?);
    let (place, spread) = (peg(r), *r.pick(&[0, 1, 2_000]));
    let places: Vec<i64> = (0..body.rows.len() / ROW).flat_map(|_| clamped(place.map(|n| n + up_to(spread, r)))).collect();
    let vertices: Vec<&[f32]> = body.positions.chunks_exact(3).collect();
    let vertex = if vertices.is_empty() { [0; 3] } else { seen(r.pick::<&[f32]>(&vertices)) };
    let apart = turned(*r.pick(&[[0, 0, 0], [1, 0, 0], [700, 400, 0], [REACH, 0, 0]]), r);
    Some(with_rubbish(Lookup { body, places, peg: clamped(sum(sum(place, vertex), apart)) }, r))
}

/// A vertex in micrometres, far ones at the ends of the range.
fn seen(vertex: &[f32]) -> [i64; 3] {
    let most = i128::from(MOST_PLACE);
    std::array::from_fn(|axis| micrometres(vertex[axis]).map_or(0, |n| n.clamp(-most, most) as i64))
}
