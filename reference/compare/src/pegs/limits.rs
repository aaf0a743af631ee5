//! Lookups at each limit and past it, with the answers that document 02 asks for written by hand.

use super::bodies::{Row, lookup};
use super::decimals;
use super::model::{MOST_PLACE, REACH, find, micrometres};
use crate::faults::CLAMPED;
use compare::library::Lookup;
use driver::check::{LAST_UNCLAMPED, MOST_BIN, MOST_ROWS};

/// A lookup, the numbers that its list has room for, and the bins that it gives or what it is refused with.
pub type Case = (Lookup, usize, Result<Vec<u32>, u32>);

/// Coordinates with their micrometres, by hand.
const WHOLE: [(f32, i128); 22] = [
    (0.0, 0),
    (-0.0, 0),
    (1.0, 1000),
    (-0.001, -1),
    (0.0625, 63),
    (-0.0625, -63),
    (0.1875, 188),
    (-0.1875, -188),
    (0.3125, 313),
    (-0.3125, -313),
    (0.000_5, 1),
    (-0.000_5, -1),
    (0.000_499_999_96, 0),
    (-0.000_499_999_96, 0),
    (f32::from_bits(1), 0),
    (f32::from_bits(0x8000_0001), 0),
    (f32::MIN_POSITIVE, 0),
    (0.062_500_01, 63),
    (0.062_499_996, 62),
    (8_388_607.5, 8_388_607_500),
    (-4_000_000.0, -4_000_000_000),
    (1_099_511_680.0, 1_099_511_680_000),
];

/// Coordinates that are far from every peg, many of them 0 at the lowest 32 bits of their micrometres, up to the last that doesn't clamp.
const FAR: [f32; 6] =
    [536_870_912.0, 4_294_967_296.0, 1e12, 8_796_093_022_208.0, f32::from_bits(LAST_UNCLAMPED - 1), f32::from_bits(LAST_UNCLAMPED)];

const ORIGIN: [i64; 3] = [0; 3];

fn on_axis(axis: usize, n: i64) -> [i64; 3] {
    std::array::from_fn(|k| if k == axis { n } else { 0 })
}

fn vertex(axis: usize, v: f32) -> [f32; 3] {
    std::array::from_fn(|k| if k == axis { v } else { 0.0 })
}

/// A row of one vertex.
fn point(bin: u32, place: [i64; 3], vertex: [f32; 3]) -> Row {
    Row { bin, place, vertices: vec![vertex], ..Row::default() }
}

/// A row of one vertex at the place itself.
fn at(bin: u32, place: [i64; 3]) -> Row {
    point(bin, place, [0.0; 3])
}

fn failed(place: [i64; 3]) -> Row {
    Row { outcome: 7, bin: 9, place, ..Row::default() }
}

/// Each coordinate on each axis, as far as it should stand from a vertex of another bin: the two tie there, and beside it they don't.
fn whole_micrometres() -> Vec<Case> {
    let mut cases = Vec::new();
    for (k, (v, wanted)) in WHOLE.into_iter().enumerate() {
        assert_eq!((micrometres(v), decimals::micrometres(v)), (Some(wanted), Some(wanted)), "micrometres of {v}");
        let (axis, back) = (k % 3, -(wanted as i64));
        let place = back.clamp(-MOST_PLACE, MOST_PLACE);
        let peg = on_axis(axis, wanted as i64 + place);
        let rows = [point(5, on_axis(axis, place), vertex(axis, v)), at(3, peg)];
        cases.push((lookup(&rows, peg), 2, Ok(vec![3, 5])));
        if peg == ORIGIN {
            cases.push((lookup(&rows, on_axis(axis, 1)), 2, Ok(vec![3, 5])));
            cases.push((lookup(&[rows[0].clone(), at(3, on_axis(axis, 1))], on_axis(axis, 1)), 1, Ok(vec![3])));
            cases.push((lookup(&[rows[0].clone(), at(3, on_axis(axis, -1))], on_axis(axis, -1)), 1, Ok(vec![3])));
        }
    }
    let before_place = [point(7, on_axis(0, 64), vertex(0, -0.0625)), at(3, on_axis(0, 2))];
    cases.push((lookup(&before_place, on_axis(0, 1)), 2, Ok(vec![7])));
    cases
}

/// 5,000 and 5,001 on each axis, and coordinates that are far whatever their lowest bits are, or refused.
fn near_and_far() -> Vec<Case> {
    let mut cases = vec![
        (lookup(&[at(4, [REACH, -REACH, REACH])], ORIGIN), 1, Ok(vec![4])),
        (lookup(&[at(4, [REACH, -REACH, REACH]), at(6, on_axis(1, REACH + 1))], ORIGIN), 2, Ok(vec![4])),
        (lookup(&[at(4, [-REACH, 0, 0]), at(6, [0, 3_000, 4_000]), at(5, [4_000, 0, -3_001])], ORIGIN), 2, Ok(vec![4, 6])),
        (lookup(&[point(8, [MOST_PLACE; 3], [1.0; 3])], [MOST_PLACE; 3]), 1, Ok(vec![8])),
        (lookup(&[point(8, [MOST_PLACE; 3], [1.0; 3]), at(2, [MOST_PLACE; 3])], [MOST_PLACE; 3]), 1, Ok(vec![2])),
        (lookup(&[at(1, [MOST_PLACE; 3])], [-MOST_PLACE; 3]), 0, Ok(vec![])),
    ];
    for axis in 0..3 {
        for sign in [1, -1] {
            cases.push((lookup(&[at(4, on_axis(axis, sign * REACH))], ORIGIN), 1, Ok(vec![4])));
            cases.push((lookup(&[at(4, on_axis(axis, sign * (REACH + 1)))], ORIGIN), 1, Ok(vec![])));
            cases.push((lookup(&[at(4, on_axis(axis, sign * (REACH + 1)))], on_axis(axis, sign)), 1, Ok(vec![4])));
            for v in FAR {
                let far = vertex(axis, v * sign as f32);
                let places = [ORIGIN, on_axis(axis, -sign * MOST_PLACE), on_axis(axis, sign * MOST_PLACE)];
                let rows = places.map(|place| point(6, place, far));
                cases.push((lookup(&rows, ORIGIN), 0, Ok(vec![])));
                cases.push((lookup(&[&rows[..], &[at(9, [REACH; 3])]].concat(), ORIGIN), 1, Ok(vec![9])));
            }
            for v in [9_223_372_036_854_775.0, 18_446_744_073_709_551_616.0, 1.267_650_6e30, 3e38, f32::MAX] {
                cases.push((lookup(&[at(9, ORIGIN), point(6, ORIGIN, vertex(axis, v * sign as f32))], ORIGIN), 1, Err(24)));
            }
        }
    }
    cases
}

/// A coordinate whose cell clamps, on each axis of each vertex, used or not, near a bin or not; normals have no such limit.
fn clamped() -> Vec<Case> {
    let vertices = vec![[0.0; 3], [1.0; 3], [2.0; 3], [3.0; 3]];
    let used = Row { bin: 2, place: ORIGIN, vertices, indices: vec![0, 1, 2], ..Row::default() };
    let rows = [at(4, ORIGIN), failed(ORIGIN), used];
    let with = |list: fn(&mut Lookup) -> &mut Vec<f32>, k: usize, v: f32, peg: [i64; 3]| {
        let mut lookup = lookup(&rows, peg);
        list(&mut lookup)[k] = v;
        lookup
    };
    let mut cases = Vec::new();
    for k in 0..15 {
        for v in CLAMPED.map(f32::from_bits) {
            cases.push((with(|l| &mut l.body.positions, k, v, ORIGIN), 2, Err(24)));
            cases.push((with(|l| &mut l.body.positions, k, v, ORIGIN), 0, Err(24)));
            cases.push((with(|l| &mut l.body.positions, k, v, [0, MOST_PLACE + 1, 0]), 2, Err(24)));
            cases.push((with(|l| &mut l.body.normals, k, v, ORIGIN), 2, Ok(vec![2, 4])));
        }
        for v in [f32::from_bits(LAST_UNCLAMPED), -f32::from_bits(LAST_UNCLAMPED)] {
            let bins = if k < 6 { vec![if k < 3 { 2 } else { 4 }] } else { vec![2, 4] };
            cases.push((with(|l| &mut l.body.positions, k, v, ORIGIN), 2, Ok(bins)));
        }
    }
    cases
}

/// Every vertex counts, used or not, and a bin is listed once.
fn vertices_and_bins() -> Vec<Case> {
    let unused =
        Row { bin: 2, place: ORIGIN, vertices: vec![[1.0; 3], [2.0; 3], [3.0; 3], [0.0; 3]], indices: vec![0, 1, 2], ..Row::default() };
    let twice = [at(7, ORIGIN), at(5, ORIGIN), failed(ORIGIN), at(7, ORIGIN)];
    let ends = [at(MOST_BIN, ORIGIN), at(0, ORIGIN), Row::default()];
    vec![
        (lookup(&[unused.clone(), at(1, [1, 0, 0])], ORIGIN), 1, Ok(vec![2])),
        (lookup(&[at(1, [1, 0, 0]), unused], ORIGIN), 1, Ok(vec![2])),
        (lookup(&twice, ORIGIN), 2, Ok(vec![5, 7])),
        (lookup(&twice, ORIGIN), 3, Ok(vec![5, 7])),
        (lookup(&twice, ORIGIN), 1, Err(66)),
        (lookup(&twice, ORIGIN), 0, Err(66)),
        (lookup(&[at(7, ORIGIN), at(7, ORIGIN)], ORIGIN), 1, Ok(vec![7])),
        (lookup(&ends, ORIGIN), 2, Ok(vec![0, MOST_BIN])),
        (lookup(&[at(0, ORIGIN)], ORIGIN), 1, Ok(vec![0])),
        (lookup(&[at(7, [3, 0, 0]), at(5, [1, 0, 0]), at(6, [2, 0, 0])], ORIGIN), 9, Ok(vec![5])),
        (lookup(&[at(1, on_axis(2, 40_000))], ORIGIN), 0, Ok(vec![])),
        (lookup(&[], ORIGIN), 0, Ok(vec![])),
        (lookup(&[], [MOST_PLACE; 3]), 3, Ok(vec![])),
        (lookup(&[failed([MOST_PLACE; 3]), Row::default()], ORIGIN), 0, Ok(vec![])),
    ]
}

/// Pegs and places at the ends of the range and past them.
fn ranges() -> Vec<Case> {
    let mut cases = vec![(lookup(&[], [MOST_PLACE + 1, 0, 0]), 0, Err(65))];
    for axis in 0..3 {
        for end in [MOST_PLACE, -MOST_PLACE] {
            let (inside, outside) = (on_axis(axis, end), on_axis(axis, end + end.signum()));
            cases.push((lookup(&[at(4, inside)], inside), 1, Ok(vec![4])));
            cases.push((lookup(&[failed(inside), Row { place: inside, ..Row::default() }], inside), 0, Ok(vec![])));
            cases.push((lookup(&[at(4, inside)], outside), 1, Err(65)));
            cases.push((lookup(&[at(4, outside)], inside), 1, Err(65)));
            cases.push((lookup(&[at(4, ORIGIN), failed(outside)], ORIGIN), 1, Err(65)));
            cases.push((lookup(&[Row { place: outside, ..Row::default() }, at(4, ORIGIN)], ORIGIN), 1, Err(65)));
            for wild in [i64::MIN, i64::MAX, end << 8, end << 22] {
                cases.push((lookup(&[at(4, on_axis(axis, wild))], ORIGIN), 1, Err(65)));
                cases.push((lookup(&[at(4, ORIGIN)], on_axis(axis, wild)), 1, Err(65)));
            }
        }
    }
    cases
}

/// A lookup with so many numbers of places, those behind the rows' being the smallest there is.
fn with_places(rows: &[Row], count: usize) -> Lookup {
    let mut lookup = lookup(rows, ORIGIN);
    lookup.places.resize(count, i64::MIN);
    lookup
}

/// Fewer places and more, and several faults of one lookup, of which the first decides.
fn places_and_order() -> Vec<Case> {
    let (rows, good) = ([at(4, ORIGIN), at(5, ORIGIN)], |count| with_places(&[at(4, ORIGIN), at(5, ORIGIN)], count));
    let far = || lookup(&rows, [MOST_PLACE + 1, 0, 0]);
    let with = |mut lookup: Lookup, change: fn(&mut Lookup)| {
        change(&mut lookup);
        lookup
    };
    let mut cases = vec![
        (far(), 0, Err(65)),
        (far(), 2, Err(65)),
        (good(6), 1, Err(66)),
        (good(5), 0, Err(65)),
        (with(far(), |l| l.body.positions[5] = f32::NAN), 0, Err(23)),
        (with(good(6), |l| l.body.normals[0] = f32::INFINITY), 0, Err(23)),
        (with(good(0), |l| l.body.normals[5] = f32::NEG_INFINITY), 0, Err(23)),
        (with(far(), |l| (l.body.positions[0], l.body.normals[5]) = (f32::MAX, f32::NAN)), 0, Err(23)),
        (with(good(6), |l| (l.body.positions[0], l.body.positions[5]) = (f32::MIN, f32::INFINITY)), 2, Err(23)),
        (with(good(6), |l| (l.body.positions[0], l.body.rows[5]) = (f32::MIN, MOST_BIN + 1)), 2, Err(15)),
        (with(good(5), |l| l.body.positions[5] = f32::MIN), 2, Err(24)),
        (with(good(0), |l| l.body.positions[0] = f32::MAX), 0, Err(24)),
        (with(far(), |l| l.body.rows[5] = MOST_BIN + 1), 0, Err(15)),
        (with(far(), |l| l.body.positions.push(0.0)), 0, Err(14)),
        (with(far(), |l| l.body.rows[2] = 1), 0, Err(12)),
        (with(far(), |l| l.body.rows.push(0)), 0, Err(11)),
    ];
    cases.extend([6, 7, 8, 9, 12, 100].map(|count| (good(count), 2, Ok(vec![4, 5]))));
    cases.extend([0, 1, 2, 3, 4, 5].map(|count| (good(count), 2, Err(65))));
    cases
}

/// As many rows as there may be, all of them tied.
fn all_tied() -> Vec<Case> {
    let most = MOST_ROWS as u32;
    let rows = |bin: fn(u32) -> u32| (0..most).map(|k| at(bin(k), [1, 2, 3])).collect::<Vec<Row>>();
    let (up, down, same) = (rows(|k| k), rows(|k| MOST_BIN - k), rows(|k| 7 + k % 2));
    vec![
        (lookup(&up, ORIGIN), MOST_ROWS, Ok((0..most).collect())),
        (lookup(&up, ORIGIN), MOST_ROWS - 1, Err(66)),
        (lookup(&down, ORIGIN), MOST_ROWS + 9, Ok((MOST_BIN + 1 - most..=MOST_BIN).collect())),
        (lookup(&down, ORIGIN), 1, Err(66)),
        (lookup(&same, ORIGIN), 2, Ok(vec![7, 8])),
        (lookup(&same, ORIGIN), 1, Err(66)),
    ]
}

/// Lookups with their answers, the model's held to them too.
pub fn cases() -> Vec<Case> {
    let all = [vertices_and_bins(), whole_micrometres(), near_and_far(), clamped(), ranges(), places_and_order(), all_tied()].concat();
    for (lookup, room, wanted) in &all {
        let (rows, positions) = (&lookup.body.rows, &lookup.body.positions);
        let shown = (&rows[..rows.len().min(12)], &positions[..positions.len().min(6)], &lookup.places[..lookup.places.len().min(6)]);
        assert_eq!(&find(lookup, *room), wanted, "the model's bins for {:?} in {shown:?}", lookup.peg);
    }
    all
}
