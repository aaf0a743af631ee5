//! The ways to break a body that document 01's table lists, each with its number.

use driver::check::{LAST_UNCLAMPED, MOST_BIN, MOST_INDICES, MOST_ROWS, MOST_VERTICES};
use driver::flat::{Flat, ROW};
use driver::random::Random;

const OUTCOME: usize = 2;
const VERTICES: usize = 3;
const INDICES: usize = 4;
const BIN: usize = 5;

/// A body that is being broken, with the length of its work area.
pub struct Case {
    body: Flat,
    words: usize,
}

/// A way to break a body; it does nothing and says so where a body has no place for it.
pub struct Fault {
    pub number: u32,
    pub name: &'static str,
    spoil: fn(&mut Case, &mut Random) -> Option<()>,
}

const fn fault(number: u32, name: &'static str, spoil: fn(&mut Case, &mut Random) -> Option<()>) -> Fault {
    Fault { number, name, spoil }
}

#[rustfmt::skip]
pub const FAULTS: &[Fault] = &[
    fault(11, "the table a number short", |c, _| c.body.rows.pop().map(|_| ())),
    fault(11, "the table a number long", |c, _| push(&mut c.body.rows, 0)),
    fault(11, "4,097 rows", |c, _| most_rows_and_one(c)),
    fault(12, "outcome 256", |c, r| outcome(c, r, &[256])),
    fault(12, "an outcome far above 255", |c, r| outcome(c, r, &[257, 65_536, 0x8000_0001, u32::MAX])),
    fault(12, "a failed row with vertices", |c, r| failed(c, r, 3, 0)),
    fault(12, "a failed row with indices", |c, r| failed(c, r, 0, 3)),
    fault(13, "a vertex too many", |c, r| one_above(c, r, VERTICES, MOST_VERTICES)),
    fault(13, "an index too many", |c, r| one_above(c, r, INDICES, MOST_INDICES)),
    fault(13, "vertices that are too many by 2^32", |c, _| above_by_two_halves(c, VERTICES)),
    fault(13, "indices that are too many by 2^32", |c, _| above_by_two_halves(c, INDICES)),
    fault(14, "positions one short", |c, _| c.body.positions.pop().map(|_| ())),
    fault(14, "positions one long", |c, _| push(&mut c.body.positions, 0.0)),
    fault(14, "positions a vertex short", |c, _| pop_vertex(&mut c.body.positions)),
    fault(14, "normals one short", |c, _| c.body.normals.pop().map(|_| ())),
    fault(14, "normals one long", |c, _| push(&mut c.body.normals, 0.0)),
    fault(14, "indices one short", |c, _| c.body.indices.pop().map(|_| ())),
    fault(14, "indices one long", |c, _| push(&mut c.body.indices, 0)),
    fault(15, "bin 65,536", |c, r| bin(c, r, |_| true, &[MOST_BIN + 1])),
    fault(15, "a bin far above 65,535", |c, r| bin(c, r, |_| true, &[131_072, 0x8000_0000, u32::MAX])),
    fault(15, "a failed row's bin", |c, r| bin(c, r, |row| row[OUTCOME] != 0, &[MOST_BIN + 1, u32::MAX])),
    fault(15, "the last row's bin", |c, _| last_bin(c)),
    fault(21, "an index more on a row", index_more),
    fault(21, "an index less on a row", index_less),
    fault(22, "an index that is its row's vertex count", |c, r| index(c, r, |own, _| Some(own))),
    fault(22, "an index of the body, not of its row", |c, r| index(c, r, |own, all| (own < all).then(|| all - 1))),
    fault(22, "the largest index", |c, r| index(c, r, |_, _| Some(u32::MAX))),
    fault(23, "a position that is no number", |c, r| bits(&mut c.body.positions, r, &NANS)),
    fault(23, "an infinite position", |c, r| bits(&mut c.body.positions, r, &[0x7f80_0000])),
    fault(23, "a negative infinite position", |c, r| bits(&mut c.body.positions, r, &[0xff80_0000])),
    fault(23, "a normal that is no number", |c, r| bits(&mut c.body.normals, r, &NANS)),
    fault(23, "an infinite normal", |c, r| bits(&mut c.body.normals, r, &[0x7f80_0000])),
    fault(23, "a negative infinite normal", |c, r| bits(&mut c.body.normals, r, &[0xff80_0000])),
    fault(24, "a position whose cell clamps", |c, r| bits(&mut c.body.positions, r, &CLAMPED)),
    fault(24, "the first position that clamps", |c, r| bits(&mut c.body.positions, r, &CLAMPED[..1])),
    fault(24, "the first negative one", |c, r| bits(&mut c.body.positions, r, &CLAMPED[1..2])),
    fault(24, "every position clamps", |c, r| every_clamped(c, r)),
    fault(24, "an unused vertex that clamps", unused_clamped),
    fault(31, "a work area one word short", |c, _| words(c, |needed| needed - 1)),
    fault(31, "no work area", |c, _| words(c, |_| 0)),
];

/// Quiet and signalling, of both signs.
const NANS: [u32; 5] = [0x7fc0_0000, 0xffc0_0000, 0x7f80_0001, 0xff80_0001, 0x7fff_ffff];

/// Bits of coordinates whose cells clamp: the first of either sign, about 10^13, 2^44, and the largest and the smallest number.
pub const CLAMPED: [u32; 7] =
    [LAST_UNCLAMPED + 1, 1 << 31 | (LAST_UNCLAMPED + 1), 0x5511_84e7, 0x5580_0000, 0xd580_0000, 0x7f7f_ffff, 0xff7f_ffff];

fn push<T>(list: &mut Vec<T>, more: T) -> Option<()> {
    list.push(more);
    Some(())
}

fn pop_vertex(list: &mut Vec<f32>) -> Option<()> {
    list.truncate(list.len().checked_sub(3)?);
    Some(())
}

fn most_rows_and_one(c: &mut Case) -> Option<()> {
    c.body.rows.resize(ROW * (MOST_ROWS + 1), 0);
    Some(())
}

/// The start in the table of a row at random for which something holds.
fn row_with(c: &Case, r: &mut Random, holds: impl Fn(&[u32]) -> bool) -> Option<usize> {
    let starts: Vec<usize> = (0..c.body.rows.len()).step_by(ROW).filter(|k| holds(&c.body.rows[*k..k + ROW])).collect();
    if starts.is_empty() { None } else { Some(*r.pick(&starts)) }
}

fn outcome(c: &mut Case, r: &mut Random, numbers: &[u32]) -> Option<()> {
    let row = row_with(c, r, |_| true)?;
    c.body.rows[row + OUTCOME] = *r.pick(numbers);
    Some(())
}

fn bin(c: &mut Case, r: &mut Random, holds: fn(&[u32]) -> bool, numbers: &[u32]) -> Option<()> {
    let row = row_with(c, r, holds)?;
    c.body.rows[row + BIN] = *r.pick(numbers);
    Some(())
}

fn last_bin(c: &mut Case) -> Option<()> {
    *c.body.rows.last_mut()? = MOST_BIN + 1;
    Some(())
}

fn failed(c: &mut Case, r: &mut Random, vertices: u32, indices: u32) -> Option<()> {
    let row = row_with(c, r, |_| true)?;
    c.body.rows[row + OUTCOME] = *r.pick(&[1, 7, 255]);
    c.body.rows[row + VERTICES] = vertices;
    c.body.rows[row + INDICES] = indices;
    Some(())
}

/// The sum of a column of the table up to a row.
fn total(c: &Case, column: usize, up_to: usize) -> usize {
    c.body.rows[..up_to].chunks_exact(ROW).map(|row| row[column] as usize).sum()
}

/// One row's count is raised until the sum is one above the most.
fn one_above(c: &mut Case, r: &mut Random, column: usize, most: usize) -> Option<()> {
    let row = row_with(c, r, |row| row[OUTCOME] == 0)?;
    let others = total(c, column, c.body.rows.len()) - c.body.rows[row + column] as usize;
    c.body.rows[row + column] = (most + 1).checked_sub(others)? as u32;
    Some(())
}

/// Two more rows, of 2^31 each: the sum's low 32 bits stay as they were.
fn above_by_two_halves(c: &mut Case, column: usize) -> Option<()> {
    if c.body.rows.len() > ROW * (MOST_ROWS - 2) {
        return None;
    }
    for _ in 0..2 {
        let mut row = [0; ROW];
        row[column] = 1 << 31;
        c.body.rows.extend(row);
    }
    Some(())
}

fn index_more(c: &mut Case, r: &mut Random) -> Option<()> {
    let row = row_with(c, r, |row| row[OUTCOME] == 0)?;
    let end = total(c, INDICES, row + ROW);
    if c.body.indices.len() == MOST_INDICES {
        return None;
    }
    c.body.rows[row + INDICES] += 1;
    c.body.indices.insert(end, 0);
    Some(())
}

fn index_less(c: &mut Case, r: &mut Random) -> Option<()> {
    let row = row_with(c, r, |row| row[INDICES] > 0)?;
    let end = total(c, INDICES, row + ROW);
    c.body.rows[row + INDICES] -= 1;
    c.body.indices.remove(end - 1);
    Some(())
}

/// The first place, the last or one between.
fn end_or_between(r: &mut Random, last: usize) -> usize {
    let between = r.size(0, last);
    *r.pick(&[0, last, between])
}

/// An index at a row's start, its end or between, made of the vertex counts of its row and of the body.
fn index(c: &mut Case, r: &mut Random, make: fn(u32, u32) -> Option<u32>) -> Option<()> {
    let row = row_with(c, r, |row| row[INDICES] > 0)?;
    let (start, count) = (total(c, INDICES, row), c.body.rows[row + INDICES] as usize);
    let place = start + end_or_between(r, count - 1);
    c.body.indices[place] = make(c.body.rows[row + VERTICES], (c.body.positions.len() / 3) as u32)?;
    Some(())
}

fn bits(list: &mut [f32], r: &mut Random, patterns: &[u32]) -> Option<()> {
    let last = list.len().checked_sub(1)?;
    let place = end_or_between(r, last);
    list[place] = f32::from_bits(*r.pick(patterns));
    Some(())
}

/// Every coordinate of every position clamps.
fn every_clamped(c: &mut Case, r: &mut Random) -> Option<()> {
    c.body.positions.iter_mut().for_each(|v| *v = f32::from_bits(*r.pick(&CLAMPED)));
    (!c.body.positions.is_empty()).then_some(())
}

/// A vertex behind a row's own, which no triangle uses, with one coordinate that clamps; the work area grows with it.
fn unused_clamped(c: &mut Case, r: &mut Random) -> Option<()> {
    let row = row_with(c, r, |row| row[OUTCOME] == 0)?;
    let end = 3 * total(c, VERTICES, row + ROW);
    if c.body.positions.len() == 3 * MOST_VERTICES {
        return None;
    }
    c.body.rows[row + VERTICES] += 1;
    let mut vertex = [0.0; 3];
    vertex[r.size(0, 2)] = f32::from_bits(*r.pick(&CLAMPED));
    c.body.positions.splice(end..end, vertex);
    c.body.normals.splice(end..end, [0.0; 3]);
    c.words += 4;
    Some(())
}

fn words(c: &mut Case, length: fn(usize) -> usize) -> Option<()> {
    let needed = c.body.words();
    c.words = if needed == 0 { return None } else { length(needed) };
    Some(())
}

/// A body broken in some ways, with the length of its work area. The faults of later checks come first, since those of earlier
/// checks leave the table and the slices at odds.
pub fn broken(body: &Flat, faults: &[&Fault], r: &mut Random) -> Option<(Flat, usize)> {
    let mut case = Case { body: body.clone(), words: body.words() + r.size(0, 3) };
    let mut order = faults.to_vec();
    order.sort_by_key(|f| std::cmp::Reverse(f.number));
    for fault in order {
        (fault.spoil)(&mut case, r)?;
    }
    Some((case.body, case.words))
}
