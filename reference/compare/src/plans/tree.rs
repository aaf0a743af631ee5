//! Plans made at random, as groups and bins: their text, and what they must be read as, which holds the model too.

use super::model::{Entry, MOST_BIN, MOST_DEPTH, MOST_OFFSET};
use driver::random::Random;

/// A group with what it holds, or a bin; each with its offset.
#[derive(Debug, Clone)]
pub enum Item {
    Group([i64; 3], Vec<Item>),
    Bin(i64, [i64; 3]),
}

/// What a plan is made like: how deep its groups go, how many items a group has at most, how often one is a group, and how far offsets go.
struct Style {
    depth: usize,
    most: usize,
    groups: u64,
    far: fn(&mut Random) -> i64,
}

/// A few numbers at the ends of the range, and anything between.
pub fn far(r: &mut Random) -> i64 {
    let within = r.below(2 * MOST_OFFSET as u64 + 1) as i64 - MOST_OFFSET;
    *r.pick(&[MOST_OFFSET, -MOST_OFFSET, MOST_OFFSET - 1, 1 - MOST_OFFSET, 1, -1, 0, within])
}

fn near(r: &mut Random) -> i64 {
    r.below(2_001) as i64 - 1_000
}

/// Yards of a few kilometres, in micrometres.
fn yard(r: &mut Random) -> i64 {
    r.below(8_000_000_001) as i64 - 4_000_000_000
}

/// Offsets of a quarter of the range, so that sums pass its end after a few groups.
fn quarter(r: &mut Random) -> i64 {
    *r.pick(&[0, 1, -1, MOST_OFFSET / 4, -MOST_OFFSET / 4, MOST_OFFSET / 2, -MOST_OFFSET / 2])
}

const STYLES: [Style; 6] = [
    Style { depth: 3, most: 5, groups: 35, far: near },
    Style { depth: 4, most: 6, groups: 30, far: yard },
    Style { depth: MOST_DEPTH, most: 2, groups: 85, far: near },
    Style { depth: MOST_DEPTH, most: 3, groups: 70, far: quarter },
    Style { depth: MOST_DEPTH + 2, most: 2, groups: 90, far: near },
    Style { depth: 3, most: 4, groups: 40, far },
];

fn offset(style: &Style, r: &mut Random) -> [i64; 3] {
    std::array::from_fn(|_| (style.far)(r))
}

pub fn bin(r: &mut Random) -> i64 {
    let any = r.below(MOST_BIN as u64 + 1) as i64;
    *r.pick(&[0, 1, 1, 2, 9, 10, MOST_BIN, any])
}

/// Items in groups that are so many deep; sometimes none.
fn items(style: &Style, depth: usize, r: &mut Random) -> Vec<Item> {
    let count = r.size(0, style.most);
    let item = |r: &mut Random| {
        if depth < style.depth && r.chance(style.groups) {
            Item::Group(offset(style, r), items(style, depth + 1, r))
        } else {
            Item::Bin(bin(r), offset(style, r))
        }
    };
    (0..count).map(|_| item(r)).collect()
}

/// So many groups, each in the one before, with a bin before, in and behind the innermost.
fn chain(depth: usize, r: &mut Random) -> Vec<Item> {
    let leaf = |r: &mut Random| Item::Bin(bin(r), [near(r), near(r), near(r)]);
    let mut inner = vec![leaf(r)];
    for _ in 0..depth {
        let group = Item::Group([near(r), near(r), near(r)], inner);
        inner = if r.chance(30) { vec![leaf(r), group, leaf(r)] } else { vec![group] };
    }
    inner
}

/// A plan at random.
pub fn plan(r: &mut Random) -> Vec<Item> {
    if r.chance(10) {
        let depth = r.size(MOST_DEPTH - 2, MOST_DEPTH + 1);
        return chain(depth, r);
    }
    let style = &STYLES[r.size(0, STYLES.len() - 1)];
    items(style, 0, r)
}

/// A plan of so many bins, in groups of up to a hundred within others.
pub fn large(bins: usize, r: &mut Random) -> Vec<Item> {
    let mut left = bins;
    let mut all = Vec::new();
    while left > 0 {
        let count = r.size(1, 100).min(left);
        left -= count;
        let own = (0..count).map(|_| Item::Bin(bin(r), [yard(r), yard(r), near(r)])).collect();
        all.push(Item::Group([yard(r), yard(r), 0], vec![Item::Group([near(r), near(r), near(r)], own)]));
    }
    all
}

/// The lines of a plan.
pub fn text(items: &[Item]) -> String {
    let line = |item: &Item| match item {
        Item::Bin(n, [x, y, z]) => format!("(bin {n} {x} {y} {z})\n"),
        Item::Group([x, y, z], inner) => format!("(group {x} {y} {z}\n{})\n", text(inner)),
    };
    items.iter().map(line).collect()
}

/// What a plan that stands so deep at so far an offset must be read as, behind the entries that are there.
fn place(items: &[Item], depth: usize, at: [i64; 3], room: usize, entries: &mut Vec<Entry>) -> Result<(), u32> {
    for item in items {
        match item {
            Item::Group(_, _) if depth == MOST_DEPTH => return Err(62),
            Item::Group(offset, inner) => place(inner, depth + 1, add(at, *offset), room, entries)?,
            Item::Bin(bin, offset) => {
                let place = add(at, *offset);
                if place.iter().any(|n| n.abs() > MOST_OFFSET) {
                    return Err(63);
                }
                if entries.len() == room {
                    return Err(64);
                }
                entries.push(Entry { bin: *bin, place });
            }
        }
    }
    Ok(())
}

fn add(a: [i64; 3], b: [i64; 3]) -> [i64; 3] {
    std::array::from_fn(|axis| a[axis] + b[axis])
}

/// What a plan must be read as, where a list has room for so many bins.
pub fn expected(items: &[Item], room: usize) -> Result<Vec<Entry>, u32> {
    let mut entries = Vec::new();
    place(items, 0, [0; 3], room, &mut entries).map(|()| entries)
}
