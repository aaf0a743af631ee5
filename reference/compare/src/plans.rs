//! Plans held to a plain model: texts read into lists, lists written as text, and what is written read again.

mod damage;
mod held;
mod limits;
mod model;
pub mod program;
mod tally;
mod tree;
pub mod wrong;

pub use tally::Tally;

use compare::library::{ENTRY, MOST_ENTRIES};
use driver::random::Random;
use model::{MOST_BIN, MOST_OFFSET};

/// Plans that go with a seed, besides a large one; every second is damaged.
const PLANS_A_SEED: usize = 250;

/// A small plan of two groups, one in the other, with bins before, between, in and behind them.
const SMALL: &[u8] = b"(bin 1 5 0 0)\n(group 100 0 -7\n(bin 2 1 2 3)\n(group 0 10 0\n(bin 3 0 0 1)\n)\n)\n(bin 65535 7 7 7)\n";

/// Numbers of a list before a call, of any value.
fn numbers(count: usize, r: &mut Random) -> Vec<i64> {
    (0..count).map(|_| r.next() as i64).collect()
}

/// Bytes of a slice before a call, of any value.
fn bytes(count: usize, r: &mut Random) -> Vec<u8> {
    (0..count).map(|_| r.next() as u8).collect()
}

/// Reads a text into a list of so many numbers.
fn read(text: &[u8], count: usize, r: &mut Random, tally: &mut Tally) -> Result<u32, String> {
    let number = held::read(text, &numbers(count, r)).map_err(|what| differing(text, count, &what))?;
    tally.read += 1;
    tally.answered(number);
    Ok(number)
}

/// Writes a list into a slice of so many bytes.
fn write(list: &[i64], room: usize, r: &mut Random, tally: &mut Tally) -> Result<u32, String> {
    let number = held::write(list, &bytes(room, r)).map_err(|what| format!("{what}; the list begins {:?}", &list[..list.len().min(24)]))?;
    tally.written += 1;
    tally.answered(number);
    Ok(number)
}

/// What differs, with the text, of which lines are left out as long as it differs.
fn differing(text: &[u8], count: usize, what: &str) -> String {
    let mut lines: Vec<&[u8]> = text.split_inclusive(|byte| *byte == b'\n').collect();
    let mut what = what.to_string();
    let mut k = 0;
    while k < lines.len() && lines.len() < 300 {
        let line = lines.remove(k);
        match held::read(&lines.concat(), &vec![0x55; count]) {
            Err(other) => what = other,
            Ok(_) => {
                lines.insert(k, line);
                k += 1;
            }
        }
    }
    let shown = lines.concat();
    format!("plan {:?}: {what}", String::from_utf8_lossy(&shown[..shown.len().min(2_000)]))
}

/// How many numbers a list for so many bins has: exactly enough, or at random fewer, a rest, or more.
fn lengths(bins: usize, r: &mut Random) -> [usize; 2] {
    let exact = ENTRY * bins;
    let rest = exact + r.size(1, 3);
    let more = exact + r.size(0, 40);
    let choices = [exact.saturating_sub(1), exact.saturating_sub(ENTRY), exact.saturating_sub(r.size(0, 20)), 0, rest, rest, more];
    let beyond = ENTRY * MOST_ENTRIES + r.size(0, 9);
    [exact, if r.chance(2) { beyond } else { *r.pick(&choices) }]
}

/// How many lines of a text begin as a bin's does.
fn bin_lines(text: &[u8]) -> usize {
    text.split(|byte| *byte == b'\n').filter(|line| line.starts_with(b"(bin")).count()
}

/// A text read into lists of some lengths; its bins, if it is accepted, written and read again.
fn text_held(text: &[u8], r: &mut Random, tally: &mut Tally) -> Result<(), String> {
    for count in lengths(bin_lines(text), r) {
        read(text, count, r, tally)?;
    }
    if let Ok(entries) = model::read(text, ENTRY * MOST_ENTRIES) {
        list_held(&model::flat(&entries), r, tally)?;
    }
    Ok(())
}

/// A list that is accepted, written into slices of some lengths with a rest behind it, and read again.
fn list_held(list: &[i64], r: &mut Random, tally: &mut Tally) -> Result<(), String> {
    let length = model::write(list, usize::MAX).expect("a list that was read").len();
    let mut lent = list.to_vec();
    lent.extend(numbers(r.size(0, ENTRY - 1), r));
    write(&lent, length, r, tally)?;
    write(&lent, length + r.size(1, 40), r, tally)?;
    if length > 0 {
        write(&lent, length - 1, r, tally)?;
        write(&lent, r.size(0, length - 1), r, tally)?;
    }
    held::round_trip(list, length)?;
    tally.round_trips += 1;
    Ok(())
}

/// A list with some of its numbers out of range, or one at a limit.
fn broken_list(r: &mut Random) -> Vec<i64> {
    let mut list: Vec<i64> = (0..r.size(0, 6)).flat_map(|_| [tree::bin(r), tree::far(r), tree::far(r), tree::far(r)]).collect();
    for _ in 0..r.size(0, 3) {
        if let Some(last) = list.len().checked_sub(1) {
            let k = r.size(0, last);
            let (bins, places) = ([-1, MOST_BIN + 1, MOST_BIN, 0], [MOST_OFFSET + 1, -MOST_OFFSET - 1, MOST_OFFSET, -MOST_OFFSET]);
            let past = match k % ENTRY {
                0 => bins,
                _ => places,
            };
            let any = r.next() as i64;
            list[k] = *r.pick(&[past[0], past[1], past[2], past[3], i64::MIN, i64::MAX, any]);
        }
    }
    list.extend(numbers(r.size(0, ENTRY - 1), r));
    list
}

/// A list that may offend, written into a slice that may be short.
fn broken_held(r: &mut Random, tally: &mut Tally) -> Result<(), String> {
    let list = broken_list(r);
    let length = model::write(&list, usize::MAX).map_or(60, |text| text.len());
    let room = *r.pick(&[0, length.saturating_sub(1), length, length + 1, 400]);
    write(&list, room, r, tally).map(|_| ())
}

/// A list of about as many entries as there may be, of which the last may be out of place, written into a slice with room for it.
fn large_list_held(r: &mut Random, tally: &mut Tally) -> Result<(), String> {
    let entries = r.size(MOST_ENTRIES - 1, MOST_ENTRIES + 1);
    let mut list: Vec<i64> = (0..entries).flat_map(|_| [tree::bin(r), tree::far(r), tree::far(r), tree::far(r)]).collect();
    if r.chance(40) {
        let last = list.len() - 1;
        list[last] = MOST_OFFSET + 1;
    }
    let room = model::write(&list, usize::MAX).map_or(60 * entries, |text| text.len());
    write(&list, room, r, tally).map(|_| ())
}

/// One plan at random, as it is or damaged. The model must read one that isn't damaged as its groups and bins say.
fn plan_held(damaged: bool, items: &[tree::Item], r: &mut Random, tally: &mut Tally) -> Result<(), String> {
    let text = tree::text(items);
    tally.plans += 1;
    tally.damaged += u64::from(damaged);
    if damaged {
        return text_held(&damage::damaged(&text, r), r, tally);
    }
    let room = r.size(0, bin_lines(text.as_bytes()) + 1).min(MOST_ENTRIES);
    let modelled = model::read(text.as_bytes(), ENTRY * room);
    assert_eq!(modelled, tree::expected(items, room), "the model reads a plan otherwise than it was made: {text}");
    text_held(text.as_bytes(), r, tally)
}

/// The plans that go with a seed, or what differs.
pub fn compared(seed: u64, tally: &mut Tally) -> Result<(), String> {
    let r = &mut Random::new(seed ^ 0x914A_1157);
    let named = |what: String| format!("seed {seed}: {what}");
    for k in 0..PLANS_A_SEED {
        let items = tree::plan(r);
        plan_held(k % 2 == 1, &items, r, tally).map_err(named)?;
        broken_held(r, tally).map_err(named)?;
    }
    let bins = r.size(MOST_ENTRIES - 1, MOST_ENTRIES + 1);
    plan_held(r.chance(30), &tree::large(bins, r), r, tally).map_err(named)?;
    large_list_held(r, tally).map_err(named)
}

/// The plans and lists at the limits.
pub fn at_the_limits(tally: &mut Tally) -> Result<(), String> {
    let r = &mut Random::new(2);
    for (text, count, _) in limits::texts() {
        read(text.as_bytes(), count, r, tally)?;
    }
    for (list, room, _) in limits::lists() {
        write(&list, room, r, tally)?;
    }
    Ok(())
}

/// Every text that is one byte away from a small plan.
pub fn one_byte_away(tally: &mut Tally) -> Result<(), String> {
    let r = &mut Random::new(1);
    let count = ENTRY * bin_lines(SMALL);
    if read(SMALL, count, r, tally)? != 0 {
        return Err("the small plan is refused".to_string());
    }
    for text in damage::one_byte(SMALL) {
        read(&text, count, r, tally)?;
        tally.one_byte += 1;
    }
    Ok(())
}

/// Whether the plans of some seeds, and those at the limits, show a fault that is planted.
pub fn shows(first: u64, last: u64) -> bool {
    let tally = &mut Tally::default();
    at_the_limits(tally).is_err() || (first..=last).any(|seed| compared(seed, tally).is_err())
}
