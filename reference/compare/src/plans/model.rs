//! A plain model of plans, written from the words of document 02: what a text lists, and what a listing is as text.

use compare::library::{ENTRY, MOST_ENTRIES};

/// A bin and its place.
#[derive(Debug, Clone, Copy, PartialEq)]
pub struct Entry {
    pub bin: i64,
    pub place: [i64; 3],
}

/// "A depth of 16."
pub const MOST_DEPTH: usize = 16;

/// "Within plus or minus 2^40."
pub const MOST_OFFSET: i64 = 1 << 40;

/// "A bin number from 0 to 65,535."
pub const MOST_BIN: i64 = 65_535;

/// A line of a plan.
enum Line {
    Group([i64; 3]),
    Bin(i64, [i64; 3]),
    Close,
}

fn within(numbers: &[i64; 3]) -> bool {
    numbers.iter().all(|n| (-MOST_OFFSET..=MOST_OFFSET).contains(n))
}

/// A number in the one way to write it, without leading zeros and with a minus if it is negative.
fn number(word: &str) -> Option<i64> {
    let number: i64 = word.parse().ok()?;
    (number.to_string() == word).then_some(number)
}

/// The numbers of a line, as many as it must have, a single space between each two.
fn numbers<const N: usize>(words: &str) -> Option<[i64; N]> {
    let numbers: Option<Vec<i64>> = words.split(' ').map(number).collect();
    numbers?.try_into().ok()
}

/// What a line says, its LF included, or nothing if it is malformed.
fn line(text: &[u8]) -> Option<Line> {
    let words = std::str::from_utf8(text).ok()?.strip_suffix('\n')?;
    if words == ")" {
        return Some(Line::Close);
    }
    if let Some(offset) = words.strip_prefix("(group ") {
        return numbers(offset).filter(within).map(Line::Group);
    }
    let [bin, x, y, z] = numbers(words.strip_prefix("(bin ")?.strip_suffix(')')?)?;
    ((0..=MOST_BIN).contains(&bin) && within(&[x, y, z])).then_some(Line::Bin(bin, [x, y, z]))
}

/// The sum of a bin's offset and those of all groups around it.
fn sum(path: &[[i64; 3]], own: [i64; 3]) -> [i64; 3] {
    std::array::from_fn(|axis| path.iter().map(|group| group[axis]).sum::<i64>() + own[axis])
}

/// The bins of a text in the order read, where a list has room for so many, or the number of the first line that offends.
fn listed(text: &[u8], room: usize) -> Result<Vec<Entry>, u32> {
    let (mut open, mut entries) = (Vec::new(), Vec::new());
    for each in text.split_inclusive(|byte| *byte == b'\n') {
        match line(each).ok_or(61u32)? {
            Line::Group(_) if open.len() == MOST_DEPTH => return Err(62),
            Line::Group(offset) => open.push(offset),
            Line::Close => drop(open.pop().ok_or(61u32)?),
            Line::Bin(bin, offset) => {
                let place = sum(&open, offset);
                if !within(&place) {
                    return Err(63);
                }
                if entries.len() == room {
                    return Err(64);
                }
                entries.push(Entry { bin, place });
            }
        }
    }
    if open.is_empty() { Ok(entries) } else { Err(61) }
}

/// What reading a text into a list of so many numbers gives.
pub fn read(text: &[u8], list_len: usize) -> Result<Vec<Entry>, u32> {
    listed(text, (list_len / ENTRY).min(MOST_ENTRIES))
}

/// Entries as a list has them.
pub fn flat(entries: &[Entry]) -> Vec<i64> {
    entries.iter().flat_map(|e| [e.bin, e.place[0], e.place[1], e.place[2]]).collect()
}

/// The text of a list, or the number of its first entry that offends.
fn text(list: &[i64]) -> Result<String, u32> {
    let mut text = String::new();
    for (k, entry) in list.chunks_exact(ENTRY).enumerate() {
        let (bin, place) = (entry[0], [entry[1], entry[2], entry[3]]);
        if !(0..=MOST_BIN).contains(&bin) {
            return Err(61);
        }
        if !within(&place) {
            return Err(63);
        }
        if k == MOST_ENTRIES {
            return Err(64);
        }
        text += &format!("(bin {bin} {} {} {})\n", place[0], place[1], place[2]);
    }
    Ok(text)
}

/// What writing a list into a slice of so many bytes gives.
pub fn write(list: &[i64], out_len: usize) -> Result<String, u32> {
    text(list).and_then(|text| if text.len() <= out_len { Ok(text) } else { Err(68) })
}
