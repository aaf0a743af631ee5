//! Plans and lists at each limit and one past it, with the answers that document 02 asks for written by hand.

use super::model::{MOST_BIN, MOST_OFFSET, read, write};
use compare::library::{ENTRY, MOST_ENTRIES};

/// A text, the numbers that its list has room for, and how many entries it gives or what it is refused with.
pub type Text = (String, usize, Result<usize, u32>);

/// A list, the bytes that there is room for, and the length of its text or what it is refused with.
pub type List = (Vec<i64>, usize, Result<usize, u32>);

const GROUP: &str = "(group 0 0 0\n";
const BIN: &str = "(bin 0 0 0 0)\n";
const ROOMY: usize = ENTRY * 3;
const FULL: usize = ENTRY * MOST_ENTRIES;

/// So many groups, each in the one before, around some lines.
fn within(depth: usize, lines: &str) -> String {
    GROUP.repeat(depth) + lines + &")\n".repeat(depth)
}

/// Texts with a malformed line, or without an end that they need.
#[rustfmt::skip]
const MALFORMED: &[&str] = &[
    "(bin 0 -0 0 0)\n", "(bin 0 0 0 -0)\n", "(group -0 0 0\n)\n", "(bin -0 0 0 0)\n", "(bin 0 +5 0 0)\n", "(bin +0 0 0 0)\n",
    "(bin 0 05 0 0)\n", "(bin 00 0 0 0)\n", "(group 0 -05 0\n)\n", "(bin 0 5 0 0)\r\n", "(group 0 0 0\r\n)\n", " (bin 0 5 0 0)\n",
    "\t)\n", "\n", "(bin 0 0 0 0)\n\n", "(group 0 0 0)\n)\n", "(group 0 0 0)\n", "(bin 0 0 0 0)", "(group 0 0 0\n)", "(bin 0 0 0 0\n",
    "(bin 0 0 0)\n", "(bin 0 0 0 0 0)\n", "(group 0 0\n)\n", "(group 0 0 0 0\n)\n", "(bin  0 0 0 0)\n", "(bin 0 0 0 0 )\n",
    "(bin 0 0 0 0) \n", "(BIN 0 0 0 0)\n", "bin 0 0 0 0\n", "(bin0 0 0 0)\n", "(bin -1 0 0 0)\n", "(bin 65536 0 0 0)\n",
    "(bin 18446744073709551616 0 0 0)\n", "(bin 0 18446744073709551616 0 0)\n", "(bin 0 -18446744073709551615 0 0)\n",
    "(bin 0 0 99999999999999999999999 0)\n", "(bin 0 1099511627777 0 0)\n", "(bin 0 0 0 -1099511627777)\n",
    "(group 1099511627777 0 0\n)\n", "(group 0 -1099511627777 0\n)\n", ")\n", "(group 0 0 0\n)\n)\n", "(group 0 0 0\n",
    "(bin 0 0 0 0)\0\n", "(", "-",
];

/// Texts of one line or few, and of none.
fn small_texts() -> Vec<Text> {
    let good =
        [("", 0), ("(bin 65535 -1099511627776 1099511627776 -1)\n", 1), ("(group 0 0 0\n)\n", 0), ("(bin 7 0 0 0)\n(bin 7 0 0 0)\n", 2)];
    let bad = MALFORMED.iter().map(|text| (text.to_string(), ROOMY, Err(61)));
    good.iter().map(|(text, entries)| (text.to_string(), ROOMY, Ok(*entries))).chain(bad).collect()
}

/// Depths, places and sums at their limits, and several faults in one text.
fn deep_texts() -> Vec<Text> {
    let most = MOST_OFFSET;
    let long = |depth: usize, lines: &str| (GROUP.repeat(depth) + lines, ROOMY);
    let mut texts = vec![
        (within(16, BIN), ROOMY, Ok(1)),
        (within(16, &within(0, "")), ROOMY, Ok(0)),
        (within(17, BIN), ROOMY, Err(62)),
        (within(15, &(GROUP.to_string() + ")\n" + GROUP + ")\n")), ROOMY, Ok(0)),
        (within(40, "x\n"), ROOMY, Err(62)),
        (format!("(group {most} 0 0\n(group {most} 0 0\n(bin 0 -{most} 0 0)\n)\n)\n"), ROOMY, Ok(1)),
        (format!("(group {most} 0 0\n(group {most} 0 0\n)\n)\n"), ROOMY, Ok(0)),
        (format!("(group {most} 0 0\n(bin 0 1 0 0)\n)\n"), ROOMY, Err(63)),
        (format!("(group 0 -1 0\n(bin 0 0 -{most} 0)\n)\n"), ROOMY, Err(63)),
        (format!("(group 0 0 {most}\n(bin 0 0 0 1)\n)\nx\n"), ROOMY, Err(63)),
        (format!("{}(bin 0 0 0 -1)\n{}", format!("(group 0 0 -{most}\n").repeat(16), ")\n".repeat(16)), ROOMY, Err(63)),
        ("(group 5 0 0\n(group 70 0 0\n)\n(bin 1 0 0 0)\n)\n(bin 2 0 0 0)\n".to_string(), ROOMY, Ok(2)),
    ];
    // A seventeenth line that is malformed too is 61, and so is one past the seventeenth that is well formed 62.
    for (lines, number) in [("(group 0 0 -0\n", 61), ("(group 0 0 0\n", 62), ("(group 0 0 0\nx\n", 62), ("x\n(group 0 0 0\n", 61)] {
        let (text, room) = long(16, lines);
        texts.push((text, room, Err(number)));
    }
    texts
}

/// Lists too short and plans too long, alone and with another fault.
fn full_texts() -> Vec<Text> {
    let far = format!("(group 1 0 0\n(bin 0 {MOST_OFFSET} 0 0)\n)\n");
    let all = BIN.repeat(MOST_ENTRIES);
    let mut texts = vec![
        (all.clone(), FULL, Ok(MOST_ENTRIES)),
        (all.clone(), FULL + 3, Ok(MOST_ENTRIES)),
        (all.clone(), 2 * FULL, Ok(MOST_ENTRIES)),
        (all.clone(), FULL - 1, Err(64)),
        (all.clone() + BIN, FULL, Err(64)),
        (all.clone() + BIN, FULL + ENTRY, Err(64)),
        (all.clone() + BIN, 2 * FULL, Err(64)),
        (all.clone() + &far, FULL, Err(63)),
        (all.clone() + &far, 2 * FULL, Err(63)),
        (all.clone() + "x\n", FULL, Err(61)),
        (all.clone() + BIN + "x\n", FULL, Err(64)),
        (all.clone() + GROUP, FULL, Err(61)),
        (all.clone() + &within(17, ""), FULL, Err(62)),
        (GROUP.to_string() + &all + BIN, FULL, Err(64)),
        (within(1, &all), FULL, Ok(MOST_ENTRIES)),
    ];
    for (bins, numbers) in [(0, 0), (1, 4), (1, 5), (1, 7), (2, 8), (3, 12), (3, 13)] {
        texts.push((BIN.repeat(bins), numbers, Ok(bins)));
    }
    for (bins, numbers) in [(1, 0), (1, 3), (2, 4), (2, 7), (3, 11)] {
        texts.push((BIN.repeat(bins), numbers, Err(64)));
        texts.push((BIN.repeat(bins) + "x\n", numbers, Err(64)));
        texts.push((BIN.repeat(bins - 1) + &far, numbers, Err(63)));
        texts.push((GROUP.to_string() + &BIN.repeat(bins), numbers, Err(64)));
    }
    texts
}

/// Texts with their answers, the model's held to them too.
pub fn texts() -> Vec<Text> {
    let all = [small_texts(), deep_texts(), full_texts()].concat();
    for (text, numbers, wanted) in &all {
        let entries = read(text.as_bytes(), *numbers).map(|entries| entries.len());
        assert_eq!(entries, *wanted, "the model reads {:?} into {numbers} numbers", &text[..text.len().min(80)]);
    }
    all
}

/// An entry of a bin and a place on the first axis.
fn entry(bin: i64, x: i64) -> Vec<i64> {
    vec![bin, x, 0, 0]
}

/// Single entries at each limit and past it.
fn small_lists() -> Vec<List> {
    let line = "(bin 0 0 0 0)\n".len();
    let (good, bin, far) = (entry(0, 0), entry(MOST_BIN + 1, 0), entry(0, MOST_OFFSET + 1));
    let mut lists = vec![
        (vec![], 0, Ok(0)),
        (vec![i64::MIN; 3], 0, Ok(0)),
        (good.clone(), line, Ok(line)),
        (good.clone(), line - 1, Err(68)),
        (good.clone(), 0, Err(68)),
        (vec![MOST_BIN, -MOST_OFFSET, -MOST_OFFSET, -MOST_OFFSET], 57, Ok(57)),
        (vec![MOST_BIN, -MOST_OFFSET, -MOST_OFFSET, -MOST_OFFSET], 56, Err(68)),
        ([good.clone(), vec![i64::MAX; 3]].concat(), line, Ok(line)),
        ([bin.clone(), far.clone()].concat(), 99, Err(61)),
        ([far.clone(), bin.clone()].concat(), 99, Err(63)),
        ([good.clone(), far.clone(), bin.clone()].concat(), 0, Err(63)),
        (entry(MOST_BIN + 1, MOST_OFFSET + 1), 99, Err(61)),
    ];
    for wrong in [-1, MOST_BIN + 1, i64::MIN, i64::MAX, 1 << 32, -(1 << 32)] {
        lists.push((entry(wrong, 0), 99, Err(61)));
    }
    for wrong in [MOST_OFFSET + 1, -MOST_OFFSET - 1, i64::MIN, i64::MAX, 1 << 41] {
        for axis in 1..ENTRY {
            let mut list = good.clone();
            list[axis] = wrong;
            lists.push((list, 0, Err(63)));
        }
    }
    lists
}

/// Lists of 4,096 entries and of more.
fn full_lists() -> Vec<List> {
    let (all, line) = (vec![0; FULL], "(bin 0 0 0 0)\n".len());
    let length = line * MOST_ENTRIES;
    let with = |more: &[i64]| [&all, more].concat();
    vec![
        (all.clone(), length, Ok(length)),
        (with(&[0; 3]), length, Ok(length)),
        (all.clone(), length - 1, Err(68)),
        (with(&[0; ENTRY]), 2 * length, Err(64)),
        (with(&[0; ENTRY]), 0, Err(64)),
        (with(&entry(0, MOST_OFFSET + 1)), 2 * length, Err(63)),
        (with(&entry(-1, MOST_OFFSET + 1)), 2 * length, Err(61)),
        (with(&[entry(0, 0), entry(-1, 0)].concat()), 2 * length, Err(64)),
        ([entry(-1, 0), all.clone()].concat(), 2 * length, Err(61)),
    ]
}

/// Lists with their answers, the model's held to them too.
pub fn lists() -> Vec<List> {
    let all = [small_lists(), full_lists()].concat();
    for (list, room, wanted) in &all {
        let length = write(list, *room).map(|text| text.len());
        assert_eq!(length, *wanted, "the model writes a list of {} numbers into {room} bytes", list.len());
    }
    all
}
