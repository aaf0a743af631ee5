//! Ways to damage a plan's text, most of which make a line of it malformed.

use driver::random::Random;

/// Words in the place of a number: other ways to write one, numbers at and past a limit, numbers that pass 32, 64 or 128 bits, and no numbers.
const WORDS: [&str; 34] = [
    "-0",
    "+5",
    "05",
    "-05",
    "00",
    "--1",
    "-",
    "",
    " 5",
    "5 ",
    "5.0",
    "1e3",
    "0x10",
    "A",
    "\u{ff15}",
    "5\r",
    "1099511627776",
    "-1099511627776",
    "1099511627777",
    "-1099511627777",
    "65535",
    "65536",
    "-1",
    "4294967296",
    "9223372036854775807",
    "9223372036854775808",
    "-9223372036854775808",
    "18446744073709551615",
    "18446744073709551616",
    "18446744073709551621",
    "-18446744073709551621",
    "99999999999999999999999",
    "340282366920938463463374607431768211461",
    "1180591620717411303424",
];

/// Lines that are put in, some of them good.
const LINES: [&str; 16] = [
    "",
    " ",
    ")",
    ") ",
    " )",
    "))",
    "(group 0 0 0",
    "(group 0 0 0)",
    "(group 0 0",
    "(group 0 0 0 0",
    "(bin 0 0 0 0",
    "(bin 0 0 0)",
    "(bin 0 0 0 0 0)",
    "(Bin 0 0 0 0)",
    "(bin  0 0 0 0)",
    "; a comment",
];

/// Words in the place of a bin's number.
const BINS: [&str; 7] = ["-1", "-7", "65535", "65536", "65537", "131072", "4294967295"];

/// Bytes that are put in or stand in for another.
const BYTES: &[u8] = b"()- 0123456789\n\r\t+bingroup\0\x80\xff";

type Damage = fn(&mut Vec<u8>, &mut Random);

const DAMAGES: [Damage; 13] =
    [flip, replace, remove, insert, cut, word, word, bin_number, carriage_return, line_in, lines_swapped, line_again, line_out];

fn byte(r: &mut Random) -> u8 {
    if r.chance(80) { *r.pick(BYTES) } else { r.below(256) as u8 }
}

/// A place in a text that isn't empty.
fn at(text: &[u8], r: &mut Random) -> Option<usize> {
    text.len().checked_sub(1).map(|last| r.size(0, last))
}

fn flip(text: &mut Vec<u8>, r: &mut Random) {
    if let Some(k) = at(text, r) {
        let flipped = text[k] ^ (1 << r.below(8));
        text.splice(k..=k, [flipped]);
    }
}

fn replace(text: &mut Vec<u8>, r: &mut Random) {
    if let Some(k) = at(text, r) {
        text.splice(k..=k, [byte(r)]);
    }
}

fn remove(text: &mut Vec<u8>, r: &mut Random) {
    if let Some(k) = at(text, r) {
        text.remove(k);
    }
}

fn insert(text: &mut Vec<u8>, r: &mut Random) {
    let k = r.size(0, text.len());
    text.insert(k, byte(r));
}

/// The end is cut off, often its last byte alone.
fn cut(text: &mut Vec<u8>, r: &mut Random) {
    if let Some(k) = at(text, r) {
        let last = text.len() - 1;
        text.truncate(if r.chance(40) { last } else { k });
    }
}

/// A number that stands behind some text becomes another word.
fn word_behind(text: &mut Vec<u8>, before: &[u8], words: &[&str], r: &mut Random) {
    let starts: Vec<usize> = (0..text.len()).filter(|k| text[..*k].ends_with(before)).collect();
    if starts.is_empty() {
        return;
    }
    let start = *r.pick(&starts);
    let length = text[start..].iter().position(|byte| b" )\n".contains(byte)).unwrap_or(text.len() - start);
    text.splice(start..start + length, r.pick(words).bytes());
}

fn word(text: &mut Vec<u8>, r: &mut Random) {
    word_behind(text, b" ", &WORDS, r);
}

fn bin_number(text: &mut Vec<u8>, r: &mut Random) {
    word_behind(text, b"(bin ", &BINS, r);
}

/// A line ends in CR LF.
fn carriage_return(text: &mut Vec<u8>, r: &mut Random) {
    let ends: Vec<usize> = (0..text.len()).filter(|k| text[*k] == b'\n').collect();
    if !ends.is_empty() {
        text.insert(*r.pick(&ends), b'\r');
    }
}

/// The lines of a text, each with its LF.
fn lines(text: &[u8]) -> Vec<Vec<u8>> {
    text.split_inclusive(|byte| *byte == b'\n').map(<[u8]>::to_vec).collect()
}

fn line_in(text: &mut Vec<u8>, r: &mut Random) {
    let mut all = lines(text);
    let place = r.size(0, all.len());
    all.insert(place, format!("{}\n", r.pick(&LINES)).into_bytes());
    *text = all.concat();
}

fn lines_swapped(text: &mut Vec<u8>, r: &mut Random) {
    let mut all = lines(text);
    if let Some(last) = all.len().checked_sub(1) {
        all.swap(r.size(0, last), r.size(0, last));
    }
    *text = all.concat();
}

fn line_again(text: &mut Vec<u8>, r: &mut Random) {
    let mut all = lines(text);
    if let Some(last) = all.len().checked_sub(1) {
        all.insert(r.size(0, last), all[r.size(0, last)].clone());
    }
    *text = all.concat();
}

fn line_out(text: &mut Vec<u8>, r: &mut Random) {
    let mut all = lines(text);
    if let Some(last) = all.len().checked_sub(1) {
        all.remove(r.size(0, last));
    }
    *text = all.concat();
}

/// A text damaged in one to three ways.
pub fn damaged(text: &str, r: &mut Random) -> Vec<u8> {
    let mut text = text.as_bytes().to_vec();
    for _ in 0..r.size(1, 3) {
        let damage = *r.pick(&DAMAGES);
        damage(&mut text, r);
    }
    text
}

/// Every text that is one byte away: each other byte at each place, each byte left out, and each byte put in at each place.
pub fn one_byte(text: &[u8]) -> impl Iterator<Item = Vec<u8>> {
    let with = move |k: usize, taken: usize, put: &[u8]| [&text[..k], put, &text[k + taken..]].concat();
    let others = (0..text.len()).flat_map(move |k| (0..=255).filter(move |b| *b != text[k]).map(move |b| with(k, 1, &[b])));
    let shorter = (0..text.len()).map(move |k| with(k, 1, &[]));
    let longer = (0..=text.len()).flat_map(move |k| (0..=255).map(move |b| with(k, 0, &[b])));
    others.chain(shorter).chain(longer)
}
