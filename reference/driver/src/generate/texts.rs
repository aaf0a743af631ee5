//! Texts that a reader must refuse: no sheet at all, past a limit, or a body that fails a check.

use super::{bins as named, bodies, edges};
use crate::check::LAST_UNCLAMPED;
use crate::print;
use crate::random::Random;
use crate::sheet::{Row, Sheet};

fn some_body(r: &mut Random) -> Sheet {
    if r.chance(50) { bodies::boxes(r, 0) } else { bodies::failed(r, 0) }
}

/// A body that fails check 12, 22 or 23, or two of them.
pub fn refused(r: &mut Random, of_bins: &mut Random) -> Vec<u8> {
    let mut body = some_body(r);
    for _ in 0..r.size(1, 2) {
        let k = body.rows.iter().position(|row| !row.indices.is_empty()).expect("a row with triangles");
        match r.below(4) {
            0 => {
                let outcome = *r.pick(&[256, 1000, u32::MAX]);
                body.rows.push(Row { outcome, ..Row::default() });
            }
            1 => body.rows[k].indices[1] = *r.pick(&[body.rows[k].positions.len() as u32, u32::MAX, 200]),
            2 => body.rows[k].positions[0][r.below(3) as usize] = *r.pick(&[0x7f80_0000, 0xff80_0000, 0x7fc0_0000, 0x7f80_0001]),
            _ => body.rows[k].normals[0][r.below(3) as usize] = *r.pick(&[0x7f80_0000, 0xffff_ffff]),
        }
    }
    print::sheet(&named::given(body, of_bins)).into_bytes()
}

/// A body with coordinates of a size at which cells clamp, mostly refused.
pub fn huge(r: &mut Random, of_bins: &mut Random) -> Vec<u8> {
    print::sheet(&named::given(bodies::huge(r, 0), of_bins)).into_bytes()
}

/// Bits of coordinates whose cells clamp: the first of them, the next, 2^44, about 10^13, and the largest number.
const CLAMPED: [u32; 5] = [LAST_UNCLAMPED + 1, LAST_UNCLAMPED + 2, 0x5580_0000, 0x5511_84e7, 0x7f7f_ffff];

/// A body with positions whose cells clamp, in vertices that triangles use or in others, alone or with a fault of another check.
pub fn clamped(r: &mut Random, of_bins: &mut Random) -> Vec<u8> {
    let mut body = named::given(some_body(r), of_bins);
    for _ in 0..r.size(1, 3) {
        let patches: Vec<usize> = (0..body.rows.len()).filter(|k| !body.rows[*k].indices.is_empty()).collect();
        let row = &mut body.rows[*r.pick(&patches)];
        if r.chance(40) {
            row.positions.push([0, 0x3f80_0000, 0x4000_0000]);
            row.normals.push([0; 3]);
        }
        let last = row.positions.len() - 1;
        let vertex = *r.pick(&[0, last, last]);
        row.positions[vertex][r.size(0, 2)] = *r.pick(&CLAMPED) | *r.pick(&[0, 0x8000_0000]);
    }
    let k = body.rows.iter().rposition(|row| !row.indices.is_empty()).expect("a row with triangles");
    match r.below(10) {
        0 => body.rows[k].normals[0][2] = *r.pick(&[0x7fc0_0000, 0xff80_0000]),
        1 => body.rows[k].positions[1][1] = *r.pick(&[0xff80_0000, 0x7f80_0001]),
        2 => body.rows[k].indices[2] = u32::MAX,
        3 => body.rows[k].bin = 65_536,
        _ => {}
    }
    print::sheet(&body).into_bytes()
}

/// A body with a bin past the limit or at it, on a patch or on a failed row, alone or with a fault of another check; its lines may name
/// bin 0 too, and a later line may be no line at all or pass a limit of the bench program.
pub fn bins(r: &mut Random, of_bins: &mut Random) -> Vec<u8> {
    let mut body = named::given(some_body(r), of_bins);
    if r.chance(40) {
        body.rows.push(Row { face: 63, outcome: 255, ..Row::default() });
    }
    let k = if r.chance(40) { body.rows.len() - 1 } else { r.below(body.rows.len() as u64) as usize };
    body.rows[k].bin = *r.pick(&[65_535, 65_536, 65_536, 65_537, 131_072, 0x8000_0000, u32::MAX]);
    let patch = body.rows.iter().position(|row| !row.indices.is_empty()).expect("a row with triangles");
    match r.below(6) {
        0 => body.rows.push(Row { outcome: 256, bin: 65_536, ..Row::default() }),
        1 => body.rows[patch].indices[0] = u32::MAX,
        2 => body.rows[patch].normals[0][0] = 0x7f80_0000,
        _ => {}
    }
    let mut text = print::sheet(&body);
    if r.chance(30) {
        text = text.lines().map(|line| with_bin_zero(line) + "\n").collect();
    }
    if r.chance(30) {
        text += *r.pick(&[
            "(face 0 64 65536)\n",
            "(face 0 1 4294967296)\n",
            "(face 0 1 00)\n",
            "(face 0 1 )\n",
            "(face 0 1 2 3)\n",
            "(fail 0 1 7 -1)\n",
            "(fail 0 1 0 7)\n",
            "(fail 0 1 7 65536)\n",
        ]);
    }
    text.into_bytes()
}

/// A face or fail line that names bin 0 where it named none.
fn with_bin_zero(line: &str) -> String {
    let numbers = line.split(' ').count() - 1;
    let bare = (line.starts_with("(face ") && numbers == 2) || (line.starts_with("(fail ") && numbers == 3);
    if bare { format!("{} 0)", &line[..line.len() - 1]) } else { line.to_string() }
}

/// A body at a limit of the bench program or just past it.
pub fn limits(r: &mut Random, of_bins: &mut Random) -> Vec<u8> {
    let mut body = bodies::boxes(r, 0);
    match r.below(6) {
        0 => {
            let count = r.size(15, 18);
            while body.rows.len() < count {
                body.rows.push(Row { face: body.rows.len() as u32, ..Row::default() });
            }
        }
        1 => body.rows[0].face = r.size(62, 65) as u32,
        2 => body.materials.push((r.size(62, 65) as u32, 1)),
        3 => {
            let extra = r.size(95, 98).saturating_sub(body.vertices());
            for _ in 0..extra {
                body.rows[0].positions.push([0; 3]);
                body.rows[0].normals.push([0; 3]);
            }
        }
        4 => {
            let triangle: Vec<u32> = body.rows[0].indices[..3].to_vec();
            while body.indices() < 93 + 3 * r.size(0, 2) {
                body.rows[0].indices.extend(&triangle);
            }
        }
        _ => body = edges::crowded(r, 12),
    }
    print::sheet(&named::given(body, of_bins)).into_bytes()
}

/// A sheet with one line or one byte spoiled.
pub fn malformed(r: &mut Random, of_bins: &mut Random) -> Vec<u8> {
    let mut body = named::given(some_body(r), of_bins);
    body.materials = vec![(7, 3)];
    let text = print::sheet(&body);
    let mut lines: Vec<String> = text.lines().map(str::to_string).collect();
    let k = r.below(lines.len() as u64) as usize;
    let last = lines.len() - 1;
    match r.below(16) {
        0 => lines[k] = lines[k].to_lowercase().replace('e', "f"),
        1 => lines[k] = lines[k].replacen(' ', "  ", 1),
        2 => lines[k].push(' '),
        3 => lines[k] = format!(" {}", lines[k]),
        4 => lines[k] = lines[k].replacen(' ', " 0", 1),
        5 => lines[k].push('\r'),
        6 => drop(lines.remove(r.below(3) as usize)),
        7 => lines.insert(k, String::new()),
        8 => lines.swap(k, last),
        9 => lines.insert(k, lines[k.min(2)].clone()),
        10 => lines.push("(fail 0 1 0)".to_string()),
        11 => lines[k] = lines[k].replacen(')', "", 1),
        12 => lines.push(
            (*r.pick(&["(default -)", "(material 1 1)", "(face 0)", "(t 0 1)", "(v)", "(face 0 4294967296)", "()", "(fail 0 1 -1)"]))
                .to_string(),
        ),
        13 => lines[k] = "(".repeat(r.size(100, 300)),
        14 => return text.into_bytes()[..text_end(r, lines.len(), last)].to_vec(),
        _ => return flipped(r, text.into_bytes()),
    }
    let mut out = lines.join("\n");
    out.push('\n');
    out.into_bytes()
}

/// A place where the text is cut off: at its start or in its first line.
fn text_end(r: &mut Random, lines: usize, last: usize) -> usize {
    if r.chance(30) { 0 } else { lines - last + r.below(40) as usize }
}

/// The text with one byte changed.
fn flipped(r: &mut Random, mut text: Vec<u8>) -> Vec<u8> {
    let k = r.below(text.len() as u64) as usize;
    text[k] = *r.pick(b"0aG()- \n\t\0\xff");
    text
}
